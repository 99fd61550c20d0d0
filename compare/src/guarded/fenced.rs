//! Pages of their own for what is lent, between pages that nothing may touch. The standard library
//! has no call for it, so the system's own are declared here, with the numbers of Linux.

use super::Fence;
use std::ffi::{c_int, c_void};
use std::ptr;

extern "C" {
    fn mmap(
        at: *mut c_void,
        octets: usize,
        may: c_int,
        how: c_int,
        file: c_int,
        from: i64,
    ) -> *mut c_void;
    fn mprotect(at: *mut c_void, octets: usize, may: c_int) -> c_int;
    fn munmap(at: *mut c_void, octets: usize) -> c_int;
}

const NOTHING: c_int = 0;
const READ: c_int = 1;
const WRITE: c_int = 2;
const PRIVATE_AND_OF_NO_FILE: c_int = 0x22;

/// A multiple of every size of page.
const PAGE: usize = 65_536;

pub struct Fenced<T> {
    mapped: *mut c_void,
    octets: usize,
    pub at: *mut T,
    pub length: usize,
}

impl<T: Copy> Fenced<T> {
    pub fn holding(whole: &[T], fence: Fence, may_write: bool) -> Fenced<T> {
        let length = size_of_val(whole);
        let inside = length.next_multiple_of(PAGE).max(PAGE);
        let octets = inside + 2 * PAGE;
        // Safety: the memory is fresh and this value's alone, and its inner pages have room.
        unsafe {
            let mapped = mmap(ptr::null_mut(), octets, NOTHING, PRIVATE_AND_OF_NO_FILE, -1, 0);
            assert_ne!(mapped as isize, -1, "no memory to be had");
            let inner = mapped.byte_add(PAGE);
            assert_eq!(mprotect(inner, inside, READ | WRITE), 0, "no memory to write to");
            let at = match fence {
                Fence::Before => inner,
                Fence::Behind => inner.byte_add(inside - length),
            };
            let at = at.cast::<T>();
            at.copy_from_nonoverlapping(whole.as_ptr(), whole.len());
            if !may_write {
                assert_eq!(mprotect(inner, inside, READ), 0, "no memory to be only read");
            }
            Fenced { mapped, octets, at, length: whole.len() }
        }
    }
}

impl<T> Drop for Fenced<T> {
    fn drop(&mut self) {
        // Safety: nothing else points to what `holding` has mapped.
        unsafe { munmap(self.mapped, self.octets) };
    }
}
