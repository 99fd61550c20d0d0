//! The calls of the archive over slices: all that is unsafe in this package.
//!
//! What makes each call below sound is the same. A pointer and its length come from one slice, or a
//! pointer to one number from a reference; both live through the call, and nothing is kept after it.
//! What is written is borrowed by `&mut`, so it overlaps nothing else that is lent.

use ahozurime_sys as sys;

/// A setup's eight numbers, in the header's order.
pub type SetupNumbers = (u8, u8, u8, u16, u32, u16, u8, u32);

#[inline]
pub fn version() -> u32 {
    // Safety: nothing is lent.
    unsafe { sys::ahz_version() }
}

#[inline]
pub fn read(frame: &[u8], header: &mut [u64; sys::AHZ_H_WORDS]) -> u8 {
    // Safety: two slices, each with its length; the second is borrowed alone.
    unsafe { sys::ahz_read(frame.as_ptr(), frame.len(), header.as_mut_ptr(), header.len()) }
}

#[inline]
pub fn read_hsr(frame: &[u8], header: &mut [u64; sys::AHZ_H_ID_WORDS]) -> u8 {
    // Safety: two slices, each with its length; the second is borrowed alone.
    unsafe { sys::ahz_read_hsr(frame.as_ptr(), frame.len(), header.as_mut_ptr(), header.len()) }
}

#[inline]
pub fn read_prp(frame: &[u8], header: &mut [u64; sys::AHZ_H_ID_WORDS]) -> u8 {
    // Safety: two slices, each with its length; the second is borrowed alone.
    unsafe { sys::ahz_read_prp(frame.as_ptr(), frame.len(), header.as_mut_ptr(), header.len()) }
}

#[inline]
pub fn payload(frame: &[u8]) -> usize {
    // Safety: one slice with its length.
    unsafe { sys::ahz_payload(frame.as_ptr(), frame.len()) }
}

#[inline]
pub fn insert(frame: &[u8], number: u16, out: &mut [u8], length: &mut usize) -> u8 {
    let (at, octets) = (out.as_mut_ptr(), out.len());
    // Safety: two slices, each with its length, and one number; the last two are borrowed alone.
    unsafe { sys::ahz_insert(frame.as_ptr(), frame.len(), number, at, octets, length) }
}

#[inline]
pub fn insert_hsr(frame: &[u8], number: u16, id: u8, out: &mut [u8], length: &mut usize) -> u8 {
    let (at, octets) = (out.as_mut_ptr(), out.len());
    // Safety: two slices, each with its length, and one number; the last two are borrowed alone.
    unsafe { sys::ahz_insert_hsr(frame.as_ptr(), frame.len(), number, id, at, octets, length) }
}

#[inline]
pub fn insert_prp(frame: &[u8], number: u16, id: u8, out: &mut [u8], length: &mut usize) -> u8 {
    let (at, octets) = (out.as_mut_ptr(), out.len());
    // Safety: two slices, each with its length, and one number; the last two are borrowed alone.
    unsafe { sys::ahz_insert_prp(frame.as_ptr(), frame.len(), number, id, at, octets, length) }
}

#[inline]
pub fn remove(frame: &[u8], out: &mut [u8], length: &mut usize) -> u8 {
    let (at, octets) = (out.as_mut_ptr(), out.len());
    // Safety: two slices, each with its length, and one number; the last two are borrowed alone.
    unsafe { sys::ahz_remove(frame.as_ptr(), frame.len(), at, octets, length) }
}

#[inline]
pub fn remove_hsr(frame: &[u8], out: &mut [u8], length: &mut usize) -> u8 {
    let (at, octets) = (out.as_mut_ptr(), out.len());
    // Safety: two slices, each with its length, and one number; the last two are borrowed alone.
    unsafe { sys::ahz_remove_hsr(frame.as_ptr(), frame.len(), at, octets, length) }
}

#[inline]
pub fn remove_prp(frame: &[u8], out: &mut [u8], length: &mut usize) -> u8 {
    let (at, octets) = (out.as_mut_ptr(), out.len());
    // Safety: two slices, each with its length, and one number; the last two are borrowed alone.
    unsafe { sys::ahz_remove_prp(frame.as_ptr(), frame.len(), at, octets, length) }
}

#[inline]
pub fn crc32(data: &[u8]) -> u32 {
    // Safety: one slice with its length.
    unsafe { sys::ahz_crc32(data.as_ptr(), data.len()) }
}

#[inline]
pub fn check_fcs(frame: &[u8]) -> u8 {
    // Safety: one slice with its length.
    unsafe { sys::ahz_check_fcs(frame.as_ptr(), frame.len()) }
}

#[inline]
pub fn without_fcs(frame: &[u8]) -> usize {
    // Safety: one slice with its length.
    unsafe { sys::ahz_without_fcs(frame.as_ptr(), frame.len()) }
}

#[inline]
pub fn append_fcs(frame: &[u8], out: &mut [u8], length: &mut usize) -> u8 {
    let (at, octets) = (out.as_mut_ptr(), out.len());
    // Safety: two slices, each with its length, and one number; the last two are borrowed alone.
    unsafe { sys::ahz_append_fcs(frame.as_ptr(), frame.len(), at, octets, length) }
}

#[inline]
pub fn check_table(table: &[u8]) -> u8 {
    // Safety: one slice with its length.
    unsafe { sys::ahz_check_table(table.as_ptr(), table.len()) }
}

#[inline]
pub fn lookup(table: &[u8], frame: &[u8], handle: &mut u16) -> u8 {
    // Safety: two slices, each with its length, and one number, which is borrowed alone.
    unsafe { sys::ahz_lookup(table.as_ptr(), table.len(), frame.as_ptr(), frame.len(), handle) }
}

#[inline]
pub fn generator() -> u16 {
    // Safety: nothing is lent.
    unsafe { sys::ahz_generator() }
}

#[inline]
pub fn generate(generator: &mut u16) -> u16 {
    // Safety: one number, borrowed alone.
    unsafe { sys::ahz_generate(generator) }
}

#[inline]
pub fn generator_reset(generator: &mut u16) {
    // Safety: one number, borrowed alone.
    unsafe { sys::ahz_generator_reset(generator) }
}

#[inline]
pub fn ticks(milliseconds: u32, rate: u16) -> u64 {
    // Safety: nothing is lent.
    unsafe { sys::ahz_ticks(milliseconds, rate) }
}

#[inline]
pub fn check_setup(setup: SetupNumbers) -> u8 {
    let (rule, taken, usage, history, ms, rate, paths, difference) = setup;
    // Safety: nothing is lent.
    unsafe { sys::ahz_check_setup_v2(rule, taken, usage, history, ms, rate, paths, difference) }
}

#[inline]
pub fn fresh(setup: SetupNumbers, state: &mut [u64; sys::AHZ_S_WORDS]) -> u8 {
    let (rule, taken, usage, history, ms, rate, paths, difference) = setup;
    let (at, words) = (state.as_mut_ptr(), state.len());
    // Safety: one slice with its length, borrowed alone.
    unsafe {
        sys::ahz_fresh_v4(rule, taken, usage, history, ms, rate, paths, difference, at, words)
    }
}

#[inline]
pub fn numbered(state: &mut [u64; sys::AHZ_S_WORDS], number: u16) -> u8 {
    // Safety: one slice with its length, borrowed alone.
    unsafe { sys::ahz_numbered(state.as_mut_ptr(), state.len(), number) }
}

#[inline]
pub fn tagless(state: &mut [u64; sys::AHZ_S_WORDS]) -> u8 {
    // Safety: one slice with its length, borrowed alone.
    unsafe { sys::ahz_tagless(state.as_mut_ptr(), state.len()) }
}

#[inline]
pub fn tick(state: &mut [u64; sys::AHZ_S_WORDS]) -> u8 {
    // Safety: one slice with its length, borrowed alone.
    unsafe { sys::ahz_tick(state.as_mut_ptr(), state.len()) }
}

#[inline]
pub fn reset(state: &mut [u64; sys::AHZ_S_WORDS]) -> u8 {
    // Safety: one slice with its length, borrowed alone.
    unsafe { sys::ahz_reset(state.as_mut_ptr(), state.len()) }
}

#[inline]
pub fn latent_reset(state: &mut [u64; sys::AHZ_S_WORDS]) -> u8 {
    // Safety: one slice with its length, borrowed alone.
    unsafe { sys::ahz_latent_reset(state.as_mut_ptr(), state.len()) }
}

#[inline]
pub fn latent_test(state: &[u64; sys::AHZ_S_WORDS]) -> u8 {
    // Safety: one slice with its length.
    unsafe { sys::ahz_latent_test(state.as_ptr(), state.len()) }
}

#[inline]
pub fn card(payload: &[u8], value: &mut u32) -> u8 {
    // Safety: one slice with its length, and one number, which is borrowed alone.
    unsafe { sys::ahz_card(payload.as_ptr(), payload.len(), value) }
}

#[inline]
pub fn card_octets(payload: &[u8]) -> usize {
    // Safety: one slice with its length.
    unsafe { sys::ahz_card_octets(payload.as_ptr(), payload.len()) }
}

#[inline]
pub fn rest_octets(payload: &[u8]) -> usize {
    // Safety: one slice with its length.
    unsafe { sys::ahz_rest_octets(payload.as_ptr(), payload.len()) }
}

#[inline]
pub fn volts(payload: &[u8], gain: f64, offset: f64, volts: &mut f64) -> u8 {
    // Safety: one slice with its length, and one number, which is borrowed alone.
    unsafe { sys::ahz_volts(payload.as_ptr(), payload.len(), gain, offset, volts) }
}

#[inline]
pub fn tape(tape: &[u8], out: &mut [u8], length: &mut usize) -> u8 {
    let (at, octets) = (out.as_mut_ptr(), out.len());
    // Safety: two slices, each with its length, and one number; the last two are borrowed alone.
    unsafe { sys::ahz_tape_v3(tape.as_ptr(), tape.len(), at, octets, length) }
}
