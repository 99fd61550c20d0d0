//! The calls of Ahozurime, a proved IEEE 802.1CB link layer, as `include/ahozurime.h` has them.
//!
//! Each call and each constant has the name that it has in the header, and the header says what each
//! does; a test of this package holds the two against each other. The package `ahozurime` offers the
//! same calls over slices, with types for units and answers, and is what a program should use.
//!
//! A call whose name ends in `_v2`, `_v3` or `_v4` took or wrote something else before that version. So an
//! older archive is not linked and then misread: it does not have all of these names. From 4 to 5 no name
//! was changed, and an archive of version 4 takes no 892F for a tag; nor since, and one of 5.0 refuses
//! table kind 4: [`ahz_version`] tells.
//!
//! A call goes by the encoding that its name ends in, `_hsr` or `_prp`, and by the R-TAG where there is no
//! such ending. Either tag, R-TAG or HSR tag, is one to every call, but its number only to those of its
//! encoding.
//!
//! # What every call asks for
//!
//! A pointer and the length after it are lent memory: so many octets, or 64-bit words, must be
//! readable there, and writable where the pointer is `*mut`. A pointer without a length is one
//! number. What a call writes must not overlap anything else that is lent to it. A pointer may be
//! null where its length is 0. Nothing is kept after a call returns. Whatever the lent memory holds,
//! a call ends with an answer or a refusal.
//!
//! ```
//! use ahozurime_sys::{ahz_read, AHZ_H_VLAN, AHZ_H_WORDS};
//!
//! let frame = [2, 0, 0, 0, 0, 1, 2, 0, 0, 0, 0, 2, 0x81, 0x00, 0x20, 0x05, 0x08, 0x00];
//! let mut header = [0; AHZ_H_WORDS];
//! // Safety: both pointers come with the lengths of what they point to, and the two lie apart.
//! let answer = unsafe { ahz_read(frame.as_ptr(), frame.len(), header.as_mut_ptr(), header.len()) };
//! assert_eq!((answer, header[AHZ_H_VLAN]), (0, 5));
//! ```

#![no_std]
#![deny(missing_docs)]

mod calls;
mod constants;

pub use calls::*;
pub use constants::*;
