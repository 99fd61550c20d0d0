//! The frame check sequence: the CRC-32 of IEEE 802.3 over a frame, behind it in four octets, the low
//! one first.
//!
//! Everywhere else a frame is one without its check. Where it is left on, [`check`] comes first, and
//! what [`without`] gives is what the other modules take. Tags are not read here.
//!
//! ```
//! use ahozurime::{fcs, frame, Refusal};
//!
//! let bare = [2, 0, 0, 0, 0, 1, 2, 0, 0, 0, 0, 2, 0x08, 0x00, 0xAB];
//! let mut sent = [0; fcs::LONGEST];
//! let length = fcs::append(&bare, &mut sent)?;
//! let sent = &mut sent[..length];
//! assert_eq!(sent[15..], fcs::crc32(&bare).to_le_bytes());
//!
//! fcs::check(sent)?;
//! assert_eq!(fcs::without(sent), bare);
//! assert_eq!(frame::payload(fcs::without(sent)), [0xAB]);
//!
//! sent[14] ^= 1;
//! assert_eq!(fcs::check(sent), Err(Refusal::FCS));
//! assert!(fcs::without(sent).is_empty());
//! # Ok::<(), Refusal>(())
//! ```

use crate::{raw, Refusal};
use ahozurime_sys as sys;

/// Octets of the check: by so many the result of [`append`] is longer than the frame.
pub const OCTETS: usize = sys::AHZ_FCS_OCTETS;
/// Octets of the shortest frame with its check.
pub const SHORTEST: usize = sys::AHZ_FCS_SHORTEST;
/// Octets of the longest frame with its check: an output of so many holds every result.
pub const LONGEST: usize = sys::AHZ_FCS_LONGEST;
/// Octets of stack that are enough for the archive in each of these calls.
pub const STACK: usize = sys::AHZ_FCS_STACK;

/// The CRC-32 of IEEE 802.3 over any octets; over none it is 0.
///
/// ```
/// assert_eq!(ahozurime::fcs::crc32(b"123456789"), 0xCBF4_3926);
/// ```
#[must_use]
#[inline]
pub fn crc32(data: &[u8]) -> u32 {
    raw::crc32(data)
}

/// Checks a frame with its check.
///
/// # Errors
///
/// In this order: 1 it is under [`SHORTEST`], [`Refusal::FRAME_SHORT`]; 2 it is over [`LONGEST`],
/// [`Refusal::FRAME_LONG`]; 28 its check does not match the octets before it, [`Refusal::FCS`].
#[inline]
pub fn check(frame: &[u8]) -> Result<(), Refusal> {
    match raw::check_fcs(frame) {
        sys::AHZ_DONE => Ok(()),
        refusal => Err(Refusal::from_number(refusal)),
    }
}

/// The frame without its check as a part of it: its first octets. It is empty where [`check`] refuses
/// the frame, and only there.
#[must_use]
#[inline]
pub fn without(frame: &[u8]) -> &[u8] {
    &frame[..raw::without_fcs(frame)]
}

/// Writes the frame and its check to `out` and answers the result's length, [`OCTETS`] more. Later
/// octets of `out` stay. It does not pad: where a wire wants 60 octets before the check, pad first.
///
/// # Errors
///
/// In this order: 1 the frame is under [`frame::SHORTEST`](crate::frame::SHORTEST),
/// [`Refusal::FRAME_SHORT`]; 2 it is over [`frame::LONGEST`](crate::frame::LONGEST),
/// [`Refusal::FRAME_LONG`]; 8 `out` is shorter than the result, [`Refusal::OUTPUT_SHORT`].
#[inline]
pub fn append(frame: &[u8], out: &mut [u8]) -> Result<usize, Refusal> {
    let mut length = 0;
    match raw::append_fcs(frame, out, &mut length) {
        sys::AHZ_DONE => Ok(length),
        refusal => Err(Refusal::from_number(refusal)),
    }
}
