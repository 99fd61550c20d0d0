//! The bench tape: a setup and events as octets, run against the layer, and the lines that it prints.
//!
//! An event is its kind, and what the kind says that follows, big-endian.
//!
//! ```
//! use ahozurime::tape::{self, KIND_NUMBERED, KIND_SETUP, KIND_TICK};
//! use ahozurime::Refusal;
//!
//! // Vector, none without a number, sequence, history 4, 100 ms, 100 ticks a second, 2 paths,
//! // difference 1.
//! let mut events = vec![KIND_SETUP, 0, 0, 0, 0, 4, 0, 0, 0, 100, 0, 100, 2, 0, 0, 0, 1];
//! // Twice the packet 10; a tick.
//! events.extend([KIND_NUMBERED, 0, 10, KIND_NUMBERED, 0, 10, KIND_TICK]);
//! let mut out = [0; 128];
//! let length = tape::run(&events, &mut out)?;
//! assert!(out[..length].starts_with(b"ok\npass\ndiscard\ntick\npassed=1 discarded=1 "));
//!
//! // A fault is a line, the last one, and no refusal of the call.
//! let length = tape::run(&[7], &mut out)?;
//! assert_eq!(out[..length], *b"fault 23\n");
//! assert_eq!(Refusal::from_number(23), Refusal::EVENT_KIND);
//! # Ok::<(), Refusal>(())
//! ```

use crate::{raw, Refusal};
use ahozurime_sys as sys;

/// A packet with a number, whose 2 octets follow.
pub const KIND_NUMBERED: u8 = sys::AHZ_EVENT_NUMBERED;
/// A packet without a number.
pub const KIND_TAGLESS: u8 = sys::AHZ_EVENT_TAGLESS;
/// A tick.
pub const KIND_TICK: u8 = sys::AHZ_EVENT_TICK;
/// A reset.
pub const KIND_RESET: u8 = sys::AHZ_EVENT_RESET;
/// A latent reset.
pub const KIND_LATENT_RESET: u8 = sys::AHZ_EVENT_LATENT_RESET;
/// A latent error test.
pub const KIND_LATENT_TEST: u8 = sys::AHZ_EVENT_LATENT_TEST;
/// The setup, the first event and no later one; its 16 octets follow: rule 1, taken 1, use 1 (0
/// sequence, 1 individual), history 2, milliseconds 4, ticks per second 2, paths 1, difference 4.
pub const KIND_SETUP: u8 = sys::AHZ_EVENT_SETUP;

/// Octets of the longest tape that is no fault.
pub const LONGEST: usize = sys::AHZ_TAPE_LONGEST;
/// Octets that hold the output of every tape.
pub const OUTPUT: usize = sys::AHZ_TAPE_OUTPUT;
/// Octets of stack that are enough for the archive in [`run`].
pub const STACK: usize = sys::AHZ_TAPE_STACK;

/// Runs a tape, writes its lines to `out` and answers how many octets they are. Later octets of `out`
/// stay.
///
/// # Errors
///
/// 8 `out` is shorter than the lines: [`Refusal::OUTPUT_SHORT`]. A fault of the tape is none: it is a
/// line, and the last one.
#[inline]
pub fn run(tape: &[u8], out: &mut [u8]) -> Result<usize, Refusal> {
    let mut length = 0;
    match raw::tape(tape, out, &mut length) {
        sys::AHZ_DONE => Ok(length),
        refusal => Err(Refusal::from_number(refusal)),
    }
}
