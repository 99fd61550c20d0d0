//! The link layer in plain Rust, one module for each chapter of document 01, and of document 02 `ipv4`
//! for CR 1, `encoding` for CR 5 and `fcs` for CR 6.
//!
//! A refusal is the papers' number ("When the layer says no", and 28 and 37), so every call that can
//! refuse answers `Result<_, u8>`.

#![forbid(unsafe_code)]

pub mod cards;
pub mod encoding;
pub mod fcs;
pub mod frame;
pub mod ipv4;
pub mod recovery;
pub mod streams;
pub mod tape;

/// "All numbers in octets are big-endian."
#[inline]
fn be16(octets: &[u8], at: usize) -> u16 {
    u16::from_be_bytes([octets[at], octets[at + 1]])
}

#[inline]
fn be32(octets: &[u8], at: usize) -> u32 {
    u32::from_be_bytes(octets[at..at + 4].try_into().expect("four octets"))
}
