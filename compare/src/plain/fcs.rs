//! Document 02, "CR 6. Frame check sequence": the CRC-32 of IEEE 802.3 (clause 3.2.9) by octets, a
//! frame with its check tested, and the check written behind a frame. Tags are not read.

use super::frame;

/// The check's own length.
pub const OCTETS: usize = 4;
pub const SHORTEST: usize = frame::SHORTEST + OCTETS;
pub const LONGEST: usize = frame::LONGEST + OCTETS;

/// The standard's G(x) without x^32. An octet's low bit is sent first and so stands for the highest
/// power: every word here has the coefficient of x^31 in its low bit.
const GENERATOR: u32 = 0x04C1_1DB7_u32.reverse_bits();

/// What eight steps of the division make of each octet.
static TABLE: [u32; 256] = table();

const fn table() -> [u32; 256] {
    let mut table = [0; 256];
    let mut octet = 0;
    while octet < table.len() {
        let mut word = octet as u32;
        let mut step = 0;
        while step < u8::BITS {
            word = if word & 1 == 0 { word >> 1 } else { (word >> 1) ^ GENERATOR };
            step += 1;
        }
        table[octet] = word;
        octet += 1;
    }
    table
}

/// Eight steps at once on the lowest octet of the word, and the next octet put in. That is done beside
/// the load from the table: behind it, as the loop is mostly written, each round would wait for one
/// operation more.
#[inline]
fn step(word: u32, next: &u8) -> u32 {
    ((word >> 8) ^ u32::from(*next)) ^ TABLE[usize::from(word as u8)]
}

/// Of any octets, of none too. "The first 32 bits" are complemented by the ones in the first word,
/// and the remainder by the last `!`.
#[inline]
pub fn crc32(octets: &[u8]) -> u32 {
    match octets {
        [] => 0,
        [first, rest @ ..] => !step(rest.iter().fold(!u32::from(*first), step), &0),
    }
}

/// A frame's length, without its check: 1, then 2.
#[inline]
fn check_length(frame: &[u8]) -> Result<(), u8> {
    match frame.len() {
        ..frame::SHORTEST => Err(1),
        frame::SHORTEST..=frame::LONGEST => Ok(()),
        _ => Err(2),
    }
}

/// A good frame, its check cut off: "the check stands low octet first".
#[inline]
fn cut_off(frame: &[u8]) -> Result<&[u8], u8> {
    let (octets, check) = frame.split_last_chunk::<OCTETS>().ok_or(1)?;
    check_length(octets)?;
    if *check != crc32(octets).to_le_bytes() {
        return Err(28);
    }
    Ok(octets)
}

/// The verdict on a frame with its check: refuses 1, 2, then 28.
#[inline]
pub fn check(frame: &[u8]) -> Result<(), u8> {
    cut_off(frame).map(|_| ())
}

/// The part of the lent frame before its check; empty on a refusal, whose number `check` gives.
#[inline]
pub fn without(frame: &[u8]) -> &[u8] {
    cut_off(frame).unwrap_or_default()
}

/// The frame and its check, written to `out`; answers the result's length. Refuses 1, 2, then 8;
/// nothing is written before the last of them is past.
#[inline]
pub fn append(frame: &[u8], out: &mut [u8]) -> Result<usize, u8> {
    check_length(frame)?;
    let length = frame.len() + OCTETS;
    let out = out.get_mut(..length).ok_or(8)?;
    let (octets, check) = out.split_at_mut(frame.len());
    octets.copy_from_slice(frame);
    check.copy_from_slice(&crc32(frame).to_le_bytes());
    Ok(length)
}
