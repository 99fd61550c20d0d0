//! "Reading a frame": a lent frame read, its payload, and a number put in and taken off, in each of
//! the encodings of CR 5. A call without an encoding in its name is for the R-TAG.
//!
//! What takes an encoding is inlined wherever it is called, so that a caller who knows which one it is
//! has the code of that one alone.

use super::be16;
use super::encoding::{self, Encoding};

pub const SHORTEST: usize = 14;
pub const LONGEST: usize = 1_522;

const ADDRESSES: usize = 12;
const C_TAG: u16 = 0x8100;
const C_TAG_LENGTH: usize = 4;
const TYPE_LENGTH: usize = 2;
const VLAN_ID: u16 = 0x0FFF;
const VLAN_RESERVED: u16 = 4_095;

/// Everything a frame says in front of its payload, and what the stream's encoding reads of it.
#[derive(Clone, Copy, Debug, PartialEq, Eq)]
pub struct Header {
    pub destination: [u8; 6],
    pub source: [u8; 6],
    pub has_c_tag: bool,
    /// 0 without a C-TAG ("Stream tables", *house*).
    pub vlan: u16,
    /// The number in the stream's own encoding; none without one.
    pub number: Option<u16>,
    /// The path or LAN id beside it; 0 without a number, and under the R-TAG.
    pub path_id: u8,
    pub ethertype: u16,
    pub payload_at: usize,
}

/// The header that a stream of that encoding reads, and whether there is a tag, whosever it is.
///
/// Refuses 1, 2, then left to right: at a C-TAG 3, 5, 4, at an R-TAG or an HSR tag 3, 4. The C-TAG
/// stands first, so it is looked for first ("Faults we have already paid for").
#[inline(always)]
fn parse(encoding: Encoding, frame: &[u8]) -> Result<(Header, bool), u8> {
    if frame.len() < SHORTEST {
        return Err(1);
    }
    if frame.len() > LONGEST {
        return Err(2);
    }
    let mut at = ADDRESSES;
    let mut ethertype = be16(frame, at);
    let has_c_tag = ethertype == C_TAG;
    let mut vlan = 0;
    if has_c_tag {
        at += C_TAG_LENGTH;
        let behind = type_behind(frame, at)?;
        vlan = be16(frame, at - 2) & VLAN_ID;
        if vlan == VLAN_RESERVED {
            return Err(5);
        }
        if behind == C_TAG {
            return Err(4);
        }
        ethertype = behind;
    }
    let mut sequence = None;
    let has_tag = encoding::is_tag(ethertype);
    if has_tag {
        at += encoding::LENGTH;
        let behind = type_behind(frame, at)?;
        // "3, 4 and 6 cover both, mixed too."
        if behind == C_TAG || encoding::is_tag(behind) {
            return Err(4);
        }
        sequence = encoding.of_tag([ethertype, be16(frame, at - 4), be16(frame, at - 2)]);
        ethertype = behind;
    }
    let payload_at = at + TYPE_LENGTH;
    if encoding.is_trailer() {
        // "Number and 9 go by the stream's own encoding", whatever tag is in front.
        sequence = encoding::of_trailer(&frame[payload_at..]);
    }
    let (number, path_id) = (sequence.map(|(number, _)| number), sequence.map_or(0, |(_, id)| id));
    let (destination, source) = (six(frame, 0), six(frame, 6));
    let header =
        Header { destination, source, has_c_tag, vlan, number, path_id, ethertype, payload_at };
    Ok((header, has_tag))
}

/// Refuses 1 to 5, which the encoding has no part in.
#[inline(always)]
pub fn read_in(encoding: Encoding, frame: &[u8]) -> Result<Header, u8> {
    parse(encoding, frame).map(|(header, _)| header)
}

/// The type behind a tag that ends there.
#[inline]
fn type_behind(frame: &[u8], end: usize) -> Result<u16, u8> {
    if frame.len() < end + TYPE_LENGTH {
        return Err(3);
    }
    Ok(be16(frame, end))
}

#[inline]
fn six(frame: &[u8], at: usize) -> [u8; 6] {
    let mut address = [0; 6];
    address.copy_from_slice(&frame[at..at + 6]);
    address
}

#[inline]
pub fn read(frame: &[u8]) -> Result<Header, u8> {
    read_in(Encoding::RTag, frame)
}

/// The part of the lent frame behind the last type, a trailer among it; empty on a refusal, whose
/// number `read` gives.
#[inline]
pub fn payload(frame: &[u8]) -> &[u8] {
    match read(frame) {
        Ok(header) => &frame[header.payload_at..],
        Err(_) => &[],
    }
}

/// Copies what stands before a tag and answers its place: "after the C-TAG if there is one, else
/// after the source address". Two known lengths copy without a call.
#[inline]
fn copy_head(frame: &[u8], out: &mut [u8], header: &Header) -> usize {
    const WITH_C_TAG: usize = ADDRESSES + C_TAG_LENGTH;
    if header.has_c_tag {
        out[..WITH_C_TAG].copy_from_slice(&frame[..WITH_C_TAG]);
        WITH_C_TAG
    } else {
        out[..ADDRESSES].copy_from_slice(&frame[..ADDRESSES]);
        ADDRESSES
    }
}

/// The frame with a number put in, written to `out`; answers the result's length. Refuses as reading
/// does, then 37, 6, 7, 8; nothing is written before the last of them is past. "PRP insertion never
/// gives 6."
#[inline(always)]
pub fn insert_in(
    encoding: Encoding,
    frame: &[u8],
    number: u16,
    id: u8,
    out: &mut [u8],
) -> Result<usize, u8> {
    let (header, has_tag) = parse(encoding, frame)?;
    if id > encoding::HIGHEST_ID {
        return Err(37);
    }
    if has_tag && !encoding.is_trailer() {
        return Err(6);
    }
    let length = frame.len() + encoding::LENGTH;
    if length > LONGEST {
        return Err(7);
    }
    let out = out.get_mut(..length).ok_or(8)?;
    let added = encoding.octets(number, id, length - header.payload_at);
    if encoding.is_trailer() {
        let (whole, trailer) = out.split_at_mut(frame.len());
        trailer.copy_from_slice(&added);
        whole.copy_from_slice(frame);
    } else {
        let at = copy_head(frame, out, &header);
        let (tag, tail) = out[at..].split_at_mut(encoding::LENGTH);
        tag.copy_from_slice(&added);
        tail.copy_from_slice(&frame[at..]);
    }
    Ok(length)
}

#[inline]
pub fn insert(frame: &[u8], number: u16, out: &mut [u8]) -> Result<usize, u8> {
    insert_in(Encoding::RTag, frame, number, 0, out)
}

/// The frame with its number taken off, written to `out`; answers the result's length. Refuses as
/// reading does, then 9, 8. A result over 1,522 (7) cannot come of a shorter frame.
#[inline(always)]
pub fn remove_in(encoding: Encoding, frame: &[u8], out: &mut [u8]) -> Result<usize, u8> {
    let header = read_in(encoding, frame)?;
    if header.number.is_none() {
        return Err(9);
    }
    let length = frame.len() - encoding::LENGTH;
    let out = out.get_mut(..length).ok_or(8)?;
    if encoding.is_trailer() {
        out.copy_from_slice(&frame[..length]);
    } else {
        let at = copy_head(frame, out, &header);
        out[at..].copy_from_slice(&frame[at + encoding::LENGTH..]);
    }
    Ok(length)
}

#[inline]
pub fn remove(frame: &[u8], out: &mut [u8]) -> Result<usize, u8> {
    remove_in(Encoding::RTag, frame, out)
}
