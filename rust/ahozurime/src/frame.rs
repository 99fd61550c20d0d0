//! Frames of 14 to 1,522 octets: addresses, an optional C-TAG, an optional R-TAG or HSR tag, a type and
//! the payload, without frame check sequence. Where it is left on, [`fcs`](crate::fcs) takes it off.
//!
//! A frame carries its number in one of three encodings, which is chosen for each stream. Each is six
//! octets:
//!
//! | encoding | octets | calls |
//! |---|---|---|
//! | R-TAG | F1 C1, two reserved ones, the number | [`read`], [`insert`], [`remove`] |
//! | HSR tag | 89 2F, path id and size, the number | [`read_hsr`], [`insert_hsr`], [`remove_hsr`] |
//! | PRP trailer | the number, LAN id and size, 88 FB | [`read_prp`], [`insert_prp`], [`remove_prp`] |
//!
//! A tag stands behind the C-TAG if there is one, else behind the source address; a trailer is the last of
//! the frame. The number has 16 bits. Id and size share 16: the id has the high 4, the size the low 12. The
//! size is the octets of the payload as it is before insertion, and 6 for these.
//!
//! Either tag is one to every call: the type and the payload stand behind it. Its number is one only to
//! the calls of its encoding. The size of an HSR tag is not compared. A trailer is one only where the
//! payload, with it, has at least 6 octets, the size is that of this payload, and 88 FB ends it; else the
//! frame has no number.
//!
//! No call pads. Where a wire wants 60 octets before the check, pad first: under PRP this has to be so,
//! since the trailer stands last and its size counts the padding.
//!
//! ```
//! use ahozurime::{frame, Refusal};
//!
//! let bare = [2, 0, 0, 0, 0, 1, 2, 0, 0, 0, 0, 2, 0x08, 0x00, 0xAB];
//! let mut out = [0; frame::LONGEST];
//! let length = frame::insert(&bare, 258, &mut out)?;
//! let tagged = &out[..length];
//! assert_eq!(tagged[12..18], [0xF1, 0xC1, 0, 0, 1, 2]);
//!
//! let header = frame::read(tagged)?;
//! assert_eq!(header.number, Some(258));
//! assert_eq!(header.destination, [2, 0, 0, 0, 0, 1]);
//! assert_eq!(frame::payload(tagged), [0xAB]);
//!
//! let mut back = [0; 15];
//! assert_eq!(frame::remove(tagged, &mut back), Ok(15));
//! assert_eq!(back, bare);
//! assert_eq!(frame::remove(&bare, &mut back), Err(Refusal::NO_TAG));
//!
//! // In a PRP stream, by LAN 10. To the calls of the R-TAG such a frame has no number.
//! let length = frame::insert_prp(&bare, 258, 10, &mut out)?;
//! let trailed = &out[..length];
//! assert_eq!(trailed[15..], [1, 2, 0xA0, 7, 0x88, 0xFB]);
//!
//! let header = frame::read_prp(trailed)?;
//! assert_eq!((header.number, header.path_id), (Some(258), 10));
//! assert_eq!(frame::read(trailed)?.number, None);
//! assert_eq!(frame::remove_prp(trailed, &mut back), Ok(15));
//! assert_eq!(back, bare);
//! # Ok::<(), Refusal>(())
//! ```

use crate::{raw, Refusal};
use ahozurime_sys as sys;

/// Octets of the shortest frame.
pub const SHORTEST: usize = sys::AHZ_FRAME_SHORTEST;
/// Octets of the longest frame, one with tags too: an output of so many holds every result.
pub const LONGEST: usize = sys::AHZ_FRAME_LONGEST;

/// Octets of an R-TAG: by so many the result of [`insert`] is longer than the frame.
pub const RTAG_OCTETS: usize = sys::AHZ_RTAG_OCTETS;
/// Octets of an HSR tag: by so many the result of [`insert_hsr`] is longer than the frame.
pub const HSR_OCTETS: usize = sys::AHZ_HSR_OCTETS;
/// Octets of a PRP trailer: by so many the result of [`insert_prp`] is longer than the frame.
pub const PRP_OCTETS: usize = sys::AHZ_PRP_OCTETS;
/// The last VLAN id, of a frame and of an entry of a stream table.
pub const VLAN_LAST: u16 = sys::AHZ_VLAN_LAST;
/// The last path id, and the last LAN id.
pub const PATH_ID_LAST: u8 = sys::AHZ_PATH_ID_LAST;

/// What a frame says in front of its payload.
#[derive(Clone, Copy, Debug, PartialEq, Eq, Hash)]
#[non_exhaustive]
pub struct Header {
    /// The destination address.
    pub destination: [u8; 6],
    /// The source address.
    pub source: [u8; 6],
    /// Whether there is a C-TAG.
    pub tagged: bool,
    /// The VLAN id; 0 without a C-TAG.
    pub vlan: u16,
    /// The number in the encoding that was read; none where the frame has no such number.
    pub number: Option<u16>,
    /// The path or LAN id beside the number, up to [`PATH_ID_LAST`]; 0 without a number, and for an R-TAG,
    /// which has no id.
    pub path_id: u8,
    /// The last type.
    pub ethertype: u16,
    /// Where the payload starts; it goes to the end of the frame, a trailer with it.
    pub payload_at: usize,
}

fn six(address: u64) -> [u8; 6] {
    let [_, _, six @ ..] = address.to_be_bytes();
    six
}

/// The header of those words and that id, where the answer is that they were read.
#[inline]
fn header(answer: u8, words: &[u64; sys::AHZ_H_WORDS], path_id: u64) -> Result<Header, Refusal> {
    match answer {
        sys::AHZ_DONE => {}
        refusal => return Err(Refusal::from_number(refusal)),
    }
    // The words of a header that was read are within their fields: addresses below 2^48, flags 0 or
    // 1, the payload within the frame, the path id up to 15, all others below 2^16.
    Ok(Header {
        destination: six(words[sys::AHZ_H_DESTINATION]),
        source: six(words[sys::AHZ_H_SOURCE]),
        tagged: words[sys::AHZ_H_TAGGED] == 1,
        vlan: words[sys::AHZ_H_VLAN] as u16,
        number: (words[sys::AHZ_H_NUMBERED] == 1).then_some(words[sys::AHZ_H_NUMBER] as u16),
        path_id: path_id as u8,
        ethertype: words[sys::AHZ_H_TYPE] as u16,
        payload_at: words[sys::AHZ_H_PAYLOAD] as usize,
    })
}

/// The length of a result, where the answer is that it was written.
#[inline]
fn written(answer: u8, length: usize) -> Result<usize, Refusal> {
    match answer {
        sys::AHZ_DONE => Ok(length),
        refusal => Err(Refusal::from_number(refusal)),
    }
}

/// Reads a frame of an R-TAG stream.
///
/// # Errors
///
/// In this order: 1 [`Refusal::FRAME_SHORT`]; 2 [`Refusal::FRAME_LONG`]; at a C-TAG 3
/// [`Refusal::TAG_CUT`], 5 [`Refusal::VLAN`], 4 [`Refusal::TAG_TWICE`]; at an R-TAG or an HSR tag 3, 4.
#[inline]
pub fn read(frame: &[u8]) -> Result<Header, Refusal> {
    let mut words = [0; sys::AHZ_H_WORDS];
    let answer = raw::read(frame, &mut words);
    header(answer, &words, 0)
}

/// Reads a frame of an HSR stream.
///
/// # Errors
///
/// 1 to 5 as [`read`].
#[inline]
pub fn read_hsr(frame: &[u8]) -> Result<Header, Refusal> {
    let mut words = [0; sys::AHZ_H_ID_WORDS];
    let answer = raw::read_hsr(frame, &mut words);
    let [header_words @ .., path_id] = &words;
    header(answer, header_words, *path_id)
}

/// Reads a frame of a PRP stream. Where it has a number, its last [`PRP_OCTETS`] octets are the trailer,
/// and those before them the frame without it.
///
/// # Errors
///
/// 1 to 5 as [`read`].
#[inline]
pub fn read_prp(frame: &[u8]) -> Result<Header, Refusal> {
    let mut words = [0; sys::AHZ_H_ID_WORDS];
    let answer = raw::read_prp(frame, &mut words);
    let [header_words @ .., path_id] = &words;
    header(answer, header_words, *path_id)
}

/// The payload as a part of the frame: its last octets, a trailer among them. It is empty where [`read`]
/// refuses the frame, as a good frame's may be.
#[must_use]
#[inline]
pub fn payload(frame: &[u8]) -> &[u8] {
    &frame[frame.len() - raw::payload(frame)..]
}

/// Writes the frame with an R-TAG of that number to `out`, after a C-TAG if there is one, and answers
/// the result's length, [`RTAG_OCTETS`] more. Later octets of `out` stay.
///
/// # Errors
///
/// In this order: 1 to 5 as [`read`]; 6 there is an R-TAG or an HSR tag, [`Refusal::TAG_THERE`]; 7 the
/// result is over [`LONGEST`], [`Refusal::RESULT_LONG`]; 8 `out` is shorter than it,
/// [`Refusal::OUTPUT_SHORT`].
#[inline]
pub fn insert(frame: &[u8], number: u16, out: &mut [u8]) -> Result<usize, Refusal> {
    let mut length = 0;
    let answer = raw::insert(frame, number, out, &mut length);
    written(answer, length)
}

/// Writes the frame with an HSR tag of that number and path id to `out`, after a C-TAG if there is one,
/// and answers the result's length, [`HSR_OCTETS`] more. Later octets of `out` stay.
///
/// # Errors
///
/// In this order: 1 to 5 as [`read`]; 37 the path id is over [`PATH_ID_LAST`], [`Refusal::PATH_ID`]; 6
/// there is an R-TAG or an HSR tag, [`Refusal::TAG_THERE`]; 7 the result is over [`LONGEST`],
/// [`Refusal::RESULT_LONG`]; 8 `out` is shorter than it, [`Refusal::OUTPUT_SHORT`].
#[inline]
pub fn insert_hsr(
    frame: &[u8],
    number: u16,
    path_id: u8,
    out: &mut [u8],
) -> Result<usize, Refusal> {
    let mut length = 0;
    let answer = raw::insert_hsr(frame, number, path_id, out, &mut length);
    written(answer, length)
}

/// Writes the frame with a PRP trailer of that number and LAN id behind it to `out`, and answers the
/// result's length, [`PRP_OCTETS`] more. Later octets of `out` stay. A tag stays where it is, and a trailer
/// that the frame has already counts as payload.
///
/// # Errors
///
/// In this order: 1 to 5 as [`read`]; 37 the LAN id is over [`PATH_ID_LAST`], [`Refusal::PATH_ID`]; 7 the
/// result is over [`LONGEST`], [`Refusal::RESULT_LONG`]; 8 `out` is shorter than it,
/// [`Refusal::OUTPUT_SHORT`]. Never 6.
#[inline]
pub fn insert_prp(frame: &[u8], number: u16, lan_id: u8, out: &mut [u8]) -> Result<usize, Refusal> {
    let mut length = 0;
    let answer = raw::insert_prp(frame, number, lan_id, out, &mut length);
    written(answer, length)
}

/// Writes the frame without its R-TAG to `out` and answers the result's length, [`RTAG_OCTETS`] less.
/// Later octets of `out` stay.
///
/// # Errors
///
/// In this order: 1 to 5 as [`read`]; 9 there is no R-TAG, [`Refusal::NO_TAG`]; 8 `out` is shorter
/// than the result, [`Refusal::OUTPUT_SHORT`].
#[inline]
pub fn remove(frame: &[u8], out: &mut [u8]) -> Result<usize, Refusal> {
    let mut length = 0;
    let answer = raw::remove(frame, out, &mut length);
    written(answer, length)
}

/// Writes the frame without its HSR tag to `out` and answers the result's length, [`HSR_OCTETS`] less.
/// Later octets of `out` stay.
///
/// # Errors
///
/// In this order: 1 to 5 as [`read`]; 9 there is no HSR tag, [`Refusal::NO_TAG`]; 8 `out` is shorter
/// than the result, [`Refusal::OUTPUT_SHORT`].
#[inline]
pub fn remove_hsr(frame: &[u8], out: &mut [u8]) -> Result<usize, Refusal> {
    let mut length = 0;
    let answer = raw::remove_hsr(frame, out, &mut length);
    written(answer, length)
}

/// Writes the frame without its PRP trailer to `out` and answers the result's length, [`PRP_OCTETS`] less.
/// Later octets of `out` stay.
///
/// # Errors
///
/// In this order: 1 to 5 as [`read`]; 9 there is no PRP trailer, [`Refusal::NO_TAG`]; 8 `out` is shorter
/// than the result, [`Refusal::OUTPUT_SHORT`].
#[inline]
pub fn remove_prp(frame: &[u8], out: &mut [u8]) -> Result<usize, Refusal> {
    let mut length = 0;
    let answer = raw::remove_prp(frame, out, &mut length);
    written(answer, length)
}
