//! Document 02, "CR 5. HSR and PRP": the three encodings of a stream's numbers, "chosen per stream as
//! 002 clauses 7.9 and 7.10 say". Each is six octets, and `frame` knows where they stand.

use super::be16;

/// What each of them adds to a frame.
pub const LENGTH: usize = 6;
/// "A path or LAN id over 15 is refusal 37."
pub const HIGHEST_ID: u8 = 15;

const R_TAG: u16 = 0xF1C1;
const HSR_TAG: u16 = 0x892F;
const PRP_SUFFIX: u16 = 0x88FB;

/// HSR and PRP have "path id 4 bits, size 12" in 16 bits of their own.
const SIZE_BITS: u32 = 12;
const SIZE: u16 = 0x0FFF;

#[derive(Clone, Copy, Debug, PartialEq, Eq)]
pub enum Encoding {
    RTag,
    Hsr,
    Prp,
}

/// A tag's three numbers of 16 bits: its type, what is reserved or id and size, and the number.
pub type Tag = [u16; 3];

/// A number, and the path or LAN id beside it, which is 0 under the R-TAG.
pub type Sequence = (u16, u8);

/// "For every stream 892F is now a tag", as F1C1 is.
#[inline]
pub fn is_tag(ethertype: u16) -> bool {
    matches!(ethertype, R_TAG | HSR_TAG)
}

#[inline]
fn id(id_and_size: u16) -> u8 {
    (id_and_size >> SIZE_BITS) as u8
}

impl Encoding {
    pub const ALL: [Encoding; 3] = [Encoding::RTag, Encoding::Hsr, Encoding::Prp];

    /// Whether the six octets stand at the end, and not where a tag does.
    #[inline]
    pub fn is_trailer(self) -> bool {
        self == Encoding::Prp
    }

    /// The six octets, of an id that is not refused. "Size counts the octets after the last type, the
    /// six added ones included." Of the R-TAG "Reserved octets are written zero" (document 01).
    #[inline]
    pub fn octets(self, number: u16, id: u8, size: usize) -> [u8; LENGTH] {
        let id_and_size = u16::from(id) << SIZE_BITS | size as u16;
        let [[a, b], [c, d], [e, f]] = match self {
            Encoding::RTag => [R_TAG, 0, number],
            Encoding::Hsr => [HSR_TAG, id_and_size, number],
            Encoding::Prp => [number, id_and_size, PRP_SUFFIX],
        }
        .map(u16::to_be_bytes);
        [a, b, c, d, e, f]
    }

    /// What a stream reads of a frame's tag; of another encoding's nothing. "The HSR size is written
    /// but not compared on reading."
    #[inline]
    pub fn of_tag(self, tag: Tag) -> Option<Sequence> {
        match (self, tag) {
            (Encoding::RTag, [R_TAG, _, number]) => Some((number, 0)),
            (Encoding::Hsr, [HSR_TAG, id_and_size, number]) => Some((number, id(id_and_size))),
            _ => None,
        }
    }
}

/// What a PRP stream reads. "A PRP payload under 6 octets, of another size or without the suffix is a
/// packet without a number."
#[inline]
pub fn of_trailer(payload: &[u8]) -> Option<Sequence> {
    let octets: &[u8; LENGTH] = payload.last_chunk()?;
    let (number, id_and_size, suffix) = (be16(octets, 0), be16(octets, 2), be16(octets, 4));
    let is_one = usize::from(id_and_size & SIZE) == payload.len() && suffix == PRP_SUFFIX;
    is_one.then_some((number, id(id_and_size)))
}
