//! Document 02, "CR 1. IP streams": the IPv4 header that a payload begins with, and the ports behind
//! it. "The header checksum isn't read", nor is the total length: a payload goes to the frame's end.

use super::{be16, be32};

/// The type of a frame with such a payload.
pub const TYPE: u16 = 0x0800;

const VERSION: u8 = 4;
/// "Header length below 5 words" is bad; behind the fifth stand the options.
const FEWEST_WORDS: usize = 5;
const WORD: usize = 4;
const SHORTEST: usize = FEWEST_WORDS * WORD;
/// The two ports, which UDP, TCP and SCTP all begin with.
const PORTS: usize = 4;
/// Of the 16 bits of the fragment those that say where it begins; before them stand three flags.
const FRAGMENT_OFFSET: u16 = 0x1FFF;

/// A whole header that is not bad, and what stands behind it and its options.
#[derive(Clone, Copy, Debug)]
pub struct Header<'a> {
    fixed: &'a [u8; SHORTEST],
    behind: &'a [u8],
}

impl<'a> Header<'a> {
    /// None where the header is bad, "a version other than 4 or a header length below 5 words", or cut,
    /// "a payload shorter than its header".
    #[inline]
    pub fn read(payload: &'a [u8]) -> Option<Self> {
        let fixed = payload.first_chunk()?;
        let words = usize::from(fixed[0] & 0x0F);
        if fixed[0] >> 4 != VERSION || words < FEWEST_WORDS {
            return None;
        }
        let behind = payload.get(words * WORD..)?;
        Some(Header { fixed, behind })
    }

    /// The high six bits of the second octet; the low two are not the DSCP's.
    #[inline]
    pub fn dscp(&self) -> u8 {
        self.fixed[1] >> 2
    }

    #[inline]
    pub fn protocol(&self) -> u8 {
        self.fixed[9]
    }

    #[inline]
    pub fn source(&self) -> u32 {
        be32(self.fixed, 12)
    }

    #[inline]
    pub fn destination(&self) -> u32 {
        be32(self.fixed, 16)
    }

    /// Source and destination port. A later fragment has none, and neither has a payload that ends
    /// before "four octets" behind its header.
    #[inline]
    pub fn ports(&self) -> Option<[u16; 2]> {
        let octets: &[u8; PORTS] = self.behind.first_chunk()?;
        let is_first = be16(self.fixed, 6) & FRAGMENT_OFFSET == 0;
        is_first.then(|| [be16(octets, 0), be16(octets, 2)])
    }
}
