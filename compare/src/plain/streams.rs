//! "Stream tables": a lent table checked whole, and a frame looked up in it. Kind 4 is document 02's
//! "CR 1. IP streams".

use super::frame::{self, Header};
use super::{be16, be32, ipv4};

pub const MOST_ENTRIES: usize = 256;
/// One octet of kind and a body of 11, of kinds 1 and 2.
pub const ENTRY_LENGTH: usize = 12;
/// One octet of kind and a body of 25, of kind 4.
pub const IP_ENTRY_LENGTH: usize = 26;

const BY_DESTINATION: u8 = 1;
const BY_SOURCE: u8 = 2;
const BY_IP: u8 = 4;

const TAGGED: u8 = 1;
const PRIORITY: u8 = 2;
const ALL: u8 = 3;
const HIGHEST_VLAN: u16 = 4_094;

const HIGHEST_DSCP: u8 = 63;
const ANY_DSCP: u8 = 255;
const NONE: u8 = 1;
const UDP: u8 = 2;
const TCP: u8 = 3;
const SCTP: u8 = 4;

/// A whole entry in range, by its kind.
enum Entry<'a> {
    Destination(&'a [u8; ENTRY_LENGTH]),
    Source(&'a [u8; ENTRY_LENGTH]),
    Ip(&'a [u8; IP_ENTRY_LENGTH]),
}

/// Each entry in order: 13, 10, 11, 12, and where it is good it is handed on. The 257th is refused as
/// soon as its first octet is there, whatever that octet is.
#[inline]
fn walk<'a>(table: &'a [u8], mut found: impl FnMut(Entry<'a>)) -> Result<(), u8> {
    let mut left = table;
    let mut passed = 0;
    while let Some(&kind) = left.first() {
        if passed == MOST_ENTRIES {
            return Err(13);
        }
        passed += 1;
        match kind {
            BY_DESTINATION | BY_SOURCE => {
                let (entry, rest) = left.split_first_chunk().ok_or(11)?;
                if !in_range(entry) {
                    return Err(12);
                }
                found(match kind {
                    BY_DESTINATION => Entry::Destination(entry),
                    _ => Entry::Source(entry),
                });
                left = rest;
            }
            BY_IP => {
                let (entry, rest) = left.split_first_chunk().ok_or(11)?;
                if !in_range(entry) || !ip_in_range(entry) {
                    return Err(12);
                }
                found(Entry::Ip(entry));
                left = rest;
            }
            _ => return Err(10),
        }
    }
    Ok(())
}

/// Choice and VLAN, which stand at the same place in every kind.
#[inline]
fn in_range(entry: &[u8]) -> bool {
    matches!(entry[7], TAGGED..=ALL) && be16(entry, 8) <= HIGHEST_VLAN
}

/// "DSCP 1 (0 to 63, 255 ignores), next protocol 1 (1 none, 2 UDP, 3 TCP, 4 SCTP)."
#[inline]
fn ip_in_range(entry: &[u8; IP_ENTRY_LENGTH]) -> bool {
    matches!(entry[18], 0..=HIGHEST_DSCP | ANY_DSCP) && matches!(entry[19], NONE..=SCTP)
}

/// Whether an entry of any kind allows the frame: its address, its choice (002 clauses 9.1.2.2 and
/// 9.1.3.2), and "its VLAN is 0 or equals the frame's" (9.1.2.3).
#[inline]
fn allows(entry: &[u8], address: &[u8; 6], header: &Header) -> bool {
    let choice = || match entry[7] {
        TAGGED => header.has_c_tag,
        PRIORITY => !header.has_c_tag || header.vlan == 0,
        _ => true,
    };
    let vlan = || [0, header.vlan].contains(&be16(entry, 8));
    entry[1..7] == *address && choice() && vlan()
}

/// "IP address or port zero ignores that field."
#[inline]
fn is_zero_or<T: PartialEq + From<u8>>(wanted: T, is: T) -> bool {
    wanted == T::from(0) || wanted == is
}

/// Whether an entry of kind 4 allows the IP header. "With none, protocol and ports aren't compared."
#[inline]
fn allows_ip(entry: &[u8; IP_ENTRY_LENGTH], ip: &ipv4::Header) -> bool {
    let protocol = match entry[19] {
        UDP => Some(17),
        TCP => Some(6),
        SCTP => Some(132),
        _ => None,
    };
    is_zero_or(be32(entry, 10), ip.source())
        && is_zero_or(be32(entry, 14), ip.destination())
        && (entry[18] == ANY_DSCP || entry[18] == ip.dscp())
        && protocol.is_none_or(|protocol| {
            protocol == ip.protocol() && allows_ports([be16(entry, 20), be16(entry, 22)], ip)
        })
}

/// Ports are looked for only "where a port is asked".
#[inline]
fn allows_ports(wanted: [u16; 2], ip: &ipv4::Header) -> bool {
    wanted == [0, 0]
        || ip
            .ports()
            .is_some_and(|are| is_zero_or(wanted[0], are[0]) && is_zero_or(wanted[1], are[1]))
}

/// The verdict on a table.
#[inline]
pub fn check_table(table: &[u8]) -> Result<(), u8> {
    walk(table, |_| ())
}

/// The handle of the first entry that matches, or no stream. "The whole table is checked first";
/// then the frame is refused as reading refuses it. The table is walked once: an entry that is good is
/// held against the frame at once, and a refusal further on takes the answer back.
#[inline]
pub fn lookup(table: &[u8], frame: &[u8]) -> Result<Option<u16>, u8> {
    let header = match frame::read(frame) {
        Ok(header) => header,
        Err(refusal) => return check_table(table).and(Err(refusal)),
    };
    // Read again for each entry whose address fits, which are few: other frames are spared it.
    let by_ip = |entry| {
        header.ethertype == ipv4::TYPE
            && ipv4::Header::read(&frame[header.payload_at..])
                .is_some_and(|ip| allows_ip(entry, &ip))
    };
    let mut first = None;
    walk(table, |entry| {
        let (matches, handle) = match entry {
            Entry::Destination(entry) => {
                (allows(entry, &header.destination, &header), be16(entry, 10))
            }
            Entry::Source(entry) => (allows(entry, &header.source, &header), be16(entry, 10)),
            Entry::Ip(entry) => {
                (allows(entry, &header.destination, &header) && by_ip(entry), be16(entry, 24))
            }
        };
        // Asked last: in front of the match it makes every walk slower.
        if first.is_none() && matches {
            first = Some(handle);
        }
    })?;
    Ok(first)
}
