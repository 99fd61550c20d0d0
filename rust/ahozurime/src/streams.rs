//! Stream tables: at most 256 entries of 12 octets, or of 26 for IP streams, and the first that matches a
//! frame names its stream.
//!
//! An entry is its kind, the address in 6 octets, the tag choice, the VLAN in 2 ([`VLAN_ANY`], or up to
//! [`VLAN_LAST`](crate::frame::VLAN_LAST)) and the handle in 2, big-endian. It matches a frame where
//! the address is the frame's by its kind, the choice allows the frame, and the VLAN is any or the
//! frame's, which is 0 without a C-TAG.
//!
//! ```
//! use ahozurime::streams::{self, Handle};
//! use ahozurime::streams::{CHOICE_ALL, CHOICE_TAGGED, KIND_DESTINATION, KIND_SOURCE};
//! use ahozurime::Refusal;
//!
//! let table = [
//!     // To 02-00-00-00-00-01, with a C-TAG and VLAN 5: handle 7.
//!     [KIND_DESTINATION, 2, 0, 0, 0, 0, 1, CHOICE_TAGGED, 0, 5, 0, 7],
//!     // From 02-00-00-00-00-09, any frame: handle 8.
//!     [KIND_SOURCE, 2, 0, 0, 0, 0, 9, CHOICE_ALL, 0, 0, 0, 8],
//! ]
//! .concat();
//! streams::check_table(&table)?;
//!
//! let frame = [2, 0, 0, 0, 0, 1, 2, 0, 0, 0, 0, 9, 0x08, 0x00];
//! assert_eq!(streams::lookup(&table, &frame)?, Some(Handle(8)));
//! assert_eq!(streams::lookup(&table[..12], &frame)?, None);
//! assert_eq!(streams::lookup(&table[..11], &frame), Err(Refusal::ENTRY_CUT));
//! # Ok::<(), Refusal>(())
//! ```
//!
//! # IP streams
//!
//! An entry of [`KIND_IP`] has 14 octets more before its handle: source IP in 4, destination IP in 4, DSCP,
//! next protocol, source port in 2, destination port in 2. Its address is the frame's destination. It
//! matches where all of the above holds and the frame's payload, behind a last type of 0800, begins with
//! an IPv4 header that has what is asked: each address unless it is [`IP_ANY`], the DSCP unless it is
//! [`DSCP_ANY`], the protocol unless it is [`PROTOCOL_NONE`], and with a protocol each port unless it is
//! [`PORT_ANY`]. Options are passed over; checksum and total length are not read. A header that is cut or
//! not of IPv4 is no match and no refusal, and so are, where a port is asked, a later fragment and a
//! packet that ends before its ports. The payload goes to the end of the frame, a PRP trailer with it.
//!
//! ```
//! use ahozurime::streams::{self, Handle};
//! use ahozurime::streams::{CHOICE_ALL, DSCP_ANY, KIND_DESTINATION, KIND_IP, PROTOCOL_UDP};
//! use ahozurime::Refusal;
//!
//! // To 02-00-00-00-00-01, UDP from 10.0.0.9 and any port to any address and port 5001: handle 7.
//! let mut table = vec![KIND_IP, 2, 0, 0, 0, 0, 1, CHOICE_ALL, 0, 0];
//! table.extend([10, 0, 0, 9, 0, 0, 0, 0, DSCP_ANY, PROTOCOL_UDP]);
//! table.extend([0, 0, 0x13, 0x89, 0, 7]);
//! assert_eq!(table.len(), streams::IP_ENTRY_OCTETS);
//! // All else to that address: handle 8.
//! table.extend([KIND_DESTINATION, 2, 0, 0, 0, 0, 1, CHOICE_ALL, 0, 0, 0, 8]);
//!
//! let mut frame = vec![2, 0, 0, 0, 0, 1, 2, 0, 0, 0, 0, 9, 0x08, 0x00];
//! frame.extend([0x45, 0, 0, 28, 0, 1, 0, 0, 64, 17, 0, 0, 10, 0, 0, 9, 10, 0, 0, 1]);
//! frame.extend([0xC0, 0x00, 0x13, 0x89, 0, 8, 0, 0]);
//! assert_eq!(streams::lookup(&table, &frame)?, Some(Handle(7)));
//! // Without its ports, and to another one.
//! assert_eq!(streams::lookup(&table, &frame[..34])?, Some(Handle(8)));
//! frame[37] = 0x8A;
//! assert_eq!(streams::lookup(&table, &frame)?, Some(Handle(8)));
//! # Ok::<(), Refusal>(())
//! ```

use crate::{raw, Refusal};
use ahozurime_sys as sys;

/// Octets of an entry of [`KIND_DESTINATION`] or [`KIND_SOURCE`].
pub const ENTRY_OCTETS: usize = sys::AHZ_ENTRY_OCTETS;
/// Octets of an entry of [`KIND_IP`].
pub const IP_ENTRY_OCTETS: usize = sys::AHZ_IP_ENTRY_OCTETS;
/// Entries of the longest table.
pub const ENTRIES: usize = sys::AHZ_TABLE_ENTRIES;
/// Octets of the longest table, all of whose entries are of [`KIND_IP`].
pub const LONGEST: usize = sys::AHZ_TABLE_LONGEST;
/// The kind of an entry by the frame's destination.
pub const KIND_DESTINATION: u8 = sys::AHZ_KIND_DESTINATION;
/// The kind of an entry by the frame's source.
pub const KIND_SOURCE: u8 = sys::AHZ_KIND_SOURCE;
/// The kind of an entry by the frame's destination and its IPv4 header.
pub const KIND_IP: u8 = sys::AHZ_KIND_IP;
/// The choice of a frame with a C-TAG.
pub const CHOICE_TAGGED: u8 = sys::AHZ_CHOICE_TAGGED;
/// The choice of a frame without a C-TAG, or with VLAN id 0.
pub const CHOICE_PRIORITY: u8 = sys::AHZ_CHOICE_PRIORITY;
/// The choice of any frame.
pub const CHOICE_ALL: u8 = sys::AHZ_CHOICE_ALL;
/// The VLAN of an entry for every VLAN.
pub const VLAN_ANY: u16 = sys::AHZ_VLAN_ANY;
/// The source or destination IP of an entry for every address.
pub const IP_ANY: u32 = sys::AHZ_IP_ANY;
/// The last DSCP.
pub const DSCP_LAST: u8 = sys::AHZ_DSCP_LAST;
/// The DSCP of an entry for every DSCP.
pub const DSCP_ANY: u8 = sys::AHZ_DSCP_ANY;
/// The next protocol of an entry for every protocol and all ports.
pub const PROTOCOL_NONE: u8 = sys::AHZ_PROTOCOL_NONE;
/// The next protocol UDP.
pub const PROTOCOL_UDP: u8 = sys::AHZ_PROTOCOL_UDP;
/// The next protocol TCP.
pub const PROTOCOL_TCP: u8 = sys::AHZ_PROTOCOL_TCP;
/// The next protocol SCTP.
pub const PROTOCOL_SCTP: u8 = sys::AHZ_PROTOCOL_SCTP;
/// The source or destination port of an entry for every port.
pub const PORT_ANY: u16 = sys::AHZ_PORT_ANY;

/// What an entry calls its stream.
#[derive(Clone, Copy, Debug, PartialEq, Eq, PartialOrd, Ord, Hash)]
pub struct Handle(pub u16);

/// Checks a table. An empty one is good.
///
/// # Errors
///
/// Entry by entry, each in this order: 13 it is the 257th, [`Refusal::ENTRY_257`]; 10 its kind,
/// [`Refusal::ENTRY_KIND`]; 11 it is cut, [`Refusal::ENTRY_CUT`]; 12 its choice or VLAN, or in an entry
/// of [`KIND_IP`] its DSCP or next protocol, [`Refusal::ENTRY_RANGE`].
#[inline]
pub fn check_table(table: &[u8]) -> Result<(), Refusal> {
    match raw::check_table(table) {
        sys::AHZ_DONE => Ok(()),
        refusal => Err(Refusal::from_number(refusal)),
    }
}

/// The handle of the first entry that matches the frame; none where no entry does. The number is not
/// asked for: look up first, and then read the frame in the encoding of its stream.
///
/// # Errors
///
/// The table's as [`check_table`]; then the frame's, 1 to 5 as [`frame::read`](crate::frame::read).
#[inline]
pub fn lookup(table: &[u8], frame: &[u8]) -> Result<Option<Handle>, Refusal> {
    let mut handle = 0;
    match raw::lookup(table, frame, &mut handle) {
        sys::AHZ_STREAM => Ok(Some(Handle(handle))),
        sys::AHZ_NO_STREAM => Ok(None),
        refusal => Err(Refusal::from_number(refusal)),
    }
}
