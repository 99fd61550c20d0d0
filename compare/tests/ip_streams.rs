//! Document 02, "CR 1. IP streams": entries of kind 4, each field of one and each octet of an IP frame
//! against a match, by one said in words. Every version is asked.

mod common;
mod tables;

use common::report;
use compare::layers::{check_table, insert_in, lookup};
use compare::plain::encoding::Encoding;
use tables::{fits, table, Entry, Frame, Ip};

const DESTINATION: [u8; 6] = [0xFE, 0xDC, 0xBA, 0x98, 0x76, 0x54];
const SOURCE: [u8; 6] = [0x02, 0x13, 0x24, 0x35, 0x46, 0x57];

/// No two fields of it are alike, nor the two halves of one.
const IP: Ip = Ip {
    source: [10, 1, 2, 3],
    destination: [192, 9, 8, 7],
    dscp: 46,
    next: 2,
    ports: [5_001, 6_070],
};

const ENTRY: Entry =
    Entry { kind: 4, address: DESTINATION, choice: 1, vlan: 5, ip: IP, handle: 0x1234 };

const NEXT: [u8; 4] = [1, 2, 3, 4];
/// A protocol for each: none has any.
const PROTOCOLS: [u8; 4] = [99, 17, 6, 132];

const R_TAG: &[u8] = &[0xF1, 0xC1, 0, 0, 1, 2];
const HSR_TAG: &[u8] = &[0x89, 0x2F, 0xA0, 40, 1, 2];
const TAGS: [&[u8]; 3] = [&[], R_TAG, HSR_TAG];

fn entry(next: u8, ports: [u16; 2]) -> Entry {
    Entry { ip: Ip { next, ports, ..IP }, ..ENTRY }
}

/// A payload for that next protocol: a header of so many words, its options unlike all else, the
/// ports, and four octets more.
fn payload(next: u8, words: u8) -> Vec<u8> {
    let protocol = PROTOCOLS[usize::from(next) - 1];
    let mut payload =
        vec![0x40 | words, 46 << 2, 0, 28, 0xAB, 0xCD, 0x40, 0, 64, protocol, 0x5A, 0xA5];
    payload.extend(IP.source);
    payload.extend(IP.destination);
    payload.resize(4 * usize::from(words), 0x77);
    payload.extend(IP.ports.map(u16::to_be_bytes).concat());
    payload.extend([0, 12, 0, 0]);
    payload
}

fn framed(payload: Vec<u8>) -> Frame {
    let (destination, source) = (DESTINATION, SOURCE);
    Frame { destination, source, vlan: Some(5), tag: &[], ethertype: 0x0800, payload }
}

/// Whether the entry, by itself, matches the frame. The words say the same.
fn found(entry: &Entry, frame: &Frame) -> bool {
    let fits = fits(entry, frame);
    let said = lookup(&table(&[*entry]), &frame.octets());
    assert_eq!(said, Ok(fits.then_some(entry.handle)), "{entry:?} {frame:02X?}");
    fits
}

/// An octet of one more, of one less, and with each bit changed.
fn others(octet: u8) -> impl Iterator<Item = u8> {
    let bits = (0..8).map(move |bit| octet ^ 1 << bit);
    [octet.wrapping_add(1), octet.wrapping_sub(1)].into_iter().chain(bits)
}

/// An entry's fields from 26 octets that begin with 4.
fn read_back(octets: &[u8]) -> Entry {
    let two = |at: usize| u16::from(octets[at]) << 8 | u16::from(octets[at + 1]);
    let four = |at: usize| [octets[at], octets[at + 1], octets[at + 2], octets[at + 3]];
    Entry {
        kind: octets[0],
        address: [octets[1], octets[2], octets[3], octets[4], octets[5], octets[6]],
        choice: octets[7],
        vlan: two(8),
        ip: Ip {
            source: four(10),
            destination: four(14),
            dscp: octets[18],
            next: octets[19],
            ports: [two(20), two(22)],
        },
        handle: two(24),
    }
}

/// "Destination address 6, tag choice 1, VLAN 2, source IP 4, destination IP 4, DSCP 1, next protocol
/// 1, ports 2 and 2, handle 2", written out, and the frame that it is for.
#[test]
fn one_entry_written_out() {
    let octets = [
        0x04, 0xFE, 0xDC, 0xBA, 0x98, 0x76, 0x54, 0x01, 0x00, 0x05, 10, 1, 2, 3, 192, 9, 8, 7, 46,
        2, 0x13, 0x89, 0x17, 0xB6, 0x12, 0x34,
    ];
    let frame = [
        0xFE, 0xDC, 0xBA, 0x98, 0x76, 0x54, 0x02, 0x13, 0x24, 0x35, 0x46, 0x57, 0x81, 0x00, 0x60,
        0x05, 0x08, 0x00, 0x45, 0xB8, 0x00, 0x1C, 0xAB, 0xCD, 0x40, 0x00, 0x40, 17, 0x00, 0x00, 10,
        1, 2, 3, 192, 9, 8, 7, 0x13, 0x89, 0x17, 0xB6, 0x00, 0x08, 0x00, 0x00,
    ];
    assert_eq!(check_table(&octets), Ok(()));
    assert_eq!(lookup(&octets, &frame), Ok(Some(0x1234)));
    assert_eq!(table(&[ENTRY]), octets, "the tests here write the same");
    let whole = framed(payload(2, 5)).octets();
    assert_eq!(lookup(&octets, &whole), Ok(Some(0x1234)));
    // Neither a second entry behind it nor one before it that fits as well changes which is first.
    let other = table(&[Entry { handle: 9, ..ENTRY }]);
    let kind_1 = table(&[Entry { kind: 1, handle: 8, ..ENTRY }]);
    for (first, handle) in [(&octets[..], 0x1234), (&other, 9), (&kind_1, 8)] {
        let all = [first, &octets, &other, &kind_1].concat();
        assert_eq!(lookup(&all, &frame), Ok(Some(handle)));
    }
}

/// Each octet of an entry changed: what it then asks for, or its refusal.
#[test]
fn every_octet_of_an_entry_changed() {
    let (mut cases, mut refused, mut none) = (0, [0; 2], 0);
    for next in NEXT {
        let frame = framed(payload(next, 6));
        let good = entry(next, IP.ports).octets();
        for at in 0..good.len() {
            for octet in others(good[at]) {
                let mut octets = good.clone();
                octets[at] = octet;
                let changed = read_back(&octets);
                let Entry { kind, choice, vlan, ip, .. } = changed;
                let bad = !(1..=3).contains(&choice)
                    || vlan > 4_094
                    || (64..=254).contains(&ip.dscp)
                    || !(1..=4).contains(&ip.next);
                let expected = match kind {
                    4 if bad => Err(12),
                    4 => Ok(fits(&changed, &frame).then_some(changed.handle)),
                    _ => Err(10),
                };
                assert_eq!(lookup(&octets, &frame.octets()), expected, "{changed:?}");
                assert_eq!(check_table(&octets), expected.map(|_| ()), "{changed:?}");
                // By the field that it is of.
                match at {
                    0 => assert_eq!(expected, Err(10)),
                    1..=6 | 10..=17 => assert_eq!(expected, Ok(None), "an address"),
                    20..=23 if next == 1 => assert_eq!(expected, Ok(Some(0x1234)), "no port"),
                    20..=23 => assert_eq!(expected, Ok(None), "a port"),
                    24.. => assert_eq!(expected, Ok(Some(changed.handle)), "the handle"),
                    _ => {}
                }
                cases += 1;
                none += u64::from(expected == Ok(None));
                if let Err(refusal @ (10 | 12)) = expected {
                    refused[usize::from(refusal == 12)] += 1;
                }
            }
        }
    }
    assert!(none > 100 && refused.iter().all(|&times| times > 30), "{none} {refused:?}");
    report("entries with an octet changed", cases);
}

/// Each octet of the IP header, of its options and of the ports changed, and of the type.
#[test]
fn every_octet_of_a_frame_changed() {
    let mut cases = 0;
    for next in NEXT {
        for words in [5, 7] {
            let (entry, good) = (entry(next, IP.ports), framed(payload(next, words)));
            assert!(found(&entry, &good));
            let ports = 4 * usize::from(words);
            for at in 0..good.payload.len() {
                for octet in others(good.payload[at]) {
                    let mut changed = good.clone();
                    changed.payload[at] = octet;
                    let is = found(&entry, &changed);
                    match at {
                        // The payload has two words behind its header, of which the ports are one.
                        0 if next == 1 => {
                            let whole = (5..=words + 2).contains(&(octet % 16));
                            assert_eq!(is, octet / 16 == 4 && whole, "version or header length");
                        }
                        0 => assert!(!is, "version, or ports at another place"),
                        1 => assert_eq!(is, octet / 4 == 46, "the low two bits are not the DSCP's"),
                        2..=5 | 8 | 10 | 11 => assert!(is, "length, number, hops or checksum"),
                        6 | 7 if next == 1 => assert!(is, "no port is asked"),
                        6 => assert_eq!(is, octet % 32 == 0, "flags, or a later fragment"),
                        7 => assert!(!is, "a later fragment"),
                        9 => assert_eq!(is, next == 1, "the protocol"),
                        12..=19 => assert!(!is, "an address"),
                        _ if at < ports => assert!(is, "an option"),
                        _ if at < ports + 4 => assert_eq!(is, next == 1, "a port"),
                        _ => assert!(is, "what is behind the ports"),
                    }
                    cases += 1;
                }
            }
            for shift in 0..16 {
                let frame = Frame { ethertype: 0x0800 ^ 1 << shift, ..good.clone() };
                assert!(!found(&entry, &frame));
                cases += 1;
            }
            for at in 0..12 {
                let mut octets = good.octets();
                octets[at] ^= 1;
                let expected = (at >= 6).then_some(entry.handle);
                assert_eq!(lookup(&table(&[entry]), &octets), Ok(expected), "address at {at}");
                cases += 1;
            }
        }
    }
    report("frames with an octet changed", cases);
}

/// Whatever stands where a field is that is not read: all values of it.
#[test]
fn what_is_not_read() {
    let mut cases = 0;
    for next in [1, 3] {
        let (entry, mut frame) = (entry(next, IP.ports), framed(payload(next, 6)));
        let good = frame.payload.clone();
        for value in 0..=u16::MAX {
            // The total length, the checksum, and in turn the number, the hops and the options.
            for at in [2, 10, [4, 20, 22][usize::from(value) % 3]] {
                frame.payload[at..at + 2].copy_from_slice(&value.to_be_bytes());
            }
            frame.payload[8] = value as u8;
            assert!(found(&entry, &frame));
            frame.payload.copy_from_slice(&good);
            cases += 1;
        }
    }
    report("headers of any length, checksum, number, hops and options", cases);
}

/// Frames from whole ones down to none, with each tag, header length and next protocol. Where reading
/// takes the frame, a cut header or port is no match, and never a refusal.
#[test]
fn every_cut_of_a_frame() {
    let (mut cases, mut matches) = (0, 0);
    for vlan in [None, Some(5)] {
        for tag in TAGS {
            for words in 5..=15u8 {
                for (next, ports) in
                    [(1, IP.ports), (2, [0, 0]), (2, IP.ports), (3, [5_001, 0]), (4, [0, 6_070])]
                {
                    let entry = Entry { choice: 3, vlan: 0, ..entry(next, ports) };
                    let octets = Frame { vlan, tag, ..framed(payload(next, words)) }.octets();
                    let start = octets.len() - 4 * usize::from(words) - 8;
                    let asked = if next == 1 || ports == [0, 0] { 0 } else { 4 };
                    let least = start + 4 * usize::from(words) + asked;
                    for length in 0..=octets.len() {
                        let expected = match length {
                            0..14 => Err(1),
                            _ if length < start => Err(3),
                            _ => Ok((length >= least).then_some(0x1234)),
                        };
                        let said = lookup(&table(&[entry]), &octets[..length]);
                        assert_eq!(said, expected, "{length} of {octets:02X?}");
                        cases += 1;
                        matches += u64::from(expected == Ok(Some(0x1234)));
                    }
                }
            }
        }
    }
    assert!(matches > cases / 20, "{matches}");
    report("IP frames cut at every octet", cases);
}

/// Every first octet, version and header length, over payloads of every length up to the longest
/// header and the ports behind it.
#[test]
fn every_version_and_header_length() {
    let (mut cases, mut matches) = (0, 0);
    for next in [1, 2] {
        // All octets behind the header are as the ports', wherever it ends.
        let mut whole = payload(next, 5);
        whole.truncate(20);
        whole.extend([0x13, 0x89].repeat(24));
        for ports in [[0x1389, 0x1389], [0, 0]] {
            let entry = entry(next, ports);
            for first in 0..=255u8 {
                for length in 0..=68 {
                    let mut frame = framed(whole[..length].to_vec());
                    frame.payload.iter_mut().take(1).for_each(|octet| *octet = first);
                    let (version, words) = (first >> 4, usize::from(first & 15));
                    let asked = if next == 1 || ports == [0, 0] { 0 } else { 4 };
                    let is = version == 4 && words >= 5 && length >= 4 * words + asked;
                    assert_eq!(found(&entry, &frame), is, "{first:#04x} of {length}");
                    cases += 1;
                    matches += u64::from(is);
                }
            }
        }
    }
    assert!(matches > 1_000, "{matches}");
    report("versions and header lengths", cases);
}

/// All 16 bits of flags and offset: a first fragment has its ports, whatever its flags; of a later one
/// none can be asked.
#[test]
fn every_fragment() {
    for value in 0..=u16::MAX {
        for (next, ports, any) in [
            (1, IP.ports, true),
            (2, [0, 0], true),
            (2, IP.ports, false),
            (3, [5_001, 0], false),
            (4, [0, 6_070], false),
        ] {
            let mut frame = framed(payload(next, 5));
            frame.payload[6..8].copy_from_slice(&value.to_be_bytes());
            let is = found(&entry(next, ports), &frame);
            assert_eq!(is, any || value % 8_192 == 0, "{value:#06x} {next} {ports:?}");
        }
    }
    report("fragments", 5 * 65_536);
}

/// Every DSCP that an entry may have, with every value of the second octet.
#[test]
fn every_dscp() {
    for dscp in (0..=63).chain([255]) {
        for octet in 0..=255 {
            let mut frame = framed(payload(2, 5));
            frame.payload[1] = octet;
            let entry = Entry { ip: Ip { dscp, ..IP }, ..ENTRY };
            let is = found(&entry, &frame);
            assert_eq!(is, dscp == 255 || dscp == octet >> 2, "{dscp} {octet:#04x}");
        }
    }
    report("DSCPs", 65 * 256);
}

/// Every next protocol with every protocol, and with no ports asked; and at other ports.
#[test]
fn every_protocol() {
    for next in NEXT {
        for protocol in 0..=255 {
            for ports in [IP.ports, [0, 0]] {
                let mut frame = framed(payload(2, 5));
                frame.payload[9] = protocol;
                let is = found(&entry(next, ports), &frame);
                let same = protocol == PROTOCOLS[usize::from(next) - 1];
                assert_eq!(is, next == 1 || same, "{next} {protocol}");
            }
        }
    }
    report("protocols", 4 * 256 * 2);
}

/// "IP address or port zero ignores that field", each by itself and together; and the two of a pair
/// are not each other.
#[test]
fn zeros_and_pairs() {
    let mut cases = 0;
    let [from, to] = IP.ports;
    for next in NEXT {
        let frame = framed(payload(next, 5));
        for (ports, fit) in [
            ([from, to], true),
            ([0, to], true),
            ([from, 0], true),
            ([0, 0], true),
            ([to, from], false),
            ([0, from], false),
            ([to, 0], false),
            ([from, from], false),
            ([1, 0], false),
            ([0, 0xFFFF], false),
        ] {
            assert_eq!(found(&entry(next, ports), &frame), fit || next == 1, "{next} {ports:?}");
            cases += 1;
        }
        for (source, destination, fit) in [
            (IP.source, IP.destination, true),
            ([0; 4], IP.destination, true),
            (IP.source, [0; 4], true),
            ([0; 4], [0; 4], true),
            (IP.destination, IP.source, false),
            ([0; 4], IP.source, false),
            (IP.destination, [0; 4], false),
            ([0, 0, 0, 1], [0; 4], false),
            ([0; 4], [255; 4], false),
        ] {
            let ip = Ip { source, destination, next, ..IP };
            assert_eq!(found(&Entry { ip, ..ENTRY }, &frame), fit, "{ip:?}");
            cases += 1;
        }
        // A zero in the frame is a number as any other.
        let mut zeros = frame.clone();
        zeros.payload[12..24].fill(0);
        for (ip, fit) in [
            (Ip::ANY, true),
            (Ip { next, ..IP }, false),
            (Ip { next, source: [0; 4], ..IP }, false),
            (Ip { next, source: [0; 4], destination: [0; 4], ..IP }, next == 1),
            (Ip { next, source: [0; 4], destination: [0; 4], ports: [0, 0], ..IP }, true),
        ] {
            assert_eq!(found(&Entry { ip, ..ENTRY }, &zeros), fit, "{ip:?}");
            cases += 1;
        }
    }
    report("zeros and exchanged pairs", cases);
}

/// Every type; and the last one alone, behind whatever tags.
#[test]
fn the_last_type_decides() {
    let mut cases = 0;
    for ethertype in 0..=u16::MAX {
        if [0x8100, 0xF1C1, 0x892F].contains(&ethertype) {
            continue;
        }
        let frame = Frame { ethertype, ..framed(payload(2, 5)) };
        assert_eq!(found(&ENTRY, &frame), ethertype == 0x0800, "{ethertype:#06x}");
        cases += 1;
    }
    for (vlan, choice) in [(None, 2), (Some(0), 2), (Some(5), 1), (Some(5), 3)] {
        for tag in TAGS {
            for ethertype in [0x0800, 0x0801, 0x07FF, 0x0008, 0x0806, 0x86DD, 0x88B5, 0, 0xFFFF] {
                let entry = Entry { choice, vlan: 0, ..ENTRY };
                let frame = Frame { vlan, tag, ethertype, ..framed(payload(2, 5)) };
                assert_eq!(found(&entry, &frame), ethertype == 0x0800, "{ethertype:#06x}");
                cases += 1;
            }
        }
    }
    report("types", cases);
}

/// Address, choice and VLAN are asked of an IP frame as of any other, and of its destination.
#[test]
fn address_choice_and_vlan_are_asked_too() {
    let mut cases = 0;
    for tag in TAGS {
        for vlan in [None, Some(0), Some(5), Some(6)] {
            let frame = Frame { vlan, tag, ..framed(payload(2, 5)) };
            for address in [DESTINATION, SOURCE, [0; 6]] {
                for choice in [1, 2, 3] {
                    for listed in [0, 5, 6] {
                        let entry = Entry { address, choice, vlan: listed, ..ENTRY };
                        let allowed = match choice {
                            1 => vlan.is_some(),
                            2 => matches!(vlan, None | Some(0)),
                            _ => true,
                        };
                        let reached = listed == 0 || vlan == Some(listed);
                        let is = address == DESTINATION && allowed && reached;
                        assert_eq!(found(&entry, &frame), is, "{entry:?} {vlan:?}");
                        cases += 1;
                    }
                }
            }
        }
    }
    report("addresses, choices and VLANs of IP frames", cases);
}

/// A number that is put in does not change the stream, but that a PRP trailer is payload, and may stand
/// for what a payload lacks: here for the last octets of an option, and for the ports.
#[test]
fn numbers_put_in() {
    let mut cases = 0;
    for (next, ports) in [(1, [0, 0]), (2, [0, 0]), (2, [5_001, 0]), (2, IP.ports)] {
        let entry = Entry { choice: 3, vlan: 0, ..entry(next, ports) };
        let octets = table(&[entry]);
        for words in [5, 6, 8] {
            let whole = payload(next, words);
            for length in 0..=whole.len() {
                let frame = Frame { vlan: None, ..framed(whole[..length].to_vec()) };
                let bare = found(&entry, &frame).then_some(entry.handle);
                for encoding in Encoding::ALL {
                    // As a number of a trailer it would be the port from which the frame comes.
                    let mut out = [0; 128];
                    let put_in = insert_in(encoding, &frame.octets(), 5_001, 10, &mut out).unwrap();
                    let trailer = &out[put_in - 6..put_in];
                    let seen = match encoding {
                        Encoding::Prp => [&frame.payload, trailer].concat(),
                        Encoding::RTag | Encoding::Hsr => frame.payload.clone(),
                    };
                    let fits = fits(&entry, &Frame { payload: seen, ..frame.clone() });
                    let expected = fits.then_some(entry.handle);
                    assert_eq!(
                        lookup(&octets, &out[..put_in]),
                        Ok(expected),
                        "{encoding:?} {length}"
                    );
                    let header = 4 * usize::from(words);
                    let asked = if next == 1 || ports == [0, 0] { 0 } else { 4 };
                    let cut = length < header + asked;
                    assert!(expected == bare || encoding == Encoding::Prp && cut, "{length}");
                    // A header that lacks no more than six octets of its options.
                    if cut && asked == 0 && words > 6 && encoding == Encoding::Prp {
                        assert_eq!(expected.is_some(), length + 6 >= header, "{length}");
                    }
                    cases += 1;
                }
            }
        }
        // Just the header, and behind it the trailer's number as the port.
        let frame = Frame { vlan: None, ..framed(payload(next, 5)[..20].to_vec()) };
        let mut out = [0; 128];
        let put_in = insert_in(Encoding::Prp, &frame.octets(), 5_001, 10, &mut out).unwrap();
        let expected = (ports[1] == 0).then_some(entry.handle);
        assert_eq!(lookup(&octets, &out[..put_in]), Ok(expected));
        assert_eq!(found(&entry, &frame), ports == [0, 0]);
    }
    report("IP frames with a number put in", cases);
}
