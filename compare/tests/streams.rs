//! "Stream tables": the order of the table's refusals, and the match over all kinds, against one said
//! in words. Every version is asked.

mod common;
mod tables;

use common::report;
use compare::layers::{check_table, insert_in, lookup, remove_in};
use compare::plain::encoding::Encoding;
use compare::random::{Random, SEED};
use tables::{fits, table, Entry, Frame, Ip};

const GOOD: Entry = Entry { kind: 1, address: [9; 6], choice: 3, vlan: 0, ip: Ip::ANY, handle: 77 };

/// So many good entries, of those kinds in turn.
fn good(kinds: &[u8], entries: usize) -> Vec<Entry> {
    kinds.iter().cycle().take(entries).map(|&kind| Entry { kind, ..GOOD }).collect()
}

/// A frame whose payload is an IP header of no options.
fn framed(destination: [u8; 6], source: [u8; 6], vlan: Option<u16>) -> Vec<u8> {
    let payload = [0x45; 20].to_vec();
    Frame { destination, source, vlan, tag: &[], ethertype: 0x0800, payload }.octets()
}

/// One more entry behind good ones, with each field in range and out of it, cut at every octet.
#[test]
fn each_entry_13_10_11_12() {
    let mut cases = 0;
    let in_range = [(1, 0), (2, 4_094), (3, 256)];
    let out_of_range = [(0, 0), (4, 0), (255, 5), (1, 4_095), (3, 4_096), (2, 0xFF00), (3, 0xFFFF)];
    let ip_in_range = [(0, 1), (46, 2), (63, 3), (255, 4)];
    let ip_out_of_range = [(64, 1), (128, 2), (254, 3), (0, 0), (63, 5), (255, 255), (64, 0)];
    for before in [0, 1, 2, 255, 256] {
        let good = good(&[1, 4, 2], before);
        let start = table(&good).len();
        assert_eq!(check_table(&table(&good)), Ok(()));
        for kind in [0, 1, 2, 3, 4, 5, 255] {
            for (choice, vlan) in in_range.into_iter().chain(out_of_range) {
                for (dscp, next) in ip_in_range.into_iter().chain(ip_out_of_range) {
                    let ip = Ip { dscp, next, ..Ip::ANY };
                    let mut entries = good.clone();
                    entries.push(Entry { kind, choice, vlan, ip, ..GOOD });
                    let octets = table(&entries);
                    let whole = octets.len() - start;
                    assert_eq!(whole, if kind == 4 { 26 } else { 12 });
                    let bad = out_of_range.contains(&(choice, vlan))
                        || kind == 4 && ip_out_of_range.contains(&(dscp, next));
                    for cut in 1..=whole {
                        let expected = match cut {
                            _ if before == 256 => Err(13),
                            _ if ![1, 2, 4].contains(&kind) => Err(10),
                            _ if cut < whole => Err(11),
                            _ if bad => Err(12),
                            _ => Ok(()),
                        };
                        let octets = &octets[..start + cut];
                        assert_eq!(check_table(octets), expected, "{cut} of {:?}", entries[before]);
                        cases += 1;
                    }
                    // What stands behind a bad entry does not matter.
                    entries.push(Entry { kind: 9, choice: 0, ..GOOD });
                    if let Err(refusal) = check_table(&octets) {
                        assert_eq!(check_table(&table(&entries)), Err(refusal), "in order");
                    }
                }
            }
        }
    }
    report("entries with each field good and bad, cut everywhere", cases);
}

/// 13 whatever the 257th entry holds, behind the refusals of those before it.
#[test]
fn the_257th_entry_is_refused_before_it_is_read() {
    for kinds in [&[1][..], &[4], &[4, 2, 1]] {
        for octets in [&[1][..], &[4], &[7], &[1, 2, 3], &[4, 2, 3], &[0; 12], &[4; 26]] {
            let mut full = table(&good(kinds, 255));
            let last = full.len();
            full.extend(Entry { kind: 4, ..GOOD }.octets());
            full.extend(octets);
            assert_eq!(check_table(&full), Err(13));
            full[last + 18] = 64;
            assert_eq!(check_table(&full), Err(12), "the 256th comes first");
            full[last] = 0;
            assert_eq!(check_table(&full), Err(10), "the 256th comes first");
        }
    }
}

/// 10 to 13 before 1 to 5, and both before a match.
#[test]
fn the_table_is_refused_before_the_frame() {
    let match_first = framed([9; 6], [1; 6], None);
    let no_next = Ip { next: 0, ..Ip::ANY };
    for bad in [Entry { choice: 4, ..GOOD }, Entry { kind: 4, ip: no_next, ..GOOD }] {
        let bad = table(&[GOOD, bad]);
        assert_eq!(lookup(&bad, &match_first), Err(12));
        assert_eq!(lookup(&bad, &[]), Err(12));
    }
    for good in [GOOD, Entry { kind: 4, ..GOOD }] {
        let good = table(&[good]);
        assert_eq!(lookup(&good, &[]), Err(1));
        assert_eq!(lookup(&good, &match_first), Ok(Some(77)));
        assert_eq!(lookup(&[&good[..], &[3]].concat(), &match_first), Err(10));
        assert_eq!(lookup(&[&good[..], &good[..11]].concat(), &match_first), Err(11));
    }
    assert_eq!(lookup(&[], &[0; 1_523]), Err(2));
    assert_eq!(lookup(&[], &match_first), Ok(None));
}

/// Good tables cut at every octet: 11 inside an entry, 13 behind 256. The longest has 6,656 octets.
#[test]
fn every_cut_of_a_table() {
    let mut cases = 0;
    for kinds in [&[1][..], &[4], &[1, 4, 2], &[4, 1]] {
        for entries in [1, 2, 255, 256, 257] {
            let entries = good(kinds, entries);
            let octets = table(&entries);
            let ends: Vec<usize> =
                (0..=entries.len()).map(|n| table(&entries[..n]).len()).collect();
            for length in 0..=octets.len() {
                let expected = match ends.binary_search(&length) {
                    Ok(0..=256) => Ok(()),
                    Err(0..=256) => Err(11),
                    _ => Err(13),
                };
                assert_eq!(
                    check_table(&octets[..length]),
                    expected,
                    "{length} octets of {kinds:?}"
                );
                cases += 1;
            }
        }
    }
    assert_eq!(table(&good(&[4], 256)).len(), 6_656);
    report("tables cut at every octet", cases);
}

/// Each choice with each kind of frame and entry VLAN, by destination, by source and by IP.
#[test]
fn choices_and_vlans() {
    let us = [9; 6];
    let other = [1; 6];
    for (choice, frame_vlan, allowed) in [
        (1, None, false),
        (1, Some(0), true),
        (1, Some(5), true),
        (2, None, true),
        (2, Some(0), true),
        (2, Some(5), false),
        (3, None, true),
        (3, Some(0), true),
        (3, Some(5), true),
    ] {
        let (to_us, from_us) = (framed(us, other, frame_vlan), framed(other, us, frame_vlan));
        for (kind, frame, swapped) in
            [(1, &to_us, &from_us), (2, &from_us, &to_us), (4, &to_us, &from_us)]
        {
            for (vlan, reached) in [(0, true), (5, frame_vlan == Some(5)), (4_094, false)] {
                let octets = table(&[Entry { kind, choice, vlan, ..GOOD }]);
                let expected = (allowed && reached).then_some(77);
                let asked = (kind, choice, vlan, frame_vlan);
                assert_eq!(lookup(&octets, frame), Ok(expected), "{asked:?}");
                assert_eq!(lookup(&octets, swapped), Ok(None), "{asked:?}");
            }
        }
    }
}

const ADDRESSES: [[u8; 6]; 4] =
    [[0, 0, 0, 0, 0, 1], [1, 0, 0, 0, 0, 0], [0, 0, 1, 0, 0, 0], [255; 6]];
const IP_ADDRESSES: [[u8; 4]; 2] = [[10, 0, 0, 1], [10, 0, 1, 0]];

/// Of kind 4 more than of the others: it has more fields that may not fit.
fn any_entry(random: &mut Random) -> Entry {
    let any_address = [[0; 4], [0; 4], IP_ADDRESSES[0], IP_ADDRESSES[1]];
    Entry {
        kind: random.pick(&[1, 2, 4, 4, 4, 4]),
        address: random.pick(&ADDRESSES),
        choice: random.pick(&[1, 2, 3, 3]),
        vlan: random.pick(&[0, 0, 1, 256, 4_094]),
        ip: Ip {
            source: random.pick(&any_address),
            destination: random.pick(&any_address),
            dscp: random.pick(&[255, 255, 0, 63]),
            next: random.pick(&[1, 1, 2, 3, 4]),
            ports: [random.pick(&[0, 0, 1, 256]), random.pick(&[0, 0, 1, 256])],
        },
        handle: random.number(),
    }
}

/// An IP header with ports behind it, mostly good and whole; or cards.
fn any_payload(random: &mut Random) -> Vec<u8> {
    let first = random.pick(&[0x45, 0x45, 0x45, 0x45, 0x46, 0x4F, 0x44, 0x65]);
    let mut payload = vec![first, random.pick(&[0, 3, 0xFC, 0xFF]), 0, 28, 0, 1];
    payload.extend(random.pick(&[[0, 0], [0x20, 0], [0x40, 0], [0, 1]]));
    payload.extend([64, random.pick(&[17, 6, 132]), 0, 0]);
    payload.extend(random.pick(&IP_ADDRESSES));
    payload.extend(random.pick(&IP_ADDRESSES));
    payload.resize(20.max(4 * usize::from(first % 16)), 0);
    payload.extend([0, 1, 1, 0]);
    if random.once_in(3) {
        let octets = random.pick(&[10, payload.len() as u64]);
        payload.truncate(payload.len() - random.below(octets + 1) as usize);
    }
    payload
}

fn any_frame(random: &mut Random) -> Frame {
    Frame {
        destination: random.pick(&ADDRESSES),
        source: random.pick(&ADDRESSES),
        vlan: random.pick(&[None, Some(0), Some(1), Some(256), Some(4_094)]),
        tag: &[],
        ethertype: random.pick(&[0x0800, 0x0800, 0x0800, 0x86DD]),
        payload: any_payload(random),
    }
}

/// Whether a payload is shorter than its IP header and four octets. A trailer behind it is payload to
/// a lookup, and may be taken for what is missing.
fn ends_early(payload: &[u8]) -> bool {
    payload.first().is_none_or(|first| payload.len() < 4 * usize::from(first % 16) + 4)
}

/// The first entry that fits gives the handle, with a number in the frame or without: in whichever
/// encoding it is put in, and when it is taken off again. Only a PRP trailer behind a payload that is
/// cut may change it.
#[test]
fn the_first_match_decides() {
    let mut random = Random::new(SEED);
    let (mut cases, mut streams, mut by_ip, mut completed) = (0, 0, 0, 0);
    for _ in 0..5_000 {
        let count = random.pick(&[0, 1, 2, 3, 8, 40, 256]);
        let mut entries = vec![GOOD; count];
        entries.fill_with(|| any_entry(&mut random));
        // Few matches in a short table, and late ones in a long one.
        if random.once_in(2) {
            let rare = random.below(count as u64 + 1) as usize;
            entries[..rare].iter_mut().for_each(|entry| entry.address = [4; 6]);
        }
        let octets = table(&entries);
        let first = |frame: &Frame| entries.iter().find(|entry| fits(entry, frame));
        let handle = |frame: &Frame| first(frame).map(|entry| entry.handle);
        for _ in 0..20 {
            let frame = any_frame(&mut random);
            let expected = handle(&frame);
            let bare = frame.octets();
            assert_eq!(lookup(&octets, &bare), Ok(expected), "{frame:02X?}");
            let encoding = random.pick(&Encoding::ALL);
            let (mut put_in, mut taken_off) = ([0; 128], [0; 128]);
            let length = insert_in(encoding, &bare, random.number(), 10, &mut put_in).unwrap();
            let put_in = &put_in[..length];
            let with_number = if encoding.is_trailer() {
                let payload = [&frame.payload, &put_in[bare.len()..]].concat();
                handle(&Frame { payload, ..frame.clone() })
            } else {
                expected
            };
            assert!(with_number == expected || ends_early(&frame.payload), "{frame:02X?}");
            assert_eq!(lookup(&octets, put_in), Ok(with_number), "{encoding:?} {frame:02X?}");
            let length = remove_in(encoding, put_in, &mut taken_off).unwrap();
            assert_eq!(lookup(&octets, &taken_off[..length]), Ok(expected), "{encoding:?}");
            cases += 3;
            streams += u64::from(expected.is_some());
            by_ip += u64::from(first(&frame).is_some_and(|entry| entry.kind == 4));
            completed += u64::from(with_number != expected);
        }
    }
    assert!(streams > cases / 12 && streams < cases / 3, "both answers were wanted: {streams}");
    assert!(by_ip > cases / 100, "matches of kind 4 were wanted: {by_ip}");
    assert!(completed > 100, "payloads that a trailer completes were wanted: {completed}");
    report("lookups", cases);
}
