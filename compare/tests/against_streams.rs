//! The proved layer against the plain version: "Stream tables".

mod common;

use common::report;
use compare::layers::{check_table, lookup};
use compare::random::{Random, SEED};

const ADDRESSES: [[u8; 6]; 5] =
    [[2, 0, 0, 0, 0, 1], [2, 0, 0, 0, 0, 2], [1, 0, 0, 0, 0, 2], [0; 6], [0xFF; 6]];
const IP_ADDRESSES: [[u8; 4]; 3] = [[10, 0, 0, 1], [10, 0, 0, 2], [0; 4]];
const PORTS: [[u8; 2]; 3] = [[0, 80], [80, 0], [0, 0]];

fn good_entry(random: &mut Random) -> Vec<u8> {
    let mut entry = vec![random.pick(&[1, 2, 4])];
    entry.extend(random.pick(&ADDRESSES));
    entry.push(random.pick(&[1, 2, 3]));
    entry.extend(random.pick(&[0u16, 1, 5, 4_094]).to_be_bytes());
    if entry[0] == 4 {
        entry.extend(random.pick(&IP_ADDRESSES));
        entry.extend(random.pick(&IP_ADDRESSES));
        entry.push(random.pick(&[0, 46, 63, 255]));
        entry.push(random.pick(&[1, 2, 3, 4]));
        entry.extend(random.pick(&PORTS));
        entry.extend(random.pick(&PORTS));
    }
    entry.extend(random.number().to_be_bytes());
    entry
}

fn good_table(random: &mut Random, entries: usize) -> Vec<u8> {
    (0..entries).flat_map(|_| good_entry(random)).collect()
}

/// Where the entry of that place begins in a good table.
fn start(table: &[u8], place: usize) -> usize {
    (0..place).fold(0, |at, _| at + if table[at] == 4 { 26 } else { 12 })
}

/// An IP header with ports, mostly good, and perhaps cut.
fn packet(random: &mut Random) -> Vec<u8> {
    let first = random.pick(&[0x45, 0x45, 0x45, 0x47, 0x44, 0x65]);
    let mut packet = vec![first, random.pick(&[0, 46 << 2, 0xFF]), 0, 28, 0, 1];
    packet.extend(random.pick(&[[0, 0], [0x40, 0], [0x20, 0], [0, 1], [0x1F, 0xFF]]));
    packet.extend([64, random.pick(&[17, 6, 132, 1]), 0, 0]);
    packet.extend(random.pick(&IP_ADDRESSES));
    packet.extend(random.pick(&IP_ADDRESSES));
    packet.resize(20.max(4 * usize::from(first % 16)), 1);
    packet.extend(random.pick(&PORTS));
    packet.extend(random.pick(&PORTS));
    if random.once_in(3) {
        packet.truncate(random.below(packet.len() as u64) as usize);
    }
    packet
}

/// A frame that reading refuses by each of its numbers, or by none.
fn frame(random: &mut Random, refusal: u8) -> Vec<u8> {
    let mut frame = random.pick(&ADDRESSES).to_vec();
    frame.extend(random.pick(&ADDRESSES));
    let tagged = refusal == 5 || random.once_in(2);
    if tagged {
        let vlan = if refusal == 5 { 4_095 } else { random.pick(&[0u16, 1, 5, 4_094]) };
        frame.extend([0x81, 0x00]);
        frame.extend((vlan | random.number() << 12).to_be_bytes());
    }
    // An R-TAG or an HSR tag.
    let numbered = random.once_in(4);
    if numbered {
        frame.extend(random.pick(&[[0xF1, 0xC1, 0, 0, 0, 9], [0x89, 0x2F, 0xA0, 6, 0, 9]]));
    }
    match refusal {
        1 => frame.truncate(random.below(14) as usize),
        2 => {
            frame.extend([0x08, 0x00]);
            let over = if random.once_in(8) { 65_536 } else { 1_523 };
            frame.resize(over + random.below(64) as usize, 7);
        }
        // A tag behind which the type is cut, or is not there.
        3 => {
            let tag: &[u8] = match (tagged, numbered) {
                (_, false) => random.pick(&[
                    &[0xF1, 0xC1],
                    &[0xF1, 0xC1, 0, 0, 0, 1, 0x08],
                    &[0x89, 0x2F],
                    &[0x89, 0x2F, 0, 0, 0, 1, 0x08],
                ]),
                _ => &[0x08],
            };
            frame.extend(tag);
        }
        4 => {
            let no_type: &[u8] = match (tagged, numbered) {
                (_, true) => random.pick(&[&[0x81, 0x00], &[0xF1, 0xC1], &[0x89, 0x2F]]),
                (true, false) => &[0x81, 0x00],
                (false, false) => random.pick(&[
                    &[0xF1, 0xC1, 0, 0, 0, 1, 0x81, 0x00],
                    &[0xF1, 0xC1, 0, 0, 0, 1, 0x89, 0x2F],
                    &[0x89, 0x2F, 0, 0, 0, 1, 0x81, 0x00],
                    &[0x89, 0x2F, 0, 0, 0, 1, 0xF1, 0xC1],
                ]),
            };
            frame.extend(no_type);
            frame.extend([0; 10]);
        }
        _ if random.once_in(2) => {
            frame.extend(random.pick(&[[0x08, 0x00], [0x08, 0x00], [0x86, 0xDD]]));
            frame.extend(packet(random));
        }
        _ => {
            frame.extend([0x08, 0x00]);
            let longest = random.pick(&[frame.len(), 64, 1_522]);
            frame.resize(random.between(frame.len() as i64, longest as i64) as usize, 0x81);
        }
    }
    frame
}

/// How often a lookup was refused by each of the frame's numbers, found a stream and found none.
#[derive(Default, Debug)]
struct Seen {
    refused: [u64; 6],
    streams: u64,
    none: u64,
    cases: u64,
}

fn same_check(table: &[u8], seen: &mut Seen) {
    let _ = check_table(table);
    seen.cases += 2;
}

fn same_lookup(table: &[u8], frame: &[u8], seen: &mut Seen) {
    seen.cases += 2;
    match lookup(table, frame) {
        Ok(Some(_)) => seen.streams += 1,
        Ok(None) => seen.none += 1,
        Err(refusal @ 1..=5) => seen.refused[usize::from(refusal)] += 1,
        Err(_) => {}
    }
}

/// The check, and a lookup of a good frame and of one that is mostly refused.
fn same(random: &mut Random, table: &[u8], seen: &mut Seen) {
    same_check(table, seen);
    let any = random.below(6) as u8;
    for refusal in [0, any] {
        let frame = frame(random, refusal);
        same_lookup(table, &frame, seen);
    }
}

/// Tables of every number of entries, whole, cut anywhere and with one octet damaged.
#[test]
fn tables_of_every_size_cut_and_damaged() {
    let mut random = Random::new(SEED);
    let mut seen = Seen::default();
    for entries in 0..=257 {
        for _ in 0..8 {
            let mut table = good_table(&mut random, entries);
            same(&mut random, &table, &mut seen);
            if table.is_empty() {
                continue;
            }
            let cuts = if entries <= 12 { table.len() } else { 8 };
            for cut in 0..cuts {
                let cut =
                    if entries <= 12 { cut } else { random.below(table.len() as u64) as usize };
                same(&mut random, &table[..cut], &mut seen);
            }
            for _ in 0..8 {
                let at = random.below(table.len() as u64) as usize;
                let kept = table[at];
                table[at] = random.pick(&[0, 1, 2, 3, 4, 5, 15, 16, 63, 64, 254, 255]);
                same(&mut random, &table, &mut seen);
                table[at] = kept;
            }
        }
    }
    assert!(seen.refused[1..].iter().all(|&times| times > 500), "{seen:?}");
    assert!(seen.streams.min(seen.none) > 1_000, "{seen:?}");
    report("tables, ours and plain", seen.cases);
}

/// About 256 entries, with every kind of ending behind them. "257th entry" is 13 whatever it holds,
/// and is refused behind a bad one before it.
#[test]
fn tables_around_the_longest() {
    let mut random = Random::new(SEED + 1);
    let mut seen = Seen::default();
    let cut_ip =
        vec![4, 2, 0, 0, 0, 0, 1, 3, 0, 0, 10, 0, 0, 1, 10, 0, 0, 2, 46, 2, 0, 80, 0, 80, 0];
    let bad_ip = |dscp, next| {
        let mut entry = [&cut_ip[..], &[7]].concat();
        (entry[18], entry[19]) = (dscp, next);
        entry
    };
    let (bad_dscp, bad_next) = (bad_ip(64, 2), bad_ip(46, 5));
    let endings: [&[u8]; 15] = [
        &[],
        &[1],
        &[4],
        &cut_ip[..12],
        &cut_ip,
        &bad_dscp,
        &bad_next,
        &[2, 2, 0, 0],
        &[1, 2, 0, 0, 0, 0, 1, 3, 0, 0, 0],
        &[0],
        &[3],
        &[5],
        &[255, 1, 1, 1, 1, 1, 1, 1, 1, 1, 1, 1],
        &[1, 2, 0, 0, 0, 0, 1, 4, 0, 0, 0, 7],
        &[2, 2, 0, 0, 0, 0, 1, 1, 0x0F, 0xFF, 0, 7],
    ];
    for entries in 253..=258 {
        for ending in endings {
            for _ in 0..20 {
                let mut table = good_table(&mut random, entries);
                table.extend(ending);
                let expected = match (entries, ending) {
                    (257.., _) => Err(13),
                    (_, []) => Ok(()),
                    (256, _) => Err(13),
                    (_, [0 | 3 | 5 | 255, ..]) => Err(10),
                    (_, [1 | 2, ..]) if ending.len() == 12 => Err(12),
                    (_, [4, ..]) if ending.len() == 26 => Err(12),
                    _ => Err(11),
                };
                assert_eq!(check_table(&table), expected, "{entries} and {ending:?}");
                same(&mut random, &table, &mut seen);
                let bad = random.below(entries.min(256) as u64) as usize;
                let at = start(&table, bad);
                table[at] = random.pick(&[0, 3, 5, 255]);
                assert_eq!(check_table(&table), Err(10), "{bad} of {entries} and {ending:?}");
                same(&mut random, &table, &mut seen);
            }
        }
    }
    report("tables about the longest, ours and plain", seen.cases);
}

/// Each kind of refused frame in tables that have a match for it, have none, are empty and are bad.
#[test]
fn lookups_of_refused_frames() {
    let mut random = Random::new(SEED + 2);
    let mut cases = 0;
    let mut all = Vec::new();
    for address in ADDRESSES {
        for kind in [1, 2, 4] {
            all.push(kind);
            all.extend(address);
            all.extend([3, 0, 0]);
            if kind == 4 {
                all.extend([0, 0, 0, 0, 0, 0, 0, 0, 255, 1, 0, 0, 0, 0]);
            }
            all.extend([0, 99]);
        }
    }
    let none = [1, 9, 9, 9, 9, 9, 9, 3, 0, 0, 0, 1];
    let bad = [&all[..], &[1]].concat();
    for refusal in 1..=5 {
        for _ in 0..2_000 {
            let frame = frame(&mut random, refusal);
            for (table, answer) in
                [(&all[..], refusal), (&none, refusal), (&[], refusal), (&bad, 11)]
            {
                assert_eq!(lookup(table, &frame), Err(answer), "{frame:02X?}");
                cases += 2;
            }
        }
    }
    report("lookups of refused frames, ours and plain", cases);
}

/// One entry of a full table matches, at every place of it.
#[test]
fn a_match_at_every_place() {
    let mut random = Random::new(SEED + 3);
    let mut cases = 0;
    let (destination, source) = ([2, 0, 0, 0, 0, 7], [2, 0, 0, 0, 0, 9]);
    let ip =
        [0x45, 46 << 2, 0, 28, 0, 1, 0, 0, 64, 17, 0, 0, 10, 0, 0, 1, 10, 0, 0, 2, 0, 80, 1, 187];
    let wanted = [10, 0, 0, 1, 10, 0, 0, 2, 46, 2, 0, 80, 1, 187];
    let frame = [&destination[..], &source, &[0x08, 0x00], &ip].concat();
    for entries in [1usize, 2, 3, 15, 16, 17, 255, 256] {
        for place in 0..entries {
            let mut table: Vec<Vec<u8>> = (0..entries).map(|_| good_entry(&mut random)).collect();
            assert_eq!(lookup(&table.concat(), &frame), Ok(None), "{place}");
            let (kind, address, wanted) = random.pick(&[
                (1, destination, &[][..]),
                (2, source, &[]),
                (4, destination, &wanted),
            ]);
            let handle = random.number().to_be_bytes();
            table[place] = [&[kind][..], &address, &[3, 0, 0], wanted, &handle].concat();
            let found = u16::from_be_bytes(handle);
            assert_eq!(lookup(&table.concat(), &frame), Ok(Some(found)), "{place}");
            cases += 4;
        }
    }
    report("matches at every place, ours and plain", cases);
}

/// "Handle 2 (any)": none of them stands for something else. And "16 bits whose low 12 are the VLAN
/// id": the others change nothing.
#[test]
fn every_handle_and_every_control_value() {
    let addresses = [2, 0, 0, 0, 0, 7, 2, 0, 0, 0, 0, 9];
    let entry = |choice, vlan: u16, handle: u16| {
        let ([a, b], [c, d]) = (vlan.to_be_bytes(), handle.to_be_bytes());
        [1, 2, 0, 0, 0, 0, 7, choice, a, b, c, d]
    };
    let any_ip = [4, 2, 0, 0, 0, 0, 7, 3, 0, 0, 0, 0, 0, 0, 0, 0, 0, 0, 255, 1, 0, 0, 0, 0];
    let vlans = [entry(1, 5, 1), entry(2, 0, 2), entry(3, 4_094, 3), entry(1, 0, 4)].concat();
    for value in 0..=u16::MAX {
        let bare = [&addresses[..], &[0x08, 0x00]].concat();
        assert_eq!(lookup(&entry(3, 0, value).repeat(3), &bare), Ok(Some(value)));
        let [high, low] = value.to_be_bytes();
        let by_ip = [&any_ip[..], &[high, low]].concat();
        assert_eq!(lookup(&by_ip.repeat(3), &[&bare[..], &[0x45; 20]].concat()), Ok(Some(value)));
        let tagged = [&addresses[..], &[0x81, 0x00, high, low, 0x08, 0x00]].concat();
        let expected = match value % 4_096 {
            4_095 => Err(5),
            5 => Ok(Some(1)),
            0 => Ok(Some(2)),
            4_094 => Ok(Some(3)),
            _ => Ok(Some(4)),
        };
        assert_eq!(lookup(&vlans, &tagged), expected, "{value:#06x}");
    }
    report("every handle and control value, ours and plain", 6 * 65_536);
}

/// Tables whose length does not fit 16 bits: 13, behind a bad entry before the 257th.
#[test]
fn tables_of_many_octets() {
    let mut random = Random::new(SEED + 6);
    let mut seen = Seen::default();
    for octets in [65_535, 65_536, 65_540, 65_548, 65_536 + 3_072, 65_536 + 6_656, 131_072 + 24] {
        let mut table = good_table(&mut random, octets / 12 + 1);
        table.truncate(octets);
        assert_eq!(check_table(&table), Err(13), "{octets}");
        same(&mut random, &table, &mut seen);
        let at = start(&table, random.below(256) as usize);
        table[at] = 3;
        assert_eq!(check_table(&table), Err(10), "{octets}");
        same(&mut random, &table, &mut seen);
    }
    report("tables of many octets, ours and plain", seen.cases);
}

/// An entry and a frame that differ in one bit of a field that is compared.
#[test]
fn one_bit_of_difference() {
    let mut random = Random::new(SEED + 4);
    let mut seen = Seen::default();
    for _ in 0..50 {
        let mut frame = vec![0; 12];
        random.fill(&mut frame);
        let vlan = random.between(1, 4_094) as u16;
        frame.extend([0x81, 0x00]);
        frame.extend(vlan.to_be_bytes());
        frame.extend([0x08, 0x00, 0x46, 46 << 2]);
        frame.resize(18 + 28, 0);
        random.fill(&mut frame[18 + 12..]);
        frame[18 + 9] = 132;
        let ip = [&frame[18 + 12..18 + 20], &[46, 4], &frame[18 + 24..]].concat();
        for kind in [1, 2, 4] {
            let address = if kind == 2 { &frame[6..12] } else { &frame[..6] };
            let vlan = vlan.to_be_bytes();
            let ip = if kind == 4 { &ip[..] } else { &[] };
            let table = [&[kind][..], address, &[1], &vlan, ip, &[0x12, 0x34]].concat();
            assert_eq!(lookup(&table, &frame), Ok(Some(0x1234)));
            for bit in 0..table.len() * 8 {
                let mut other = table.clone();
                other[bit / 8] ^= 1 << (bit % 8);
                same_check(&other, &mut seen);
                same_lookup(&other, &frame, &mut seen);
            }
        }
    }
    assert!(seen.none > 5_000 && seen.streams > 1_000, "{seen:?}");
    report("entries with one bit of difference, ours and plain", seen.cases);
}
