//! The proved layer against the plain version: CR 5, "HSR and PRP". Every call is asked in all three
//! encodings, whatever the frame carries. Answers, refusals and every octet and word of what is lent
//! are compared, untouched ones too.

mod common;

use common::report;
use compare::layers::{insert_in, payload, read_in, read_in_into, remove_in};
use compare::plain::encoding::Encoding::{self, Hsr, Prp, RTag};
use compare::random::{Random, SEED};

const NUMBERS: [u16; 4] = [0, 1, 258, 65_535];

/// Both sides of 15. The R-TAG's calls take none, and 0 stands for that.
fn ids(encoding: Encoding) -> &'static [u8] {
    match encoding {
        RTag => &[0],
        Hsr | Prp => &[0, 1, 10, 15, 16, 255],
    }
}

/// None, one, and one with VLAN id 4,095.
const C_TAGS: [&[u8]; 3] = [&[], &[0x81, 0x00, 0xE0, 0x05], &[0x81, 0x00, 0x0F, 0xFF]];
const TAGS: [&[u8]; 3] =
    [&[], &[0xF1, 0xC1, 0xA0, 0x0A, 0x01, 0x02], &[0x89, 0x2F, 0xA0, 0x0A, 0x01, 0x02]];
/// A type, and what is none.
const TYPES: [[u8; 2]; 4] = [[0x08, 0x00], [0x81, 0x00], [0xF1, 0xC1], [0x89, 0x2F]];

/// How many kinds of ends a payload has: the first is any octets, the second a trailer, and the
/// others are nearly one.
const ENDS: usize = 14;

/// The last six octets of a payload of so many in all; a shorter one has the last of them alone.
fn end(random: &mut Random, kind: usize, payload: usize) -> [u8; 6] {
    let (number, id, size) = (random.number(), random.number() % 16, payload as u16 % 4_096);
    let shared = |size: u16| (id << 12) | (size % 4_096);
    let (bits, suffix) = match kind {
        0 => (random.number(), random.number()),
        1 => (shared(size), 0x88FB),
        2 => (shared(size.wrapping_sub(1)), 0x88FB),
        3 => (shared(size + 1), 0x88FB),
        4 => (shared(size.wrapping_sub(6)), 0x88FB),
        5 => (shared(size + 6), 0x88FB),
        6 => (shared(size ^ 0x800), 0x88FB),
        7 => (shared(size ^ 0x100), 0x88FB),
        8 => (size << 4 | id, 0x88FB),
        9 => (shared(size), 0xFB88),
        10 => (shared(size), 0x88FB ^ 1 << random.below(16)),
        11 => (shared(size), 0x892F),
        12 => (shared(6), 0x88FB),
        _ => (0x88FB, shared(size)),
    };
    let mut octets = [0; 6];
    for (pair, word) in octets.chunks_mut(2).zip([number, bits, suffix]) {
        pair.copy_from_slice(&word.to_be_bytes());
    }
    octets
}

/// A frame of so many octets: any addresses, that head, which may be cut, and a payload with that end.
fn framed(random: &mut Random, head: &[u8], end_of: usize, length: usize) -> Vec<u8> {
    let mut frame = vec![0; 12];
    random.fill(&mut frame);
    frame.extend(head);
    let at = frame.len();
    frame.resize(length, 0);
    if length > at {
        let payload = &mut frame[at..];
        random.fill(payload);
        let end = end(random, end_of, payload.len());
        let shown = payload.len().min(6);
        let start = payload.len() - shown;
        payload[start..].copy_from_slice(&end[6 - shown..]);
    }
    frame
}

/// Reading in every encoding, into too few words, just enough and more; how many cases that was.
fn same_headers(random: &mut Random, frame: &[u8]) -> u64 {
    let _ = payload(frame);
    for encoding in Encoding::ALL {
        let count = random.pick(&[0, 1, 7, 8, 8, 9, 9, 9, 10, 16, 17, 40, 255, 256, 264, 265]);
        let lent: Vec<u64> = (0..count).map(|_| random.next_u64()).collect();
        let _ = read_in_into(encoding, frame, &lent);
    }
    8
}

/// A call that writes, into each room, whose octets are any; how many cases that was.
fn same_writes(
    random: &mut Random,
    rooms: &[usize],
    call: impl Fn(&mut [u8]) -> Result<usize, u8>,
) -> u64 {
    for &room in rooms {
        let mut lent = vec![0; room];
        random.fill(&mut lent);
        let _ = call(&mut lent);
    }
    2 * rooms.len() as u64
}

/// Rooms for a result: none, one octet too few, just enough and more; now and then by so much that 16
/// bits of the length would be too short.
fn rooms(random: &mut Random, result: usize) -> [usize; 4] {
    let longer = if random.once_in(64) { 65_536 + result / 2 } else { result + 9 };
    [0, result.saturating_sub(1), result, longer]
}

/// Every call on one frame, in every encoding, with one number and one id.
fn same(random: &mut Random, frame: &[u8]) -> u64 {
    let mut cases = same_headers(random, frame);
    for encoding in Encoding::ALL {
        let number = if random.once_in(2) { random.pick(&NUMBERS) } else { random.number() };
        let id = random.pick(ids(encoding));
        let room = rooms(random, frame.len() + 6);
        cases += same_writes(random, &room, |out| insert_in(encoding, frame, number, id, out));
        let room = rooms(random, frame.len().saturating_sub(6));
        cases += same_writes(random, &room, |out| remove_in(encoding, frame, out));
    }
    cases
}

/// The same with just enough room alone.
fn same_results(random: &mut Random, frame: &[u8]) -> u64 {
    let mut cases = same_headers(random, frame);
    for encoding in Encoding::ALL {
        let (number, id) = (random.number(), random.pick(ids(encoding)));
        let _ = insert_in(encoding, frame, number, id, &mut vec![0; frame.len() + 6]);
        let _ = remove_in(encoding, frame, &mut vec![0; frame.len().saturating_sub(6)]);
        cases += 4;
    }
    cases
}

/// How often an insertion was refused by each number, or by none, which is 0.
type Seen = [u64; 38];

/// Every number and every id put in, with just enough room.
fn same_insertions(frame: &[u8], seen: &mut Seen) {
    for encoding in Encoding::ALL {
        for number in NUMBERS {
            for &id in ids(encoding) {
                let mut out = vec![0xA5; frame.len() + 6];
                let answer = insert_in(encoding, frame, number, id, &mut out);
                seen[usize::from(answer.err().unwrap_or(0))] += 1;
            }
        }
    }
}

/// Every mixture: a C-TAG, good or bad, or none; either tag or none; a type or what is none; and every
/// kind of end. At every length about an edge: of tags, of a trailer in a payload, of a long frame.
#[test]
fn every_mixture_at_every_edge() {
    let mut random = Random::new(SEED);
    let (mut cases, mut seen) = (0, [0; 38]);
    let edges = [0, 1].into_iter().chain(13..=34).chain([40, 269, 270, 271]);
    let edges: Vec<usize> = edges.chain(1_515..=1_523).chain([1_528, 1_529]).collect();
    for (c_tag, tag) in C_TAGS.iter().flat_map(|c_tag| TAGS.map(|tag| (*c_tag, tag))) {
        for ethertype in TYPES {
            let head = [c_tag, tag, &ethertype].concat();
            for (kind, &length) in (0..ENDS).flat_map(|kind| edges.iter().map(move |it| (kind, it)))
            {
                let frame = framed(&mut random, &head, kind, length);
                cases += same(&mut random, &frame);
                same_insertions(&frame, &mut seen);
            }
        }
    }
    assert!([0, 1, 2, 3, 4, 5, 6, 7, 37].iter().all(|&answer| seen[answer] > 5_000), "{seen:?}");
    cases += 2 * seen.iter().sum::<u64>();
    report("mixtures at every edge, ours and plain", cases);
}

/// Good frames of each kind: in every encoding and with both a tag and a trailer.
fn good_frames(random: &mut Random, payload: usize) -> Vec<Vec<u8>> {
    let mut frames = Vec::new();
    for (c_tag, tag) in C_TAGS[..2].iter().flat_map(|c_tag| TAGS.map(|tag| (*c_tag, tag))) {
        for kind in [0, 1] {
            let head = [c_tag, tag, &[0x08, 0x00]].concat();
            frames.push(framed(random, &head, kind, 12 + head.len() + payload));
        }
    }
    frames
}

/// Good frames with any one octet replaced by every other.
#[test]
fn every_damage_of_one_octet() {
    let mut random = Random::new(SEED);
    let mut cases = 0;
    for good in good_frames(&mut random, 8) {
        assert!(Encoding::ALL.iter().all(|&encoding| read_in(encoding, &good).is_ok()));
        for at in 0..good.len() {
            let mut frame = good.clone();
            for octet in (0..=255).filter(|&octet| octet != good[at]) {
                frame[at] = octet;
                cases += same_results(&mut random, &frame);
            }
        }
    }
    report("frames of each encoding with one octet damaged, ours and plain", cases);
}

/// Long ones with any one bit wrong: every one of the first and last octets, and one of each other.
#[test]
fn long_frames_with_a_wrong_bit() {
    let mut random = Random::new(SEED);
    let mut cases = 0;
    for good in good_frames(&mut random, 1_480) {
        for at in 0..good.len() {
            let is_inner = (32..good.len() - 8).contains(&at);
            let bits = if is_inner { vec![random.below(8)] } else { (0..8).collect() };
            for bit in bits {
                let mut frame = good.clone();
                frame[at] ^= 1 << bit;
                cases += same_results(&mut random, &frame);
            }
        }
    }
    report("long frames with a wrong bit, ours and plain", cases);
}

/// Good frames cut everywhere, and grown by octets of any kind: a trailer is one at the end alone.
#[test]
fn every_cut() {
    let mut random = Random::new(SEED);
    let mut cases = 0;
    for length in [0, 5, 6, 7, 12, 700, 1_480] {
        for good in good_frames(&mut random, length) {
            for cut in 0..good.len() {
                cases += same_results(&mut random, &good[..cut]);
            }
            let mut frame = good.clone();
            for _ in 0..40 {
                frame.push(random.pick(&[0, 0x88, 0xFB, 0x5A]));
                cases += same(&mut random, &frame);
            }
        }
    }
    report("frames of each encoding cut and grown, ours and plain", cases);
}

/// Lengths that do not fit 16 bits, or whose low bits are a trailer's size: 2, as any over 1,522.
#[test]
fn frames_of_many_octets() {
    let mut random = Random::new(SEED);
    let mut cases = 0;
    for (c_tag, tag) in C_TAGS.iter().flat_map(|c_tag| TAGS.map(|tag| (*c_tag, tag))) {
        let head = [c_tag, tag, &[0x08, 0x00]].concat();
        for length in [4_096 + 34, 65_535, 65_536, 65_550, 65_556, 65_600, 67_058, 131_136] {
            for kind in [0, 1, 12] {
                let frame = framed(&mut random, &head, kind, length);
                for encoding in Encoding::ALL {
                    assert_eq!(read_in(encoding, &frame), Err(2), "{length}");
                }
                cases += same(&mut random, &frame);
            }
        }
    }
    report("frames of many octets in each encoding, ours and plain", cases);
}

/// Every type where one may stand, to an HSR and to a PRP stream, and every number put in and read.
#[test]
fn every_value_of_sixteen_bits() {
    let mut random = Random::new(SEED);
    let mut cases = 0;
    let places: [(usize, usize, usize); 6] =
        [(0, 0, 12), (1, 0, 16), (0, 1, 18), (0, 2, 18), (1, 1, 22), (1, 2, 22)];
    for (c_tag, tag, at) in places {
        let head = [C_TAGS[c_tag], TAGS[tag], &[0x08, 0x00]].concat();
        let mut frame = framed(&mut random, &head, 1, 36);
        for value in 0..=u16::MAX {
            frame[at..at + 2].copy_from_slice(&value.to_be_bytes());
            for encoding in [Hsr, Prp] {
                let _ = read_in(encoding, &frame);
                let _ = insert_in(encoding, &frame, value, value as u8 % 17, &mut [0; 42]);
            }
            cases += 8;
        }
    }
    for encoding in Encoding::ALL {
        let bare = framed(&mut random, &TYPES[0], 0, 30);
        for number in 0..=u16::MAX {
            let mut out = [0; 36];
            assert_eq!(insert_in(encoding, &bare, number, 3, &mut out), Ok(36));
            assert_eq!(read_in(encoding, &out).map(|header| header.number), Ok(Some(number)));
            assert_eq!(remove_in(encoding, &out, &mut [0; 30]), Ok(30));
            cases += 6;
        }
    }
    report("values of sixteen bits in each encoding, ours and plain", cases);
}

/// Frames long and short, with octets of tags and trailers where they may not belong.
#[test]
fn random_frames() {
    let mut random = Random::new(SEED);
    let mut cases = 0;
    for round in 0..12_000 {
        let length = if round % 3 == 0 { random.below(1_700) } else { random.below(48) } as usize;
        let (c_tag, tag) = (random.pick(&C_TAGS), random.pick(&TAGS));
        let ethertype = if random.once_in(8) { random.pick(&TYPES) } else { TYPES[0] };
        let kind = random.below(ENDS as u64) as usize;
        let mut frame = framed(&mut random, &[c_tag, tag, &ethertype].concat(), kind, length);
        for _ in 0..random.below(3) {
            let at = random.below(36) as usize;
            if at < length {
                frame[at] = random.pick(&[0x81, 0x00, 0xF1, 0xC1, 0x89, 0x2F, 0x88, 0xFB, 0x0F]);
            }
        }
        cases += same(&mut random, &frame);
    }
    report("random frames in each encoding, ours and plain", cases);
}
