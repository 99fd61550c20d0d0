//! The proved layer against the plain version: "Reading a frame". Answers, refusals and every octet
//! and word of what is lent are compared, untouched ones too.

mod common;

use common::report;
use compare::guarded;
use compare::layers::{insert, payload, read, read_into, remove};
use compare::plain::encoding::Encoding;
use compare::random::{Random, SEED};

/// What may stand between the addresses and the payload: every order of the tags, good or not, and
/// VLAN ids at the bound.
const LAYOUTS: [&[u8]; 19] = [
    &[0x08, 0x00],
    &[0x81, 0x00, 0x20, 0x05, 0x08, 0x00],
    &[0xF1, 0xC1, 0, 0, 0x01, 0x02, 0x08, 0x00],
    &[0xF1, 0xC1, 0xAB, 0xCD, 0xFF, 0xFF, 0x88, 0xF7],
    &[0x81, 0x00, 0xE0, 0x00, 0xF1, 0xC1, 0, 0, 0x80, 0x00, 0x08, 0x00],
    &[0x81, 0x00, 0x0F, 0xFE, 0xF1, 0xC1, 1, 0, 0, 0, 0, 46],
    &[0x89, 0x2F, 0xA0, 0x0A, 0x01, 0x02, 0x08, 0x00],
    &[0x81, 0x00, 0x20, 0x05, 0x89, 0x2F, 0x00, 0x06, 0xFF, 0xFF, 0x88, 0xF7],
    &[0x81, 0x00, 0x0F, 0xFF, 0x08, 0x00],
    &[0x81, 0x00, 0x00, 0x01, 0x81, 0x00, 0x00, 0x01, 0x08, 0x00],
    &[0xF1, 0xC1, 0, 0, 0, 1, 0x81, 0x00, 0x00, 0x01, 0x08, 0x00],
    &[0xF1, 0xC1, 0, 0, 0, 1, 0xF1, 0xC1, 0, 0, 0, 1, 0x08, 0x00],
    &[0x81, 0x00, 0, 1, 0xF1, 0xC1, 0, 0, 0, 1, 0x81, 0x00, 0, 1, 0x08, 0x00],
    &[0x81, 0x00, 0xFF, 0xFF, 0x81, 0x00, 0xFF, 0xFF],
    &[0xF1, 0xC1, 0, 0, 0, 1, 0x89, 0x2F, 0, 6, 0, 1, 0x08, 0x00],
    &[0x89, 0x2F, 0, 6, 0, 1, 0xF1, 0xC1, 0, 0, 0, 1, 0x08, 0x00],
    &[0x89, 0x2F, 0, 6, 0, 1, 0x89, 0x2F, 0, 6, 0, 1, 0x08, 0x00],
    &[0x89, 0x2F, 0, 6, 0, 1, 0x81, 0x00, 0x00, 0x01, 0x08, 0x00],
    &[0x81, 0x00, 0, 1, 0x89, 0x2F, 0, 6, 0, 1, 0x81, 0x00, 0, 1, 0x08, 0x00],
];

/// How many of them are good.
const GOOD: usize = 8;

/// A frame of that length. Its addresses are any, or all zeros, or all ones.
fn laid_out(random: &mut Random, layout: &[u8], length: usize) -> Vec<u8> {
    let mut octets = vec![0; 12];
    for address in octets.chunks_mut(6) {
        match random.below(8) {
            0 => {}
            1 => address.fill(0xFF),
            _ => random.fill(address),
        }
    }
    octets.extend(layout);
    let head = octets.len();
    octets.resize(head.max(length), 0);
    random.fill(&mut octets[head..]);
    octets.truncate(length);
    octets
}

/// Reading into too few words, just enough and more: as many as do not fit 8 bits, too.
fn same_header(random: &mut Random, frame: &[u8]) -> u64 {
    let count = random.pick(&[0, 1, 7, 8, 8, 9, 12, 13, 16, 17, 40, 255, 256, 263, 264, 300]);
    let lent: Vec<u64> = (0..count).map(|_| random.next_u64()).collect();
    let _ = read_into(frame, &lent);
    2
}

/// A call that writes, with outputs too short, just long enough and longer; now and then by so much
/// that 16 bits of the length would be too short.
fn same_writes(
    random: &mut Random,
    result: usize,
    call: impl Fn(&mut [u8]) -> Result<usize, u8>,
) -> u64 {
    let short = random.below(result as u64) as usize;
    let longer = if random.once_in(64) { 65_536 + short } else { result + 9 };
    let rooms = [0, result.saturating_sub(1), result, longer];
    for room in rooms {
        let mut lent = vec![0; room];
        random.fill(&mut lent);
        let _ = call(&mut lent);
    }
    2 * rooms.len() as u64
}

/// An R-TAG put in and taken off, with room for either.
fn same_tagging(frame: &[u8], number: u16) -> u64 {
    let _ = insert(frame, number, &mut [0; 40]);
    let _ = remove(frame, &mut [0; 40]);
    4
}

/// Every call on one frame; how many cases that was.
fn same(random: &mut Random, frame: &[u8]) -> u64 {
    let number = random.number();
    let _ = payload(frame);
    same_header(random, frame)
        + same_writes(random, frame.len() + 6, |out| insert(frame, number, out))
        + same_writes(random, frame.len().saturating_sub(6), |out| remove(frame, out))
        + 2
}

/// Every order of the tags, cut and grown to every length up to past the longest.
#[test]
fn every_length_of_every_layout() {
    let mut random = Random::new(SEED);
    let mut cases = 0;
    for layout in LAYOUTS {
        for length in 0..=1_600 {
            let frame = laid_out(&mut random, layout, length);
            cases += same(&mut random, &frame);
        }
    }
    report("frames at every length, ours and plain", cases);
}

/// Lengths that do not fit 16 bits: 2, as any over 1,522.
#[test]
fn frames_of_many_octets() {
    let mut random = Random::new(SEED);
    let mut cases = 0;
    for layout in LAYOUTS {
        for length in [65_535, 65_536, 65_549, 65_550, 65_556, 65_600, 67_058, 131_136] {
            let frame = laid_out(&mut random, layout, length);
            assert_eq!(read(&frame), Err(2), "{length} of {layout:02X?}");
            cases += same(&mut random, &frame);
        }
    }
    report("frames of many octets, ours and plain", cases);
}

/// A frame written out by hand, and its eight words: with both tags, and with neither.
#[test]
fn the_words_of_a_header() {
    let mut frame = vec![2, 3, 4, 5, 6, 7, 0xFF, 0xFE, 0xFD, 0xFC, 0xFB, 0xFA];
    frame.extend([0x81, 0x00, 0xEF, 0xFE, 0xF1, 0xC1, 0x12, 0x34, 0xAB, 0xCD, 0x88, 0xB5, 1]);
    let (destination, source) = (0x0203_0405_0607, 0xFFFE_FDFC_FBFA);
    let header = vec![destination, source, 1, 4_094, 1, 0xABCD, 0x88B5, 24];
    assert_eq!(guarded::read(Encoding::RTag, &frame, &[u64::MAX; 8]), (0, header));
    frame.drain(12..22);
    let header = vec![destination, source, 0, 0, 0, 0, 0x88B5, 14];
    assert_eq!(guarded::read(Encoding::RTag, &frame, &[u64::MAX; 8]), (0, header));
}

/// Every type, control value and number that may stand in a header, where each may stand.
#[test]
fn every_value_of_sixteen_bits() {
    let mut random = Random::new(SEED);
    let mut cases = 0;
    let places: [(&[u8], usize); 8] = [
        (LAYOUTS[0], 12), // the type
        (LAYOUTS[1], 14), // a C-TAG's control value
        (LAYOUTS[1], 16), // the type behind it
        (LAYOUTS[2], 16), // an R-TAG's number
        (LAYOUTS[2], 18), // the type behind it
        (LAYOUTS[4], 22), // the type behind both
        (LAYOUTS[6], 18), // the type behind an HSR tag
        (LAYOUTS[7], 22), // the type behind a C-TAG and an HSR tag
    ];
    for (layout, at) in places {
        let mut frame = laid_out(&mut random, layout, 30);
        for value in 0..=u16::MAX {
            frame[at..at + 2].copy_from_slice(&value.to_be_bytes());
            cases += same_header(&mut random, &frame) + same_tagging(&frame, value);
        }
    }
    for layout in &LAYOUTS[..2] {
        let frame = laid_out(&mut random, layout, 30);
        for number in 0..=u16::MAX {
            cases += same_tagging(&frame, number);
        }
    }
    report("values of sixteen bits, ours and plain", cases);
}

/// Good frames with any one octet replaced by every other.
#[test]
fn every_damage_of_one_octet() {
    let mut random = Random::new(SEED);
    let mut cases = 0;
    for layout in &LAYOUTS[..GOOD] {
        let good = laid_out(&mut random, layout, 40);
        assert!(read(&good).is_ok());
        for at in 0..good.len() {
            for octet in 0..=255 {
                let mut frame = good.clone();
                frame[at] = octet;
                cases += same(&mut random, &frame);
            }
        }
    }
    report("frames with one octet damaged, ours and plain", cases);
}

/// Frames of any length, with octets of tags where they may not belong.
#[test]
fn random_frames() {
    let mut random = Random::new(SEED);
    let mut cases = 0;
    for _ in 0..20_000 {
        let length = random.below(1_700) as usize;
        let layout = random.pick(&LAYOUTS);
        let mut frame = laid_out(&mut random, layout, length);
        for _ in 0..random.below(3) {
            let at = random.below(30) as usize;
            if at < length {
                frame[at] = random.pick(&[0x81, 0x00, 0xF1, 0xC1, 0x89, 0x2F, 0x0F, 0xFF]);
            }
        }
        cases += same(&mut random, &frame);
    }
    report("random frames, ours and plain", cases);
}
