//! The proved layer against the plain version: CR 6, "Frame check sequence". Answers, refusals and
//! every octet of what is lent are compared, untouched ones too.

mod common;

use common::report;
use compare::layers::{append_fcs, check_fcs, crc32, without_fcs};
use compare::plain::fcs;
use compare::random::{Random, SEED};

fn random_octets(random: &mut Random, length: usize) -> Vec<u8> {
    let mut octets = vec![0; length];
    random.fill(&mut octets);
    octets
}

/// Any octets and their check, of any length.
fn checked(octets: &[u8]) -> Vec<u8> {
    [octets, &fcs::crc32(octets).to_le_bytes()].concat()
}

fn random_checked(random: &mut Random, length: usize) -> Vec<u8> {
    checked(&random_octets(random, length - fcs::OCTETS))
}

/// The verdict on one frame and its part; how many cases that was.
fn same_verdict(frame: &[u8]) -> u64 {
    assert_eq!(without_fcs(frame).is_empty(), check_fcs(frame).is_err());
    4
}

/// One frame written into each room, whose octets are any; how many cases that was.
fn same_writes(random: &mut Random, frame: &[u8], rooms: &[usize]) -> u64 {
    for &room in rooms {
        let _ = append_fcs(frame, &mut random_octets(random, room));
    }
    2 * rooms.len() as u64
}

/// Every call on some octets, with a check and as they are, and with a damaged one; how many cases
/// that was. Now and then an output is so long that 16 bits of its length would be too short.
fn same(random: &mut Random, octets: &[u8]) -> u64 {
    let _ = crc32(octets);
    let mut whole = checked(octets);
    let verdicts = same_verdict(octets) + same_verdict(&whole);
    let at = whole.len() - 1 - random.below(8).min(octets.len() as u64) as usize;
    whole[at] ^= 1 << random.below(8);
    let result = whole.len();
    let short = random.below(result as u64) as usize;
    let longer = if random.once_in(64) { 65_536 + short } else { result + 9 };
    verdicts
        + same_verdict(&whole)
        + same_writes(random, octets, &[0, short, result - 1, result, longer])
        + 2
}

/// Octets of several kinds, cut to every length up to past the longest.
#[test]
fn every_length() {
    let mut random = Random::new(SEED);
    let mut cases = 0;
    let contents = [
        vec![0; 1_600],
        vec![0xFF; 1_600],
        (0..1_600).map(|place| place as u8).collect(),
        random_octets(&mut random, 1_600),
        random_octets(&mut random, 1_600),
        random_octets(&mut random, 1_600),
    ];
    for octets in contents {
        for length in 0..=octets.len() {
            cases += same(&mut random, &octets[..length]);
        }
    }
    report("checks at every length, ours and plain", cases);
}

/// Lengths that do not fit 16 bits: a CRC-32 as of any octets, and 2 as for any frame over 1,526.
#[test]
fn checks_of_many_octets() {
    let mut random = Random::new(SEED);
    let mut cases = 0;
    for length in [65_531, 65_535, 65_536, 65_549, 65_550, 67_058, 67_062, 131_136, 999_999] {
        let octets = random_octets(&mut random, length);
        assert_eq!(check_fcs(&checked(&octets)), Err(2), "{length}");
        assert_eq!(append_fcs(&octets, &mut vec![0; length + 4]), Err(2), "{length}");
        cases += same(&mut random, &octets);
    }
    report("checks of many octets, ours and plain", cases);
}

/// Each value of an octet at each place of a few, the others being any.
#[test]
fn every_octet_at_every_place() {
    let mut random = Random::new(SEED);
    let mut cases = 0;
    for length in [1, 2, 3, 4, 5, 8, 9, 16, 17] {
        for at in 0..length {
            let mut octets = random_octets(&mut random, length);
            for octet in 0..=255 {
                octets[at] = octet;
                let _ = crc32(&octets);
                cases += 2;
            }
        }
    }
    report("octets at every place, ours and plain", cases);
}

/// Good frames with any one octet replaced by every other: all are 28.
#[test]
fn every_damage_of_one_octet() {
    let mut random = Random::new(SEED);
    let mut cases = 0;
    for length in [18, 19, 40, 64] {
        let good = random_checked(&mut random, length);
        for at in 0..good.len() {
            for octet in 0..=255 {
                let mut frame = good.clone();
                frame[at] = octet;
                let verdict = if octet == good[at] { Ok(()) } else { Err(28) };
                assert_eq!(check_fcs(&frame), verdict, "{at} of {length}");
                cases += same_verdict(&frame);
            }
        }
    }
    report("checks with one octet damaged, ours and plain", cases);
}

/// From the shortest to the longest: of the octets before the check, each count modulo 8 is among them.
const LENGTHS: [usize; 9] = [18, 19, 64, 67, 129, 511, 516, 1_517, 1_526];

/// A CRC-32 sees every single bit, of the frame and of its check.
#[test]
fn every_single_bit() {
    let mut random = Random::new(SEED);
    let mut cases = 0;
    for length in LENGTHS {
        let mut frame = random_checked(&mut random, length);
        for bit in 0..8 * length {
            frame[bit / 8] ^= 1 << (bit % 8);
            assert_eq!(check_fcs(&frame), Err(28), "bit {bit} of {length}");
            frame[bit / 8] ^= 1 << (bit % 8);
            cases += 2;
        }
        assert_eq!(check_fcs(&frame), Ok(()));
    }
    report("frames with a single bit damaged, ours and plain", cases);
}

/// It sees every burst of up to 32 bits too, in the order in which they are sent: the first and the
/// last of them are wrong, and of those between them any.
#[test]
fn bursts() {
    let mut random = Random::new(SEED);
    let mut cases = 0;
    for length in LENGTHS {
        let mut frame = random_checked(&mut random, length);
        for (burst, round) in (2..=32).flat_map(|burst| (0..40).map(move |round| (burst, round))) {
            let last = 8 * length - burst;
            let start = match round {
                0 => last,
                // It ends where the check begins.
                1 => last - 32,
                _ => random.below(last as u64 + 1) as usize,
            };
            let highest = 1 << (burst - 1);
            let wrong = (random.next_u64() & (highest - 1) | highest | 1) << (start % 8);
            let damage = |frame: &mut [u8]| {
                let octets = frame[start / 8..].iter_mut();
                octets.zip(wrong.to_le_bytes()).for_each(|(octet, wrong)| *octet ^= wrong);
            };
            damage(&mut frame);
            assert_eq!(check_fcs(&frame), Err(28), "{burst} bits from {start} of {length}");
            damage(&mut frame);
            cases += 2;
        }
        assert_eq!(check_fcs(&frame), Ok(()));
    }
    report("frames with a burst of damage, ours and plain", cases);
}

/// A good frame cut anywhere is 1 or 28, and one with zeros behind it is 28 or 2.
#[test]
fn every_cut() {
    let mut random = Random::new(SEED);
    let mut cases = 0;
    for length in LENGTHS {
        let mut frame = random_checked(&mut random, length);
        for cut in 0..length {
            let refusal = if cut < fcs::SHORTEST { 1 } else { 28 };
            assert_eq!(check_fcs(&frame[..cut]), Err(refusal), "{cut} of {length}");
            cases += same_verdict(&frame[..cut]);
        }
        for more in 1..=8 {
            frame.push(0);
            let refusal = if frame.len() > fcs::LONGEST { 2 } else { 28 };
            assert_eq!(check_fcs(&frame), Err(refusal), "{more} over {length}");
            cases += same_verdict(&frame);
        }
    }
    report("good frames cut and grown, ours and plain", cases);
}

/// Outputs of every size up to some over the result's, for frames of each length at a bound.
#[test]
fn every_room_for_a_check() {
    let mut random = Random::new(SEED);
    let mut cases = 0;
    for length in [0, 13, 14, 15, 60, 61] {
        let frame = random_octets(&mut random, length);
        let rooms: Vec<usize> = (0..length + 24).collect();
        cases += same_writes(&mut random, &frame, &rooms);
    }
    for length in [1_514, 1_518, 1_521, 1_522, 1_523, 1_526, 1_527] {
        let frame = random_octets(&mut random, length);
        let rooms: Vec<usize> = (0..8).chain(length - 16..length + 24).collect();
        cases += same_writes(&mut random, &frame, &rooms);
    }
    report("rooms for a check, ours and plain", cases);
}

/// Frames of any length with a check that is right, damaged or none.
#[test]
fn random_frames() {
    let mut random = Random::new(SEED);
    let mut cases = 0;
    for _ in 0..10_000 {
        let length = random.below(1_700) as usize;
        let octets = random_octets(&mut random, length);
        cases += same(&mut random, &octets);
    }
    report("random frames and checks, ours and plain", cases);
}
