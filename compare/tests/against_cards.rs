//! The proved layer against the plain version: "Charge cards", volts as bit patterns.

mod common;

use ahozurime::{cards as safe, Refusal};
use common::report;
use compare::layers::{card, next_card, plain_card, plain_volts, rest, volts};
use compare::plain::cards::{Calibration, Card};
use compare::random::{Random, SEED};

/// Every call on one payload; how many cases that was.
fn same(payload: &[u8], calibration: Calibration) -> u64 {
    let _ = (next_card(payload), card(payload), rest(payload), volts(payload, calibration));
    8
}

/// The doubles about a bound, and the ones that are no number or no end: quiet and signalling NaNs
/// of either sign, with every single bit and with several.
fn doubles() -> Vec<f64> {
    let mut doubles = vec![f64::NAN, -f64::NAN, f64::INFINITY, f64::NEG_INFINITY, f64::MAX];
    let nan = |bits: u64| f64::from_bits(f64::INFINITY.to_bits() | bits);
    let single = (0..52).map(|bit| nan(1 << bit));
    let several = [0x123, 0x8_0000_0000_0123, 0x7_FFFF_FFFF_FFFF, 0xF_FFFF_FFFF_FFFF].map(nan);
    doubles.extend(single.chain(several).flat_map(|nan| [nan, -nan]));
    for bound in [0.0f64, 1.0, 100.0, 0.25, 0.5, f64::MIN_POSITIVE] {
        for about in [bound.to_bits().wrapping_sub(1), bound.to_bits(), bound.to_bits() + 1] {
            let about = f64::from_bits(about);
            doubles.extend([about, -about]);
        }
    }
    doubles
}

/// Every double about a bound and every NaN, as gain and as offset, with cards of every kind.
#[test]
fn cards_and_calibrations_at_every_bound() {
    let mut cases = 0;
    let doubles = doubles();
    let payloads: [&[u8]; 14] = [
        &[],
        &[0],
        &[0x11, 0, 0],
        &[0x12, 0, 0],
        &[0x11, 0, 10],
        &[0x11, 0xFF, 0xFF, 1],
        &[0x11, 0],
        &[0x12, 0, 1],
        &[0x12, 0xFF, 0xFF],
        &[0x12],
        &[0x10, 1, 2, 3, 4],
        &[0x10, 1, 2, 3],
        &[0x13, 0, 0],
        &[0xFF],
    ];
    for payload in payloads {
        for &gain in &doubles {
            for &offset in &doubles {
                cases += same(payload, Calibration { gain, offset });
            }
        }
    }
    report("cards and calibrations, ours and plain", cases);
}

/// Lengths whose low 8 or 16 bits are too short for a card, too.
#[test]
fn every_kind_at_every_length() {
    let mut random = Random::new(SEED);
    let mut cases = 0;
    for kind in 0..=255 {
        let lengths = (1..=10).chain([100, 1_509]).chain(253..=262).chain(65_534..=65_542);
        for length in lengths {
            let mut payload = vec![kind; length];
            random.fill(&mut payload[1..]);
            let gain = f64::from_bits(random.next_u64() >> 12 | 0x3FE0_0000_0000_0000);
            let offset = random.between(-101, 101) as f64 + 0.125;
            cases += same(&payload, Calibration { gain, offset });
        }
    }
    report("cards of every kind, ours and plain", cases);
}

/// Every raw code and count of millivolts.
#[test]
fn every_number_of_two_octets() {
    let mut cases = 0;
    for number in 0..=u16::MAX {
        let [high, low] = number.to_be_bytes();
        let calibration = Calibration { gain: 0.25, offset: 0.5 };
        cases += same(&[0x11, high, low], calibration);
        cases += same(&[0x12, high, low], calibration);
        cases += same(&[0x10, high, low, low, high], calibration);
    }
    report("cards of every number, ours and plain", cases);
}

/// "Rounded after each operation": values among which one rounding gives another answer than two.
#[test]
fn volts_of_every_kind_of_calibration() {
    let mut random = Random::new(SEED);
    let (mut cases, mut fused_differs) = (0, 0);
    for _ in 0..100_000 {
        let code = random.number();
        let [high, low] = code.to_be_bytes();
        let gain = (random.below(1 << 53) + 1) as f64 / (1u64 << 53) as f64;
        let offset = random.between(-100_000_000, 100_000_000) as f64 / 1_000_000.0;
        for kind in [0x11, 0x12] {
            assert!(volts(&[kind, high, low], Calibration { gain, offset }).is_ok());
        }
        let two = f64::from(code) * gain + offset;
        fused_differs += u64::from(f64::from(code).mul_add(gain, offset) != two);
        cases += 4;
    }
    assert!(fused_differs > 1_000, "too few cases tell one rounding from two");
    report("volts, ours and plain", cases);
}

/// From each card to the rest behind it, and the package's walks over the same payload.
#[test]
fn walks() {
    let mut random = Random::new(SEED);
    let mut cases = 0;
    for _ in 0..20_000 {
        let mut payload = vec![0; random.below(40) as usize];
        random.fill(&mut payload);
        for octet in &mut payload {
            if random.once_in(3) {
                *octet = 0x10 + *octet % 3;
            }
        }
        let calibration = Calibration { gain: 0.001, offset: random.between(-100, 100) as f64 };
        let Calibration { gain, offset } = calibration;
        let mut walk = safe::walk(&payload);
        let mut readings = safe::readings(&payload, safe::Calibration { gain, offset });
        let mut left = &payload[..];
        loop {
            cases += 8;
            assert_eq!(walk.rest(), left, "{payload:02X?}");
            let next = next_card(left);
            let walked = walk.next().map(|card| card.map(plain_card).map_err(Refusal::number));
            assert_eq!(walked, Some(next).filter(|&next| next != Ok(Card::End)), "{payload:02X?}");
            let read = readings.next().map(|read| read.map(plain_volts).map_err(Refusal::number));
            assert_eq!(read, walked.map(|_| volts(left, calibration)), "{payload:02X?}");
            if card(left).is_empty() {
                break;
            }
            left = rest(left);
        }
        assert_eq!((walk.next(), readings.next()), (None, None));
    }
    report("walks through payloads, ours and plain", cases);
}
