//! "Charge cards": the walk, the calibration's bounds as bit patterns, and volts. Every version is
//! asked.

mod common;

use common::report;
use compare::layers::{card, next_card, rest, volts};
use compare::plain::cards::{Calibration, Card, Volts};
use compare::random::{Random, SEED};

const FAIR: Calibration = Calibration { gain: 0.25, offset: 0.5 };

/// The paper's reading, and what has no volts.
#[test]
fn the_papers_reading() {
    assert_eq!(volts(&[0x11, 0, 10], FAIR), Ok(Volts::FromRawCode(3.0)));
    assert_eq!(volts(&[0x12, 0, 10], FAIR), Ok(Volts::FromMillivolts(0.01)));
    assert_eq!(volts(&[0x12, 0xFF, 0xFF], FAIR), Ok(Volts::FromMillivolts(65.535)));
    assert_eq!(volts(&[0x10, 0, 0, 0, 10], FAIR), Ok(Volts::NotAReading));
    assert_eq!(volts(&[0x00, 0x11, 0, 10], FAIR), Ok(Volts::NotAReading));
    assert_eq!(volts(&[], FAIR), Ok(Volts::NotAReading));
}

/// The next card and the rest are parts of the lent payload, up to its end.
#[test]
fn the_next_card() {
    let payload = [0x10, 1, 2, 3, 4, 0x11, 0xAB, 0xCD, 0x12, 0x10, 0x00, 0x00, 0x77];
    assert_eq!(next_card(&payload), Ok(Card::FlushOrder(0x0102_0304)));
    assert!(std::ptr::eq(card(&payload), &payload[..5]));
    assert!(std::ptr::eq(rest(&payload), &payload[5..]));
    assert_eq!(next_card(&payload[5..]), Ok(Card::RawCode(0xABCD)));
    assert!(std::ptr::eq(card(&payload[5..]), &payload[5..8]));
    assert!(std::ptr::eq(rest(&payload[5..]), &payload[8..]));
    assert_eq!(next_card(&payload[8..]), Ok(Card::Millivolts(4_096)));
    for end in [&payload[11..], &[]] {
        assert_eq!(next_card(end), Ok(Card::End));
        assert!(card(end).is_empty() && rest(end).is_empty());
    }
}

/// Every kind octet at every length: 20 and 21, with 22 before both.
#[test]
fn every_kind_cut_everywhere() {
    let mut cases = 0;
    for kind in 0..=255 {
        let whole = [kind, 0, 1, 0, 2];
        for length in 1..=5 {
            let payload = &whole[..length];
            let expected = match (kind, length) {
                (0x00, _) => Ok(Card::End),
                (0x10, 5) => Ok(Card::FlushOrder(65_538)),
                (0x11, 3..) => Ok(Card::RawCode(1)),
                (0x12, 3..) => Ok(Card::Millivolts(1)),
                (0x10..=0x12, _) => Err(21),
                _ => Err(20),
            };
            assert_eq!(next_card(payload), expected, "{payload:02X?}");
            if !matches!(expected, Ok(Card::FlushOrder(_) | Card::RawCode(_) | Card::Millivolts(_)))
            {
                assert!(card(payload).is_empty() && rest(payload).is_empty());
            }
            let bad = Calibration { gain: 2.0, ..FAIR };
            assert_eq!(volts(payload, bad), Err(22), "22 before all else");
            assert_eq!(volts(payload, FAIR).err(), expected.err());
            cases += 1;
        }
    }
    assert_eq!(volts(&[], Calibration { offset: f64::NAN, ..FAIR }), Err(22));
    report("cards of every kind, cut everywhere", cases);
}

/// The doubles at a bound and the next ones on both sides of it, for gain and offset.
#[test]
fn calibrations_at_their_bounds() {
    // The next double away from zero, and towards it.
    let further = |x: f64| f64::from_bits(x.to_bits() + 1);
    let nearer = |x: f64| f64::from_bits(x.to_bits() - 1);
    let good_gains = [further(0.0), f64::MIN_POSITIVE, 0.25, nearer(1.0), 1.0];
    let bad_gains = [
        0.0,
        -0.0,
        further(-0.0),
        further(1.0),
        -1.0,
        f64::INFINITY,
        f64::NEG_INFINITY,
        f64::NAN,
        -f64::NAN,
    ];
    let good_offsets = [-100.0, nearer(-100.0), -0.0, 0.0, further(0.0), nearer(100.0), 100.0];
    let bad_offsets =
        [further(-100.0), further(100.0), f64::INFINITY, f64::NEG_INFINITY, f64::NAN, -f64::NAN];
    let mut cases = 0;
    let gains = good_gains.iter().map(|&gain| (gain, true));
    for (gain, gain_fits) in gains.chain(bad_gains.iter().map(|&gain| (gain, false))) {
        let offsets = good_offsets.iter().map(|&offset| (offset, true));
        for (offset, offset_fits) in
            offsets.chain(bad_offsets.iter().map(|&offset| (offset, false)))
        {
            let calibration = Calibration { gain, offset };
            let expected = if gain_fits && offset_fits { Ok(()) } else { Err(22) };
            assert_eq!(calibration.check(), expected, "{calibration:?}");
            let answer = volts(&[0x11, 0xFF, 0xFF], calibration);
            assert_eq!(answer.map(|_| ()), expected, "{calibration:?}");
            if let Ok(Volts::FromRawCode(volts)) = answer {
                assert!(volts.is_finite() && (-100.0..=65_635.0).contains(&volts));
            }
            cases += 1;
        }
    }
    report("calibrations at their bounds", cases);
}

/// "Rounded after each operation": one rounding for the product and one for the sum, which a fused
/// step would not give on some of these.
#[test]
fn two_roundings() {
    let mut random = Random::new(SEED);
    let (mut cases, mut fused_differs) = (0, 0);
    for _ in 0..200_000 {
        let raw = random.number();
        let gain = (random.below(1 << 53) + 1) as f64 / (1u64 << 53) as f64;
        let offset = random.between(-100_000_000, 100_000_000) as f64 / 1_000_000.0;
        let [high, low] = raw.to_be_bytes();
        let product = std::hint::black_box(f64::from(raw) * gain);
        let sum = product + offset;
        let answer = volts(&[0x11, high, low], Calibration { gain, offset });
        let Ok(Volts::FromRawCode(volts)) = answer else { panic!("{answer:?}") };
        assert_eq!(volts.to_bits(), sum.to_bits());
        fused_differs += u64::from(f64::from(raw).mul_add(gain, offset).to_bits() != sum.to_bits());
        cases += 1;
    }
    assert!(fused_differs > 0, "no case tells one rounding from two");
    report("volts from raw codes", cases);
}

/// One division, rounded once, is the double nearest to the decimal that a person would write.
#[test]
fn every_count_of_millivolts() {
    let mut product_differs = 0;
    for millivolts in 0..=65_535u16 {
        let [high, low] = millivolts.to_be_bytes();
        let written = format!("{}.{:03}", millivolts / 1000, millivolts % 1000);
        let nearest: f64 = written.parse().expect("a decimal");
        assert_eq!(volts(&[0x12, high, low], FAIR), Ok(Volts::FromMillivolts(nearest)));
        product_differs += u64::from(f64::from(millivolts) * 0.001 != nearest);
    }
    assert!(product_differs > 0, "no count tells / 1000 from * 0.001");
    report("volts from millivolts", 65_536);
}

/// A walk from one rest to the next meets each card once, in order, and ends.
#[test]
fn walks() {
    let mut random = Random::new(SEED);
    let mut cases = 0;
    for _ in 0..20_000 {
        let mut payload = Vec::new();
        let mut cards = Vec::new();
        for _ in 0..random.below(12) {
            let kind = random.pick(&[0x10, 0x11, 0x12]);
            let mut body = [0; 4];
            random.fill(&mut body);
            let wide = u32::from_be_bytes(body);
            let narrow = (wide >> 16) as u16;
            let (card, length) = match kind {
                0x10 => (Card::FlushOrder(wide), 4),
                0x11 => (Card::RawCode(narrow), 2),
                _ => (Card::Millivolts(narrow), 2),
            };
            payload.push(kind);
            payload.extend(&body[..length]);
            cards.push(card);
        }
        let last = random.pick(&[Ok(Card::End), Err(20), Err(21)]);
        match last {
            Ok(_) if random.once_in(2) => {}
            Ok(_) => payload.extend([0x00, 0x11, 0x10]),
            Err(20) => payload.extend([0x13, 1, 2, 3]),
            Err(_) => payload.extend([0x10, 1, 2, 3]),
        }
        let mut left = &payload[..];
        for expected in cards {
            assert_eq!(next_card(left), Ok(expected));
            assert_eq!([card(left), rest(left)].concat(), left);
            left = rest(left);
        }
        assert_eq!(next_card(left), last);
        assert!(card(left).is_empty() && rest(left).is_empty());
        cases += 1;
    }
    report("walks over payloads", cases);
}
