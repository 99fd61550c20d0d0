//! "Both sides of each edge", case for case and in the paper's order, asked of every version; and those
//! of the requests since.

use ahozurime_sys::{AHZ_DISCARD, AHZ_PASS};
use compare::layers::{self, insert_in, payload, read_in, remove_in, Event, Kept, USES};
use compare::plain::encoding::Encoding;
use compare::plain::recovery::{Milliseconds, Setup, Ticks, MATCH, VECTOR};

/// What one packet's answer is and what it adds to discarded, order and rogue.
type Effect = (u8, [u64; 3]);

const PASS_IN_ORDER: Effect = (AHZ_PASS, [0, 0, 0]);
const PASS_OUT_OF_ORDER: Effect = (AHZ_PASS, [0, 1, 0]);
const REPEAT: Effect = (AHZ_DISCARD, [1, 0, 0]);
const ROGUE: Effect = (AHZ_DISCARD, [1, 0, 1]);

fn setup(rule: u8, usage: u8, history: u16) -> Setup {
    Setup {
        rule,
        taken: 0,
        usage,
        history,
        timeout: Milliseconds(100),
        ticks_per_second: 100,
        paths: 2,
        difference: 1,
    }
}

/// A state after numbered packets, each of which has to pass.
fn after(rule: u8, usage: u8, history: u16, numbers: &[u16]) -> Kept {
    let setup = setup(rule, usage, history);
    let mut kept = Kept::of(&layers::fresh(&setup).expect("a setup in range"));
    for &number in numbers {
        assert_eq!(kept.event(Event::Packet(Some(number))), AHZ_PASS, "{number} was to pass");
    }
    kept
}

/// One more packet, which has that effect in both uses.
fn one(rule: u8, history: u16, numbers: &[u16], number: u16, effect: Effect) {
    for usage in USES {
        let mut kept = after(rule, usage, history, numbers);
        let old = kept.state().counters;
        let answer = kept.event(Event::Packet(Some(number)));
        let new = kept.state().counters;
        let added = [new.discarded - old.discarded, new.order - old.order, new.rogue - old.rogue];
        assert_eq!((answer, added), effect, "{number} after {numbers:?}, use {usage}");
    }
}

#[test]
fn fresh_takes_ten() {
    one(VECTOR, 4, &[], 10, PASS_IN_ORDER);
}

#[test]
fn history_of_four_above_ten() {
    one(VECTOR, 4, &[10], 13, PASS_OUT_OF_ORDER);
    one(VECTOR, 4, &[10], 14, ROGUE);
}

#[test]
fn history_of_four_after_ten_and_thirteen() {
    one(VECTOR, 4, &[10, 13], 11, PASS_OUT_OF_ORDER);
    one(VECTOR, 4, &[10, 13], 10, REPEAT);
    one(VECTOR, 4, &[10, 13], 9, ROGUE);
}

#[test]
fn the_wrap_is_in_order() {
    for history in 2..=512 {
        one(VECTOR, history, &[65_535], 0, PASS_IN_ORDER);
    }
}

#[test]
fn history_of_sixty_four_below_zero() {
    one(VECTOR, 64, &[0], 65_473, PASS_OUT_OF_ORDER);
    one(VECTOR, 64, &[0], 65_472, ROGUE);
    one(VECTOR, 64, &[0], 32_768, ROGUE);
}

/// "Add first 0, then 65,025 passes and 65,024 is rogue"; and the other side.
#[test]
fn history_of_512_about_zero() {
    one(VECTOR, 512, &[0], 65_025, PASS_OUT_OF_ORDER);
    one(VECTOR, 512, &[0], 65_024, ROGUE);
    one(VECTOR, 512, &[0], 32_768, ROGUE);
    one(VECTOR, 512, &[0, 65_025], 65_025, REPEAT);
    one(VECTOR, 512, &[0], 511, PASS_OUT_OF_ORDER);
    one(VECTOR, 512, &[0], 512, ROGUE);
    one(VECTOR, 512, &[0, 511], 0, REPEAT);
    one(VECTOR, 512, &[0, 511], 65_535, ROGUE);
}

/// Both sides of every history length, above and below: the last that passes and the first rogue.
#[test]
fn every_history_about_zero() {
    for history in 2..=512u16 {
        one(VECTOR, history, &[0], history.wrapping_neg() + 1, PASS_OUT_OF_ORDER);
        one(VECTOR, history, &[0], history.wrapping_neg(), ROGUE);
        let ahead = if history == 2 { PASS_IN_ORDER } else { PASS_OUT_OF_ORDER };
        one(VECTOR, history, &[0], history - 1, ahead);
        one(VECTOR, history, &[0], history, ROGUE);
    }
}

/// "Refusal 16 and the sound state follow", under match too.
#[test]
fn history_from_513_is_refused() {
    for (rule, usage) in
        [VECTOR, MATCH].into_iter().flat_map(|rule| USES.map(|usage| (rule, usage)))
    {
        assert_eq!(layers::check_setup(&setup(rule, usage, 512)), Ok(()));
        for history in [513, 514, 576, 1_024, 32_768, 65_535] {
            assert_eq!(layers::check_setup(&setup(rule, usage, history)), Err(16), "{history}");
            assert_eq!(layers::fresh(&setup(rule, usage, history)), Err(16), "{history}");
        }
    }
}

#[test]
fn milliseconds_become_ticks() {
    for (milliseconds, rate, ticks) in
        [(100, 100, 10), (1, 100, 1), (11, 100, 2), (3_600_000, 10_000, 36_000_000)]
    {
        assert_eq!(layers::ticks(Milliseconds(milliseconds), rate), Ticks(ticks));
    }
}

#[test]
fn match_compares_with_the_last_only() {
    for usage in USES {
        let counters = after(MATCH, usage, 4, &[5, 6, 5]).state().counters;
        assert_eq!((counters.order, counters.passed), (1, 3));
    }
    one(MATCH, 4, &[5], 5, REPEAT);
}

/// And of id 10 with a payload of four octets, which the R-TAG says nothing of.
#[test]
fn the_octets_of_258() {
    let frame = framed(&[], 18);
    for (encoding, octets, at) in [
        (Encoding::RTag, [0xF1, 0xC1, 0, 0, 1, 2], 12),
        (Encoding::Hsr, [0x89, 0x2F, 0xA0, 0x0A, 1, 2], 12),
        (Encoding::Prp, [1, 2, 0xA0, 0x0A, 0x88, 0xFB], 18),
    ] {
        assert_eq!(encoding.octets(258, 10, 10), octets);
        let mut out = [0xEE; 24];
        assert_eq!(insert_in(encoding, &frame, 258, 10, &mut out), Ok(24));
        assert_eq!(out[at..at + 6], octets, "{encoding:?}");
    }
}

/// Frames of a length whose type is 0800 where they have one: bare, with a C-TAG, with either other
/// tag, with both. Cutting one short may cut a tag.
fn framed(tags: &[u8], length: usize) -> Vec<u8> {
    let mut frame = vec![2; 12];
    frame.extend_from_slice(tags);
    frame.extend_from_slice(&[8, 0]);
    frame.resize(length, 0);
    frame
}

const C: [u8; 4] = [0x81, 0, 0, 5];
const R: [u8; 6] = [0xF1, 0xC1, 0, 0, 1, 2];
const HSR: [u8; 6] = [0x89, 0x2F, 0xA0, 6, 1, 2];
const C_AND_R: [u8; 10] = [0x81, 0, 0, 5, 0xF1, 0xC1, 0, 0, 1, 2];
const C_AND_HSR: [u8; 10] = [0x81, 0, 0, 5, 0x89, 0x2F, 0xA0, 6, 1, 2];

/// The refusal below an edge and the payload's start above it, to a stream of any encoding.
fn edge(tags: &[u8], below: usize, refusal: u8) {
    let (short, whole) = (framed(tags, below), framed(tags, below + 1));
    for encoding in Encoding::ALL {
        assert_eq!(read_in(encoding, &short), Err(refusal), "{below} octets");
        let header = read_in(encoding, &whole).expect("a frame that is just long enough");
        assert_eq!((header.payload_at, header.ethertype), (below + 1, 0x0800));
    }
    assert!(payload(&short).is_empty());
    assert!(payload(&whole).is_empty());
}

#[test]
fn shortest_frames() {
    edge(&[], 13, 1);
    edge(&C, 17, 3);
    edge(&R, 19, 3);
    edge(&HSR, 19, 3);
    edge(&C_AND_R, 23, 3);
    edge(&C_AND_HSR, 23, 3);
}

#[test]
fn longest_frames() {
    for tags in [&[][..], &C, &R, &HSR, &C_AND_R, &C_AND_HSR] {
        let frame = framed(tags, 1_523);
        for encoding in Encoding::ALL {
            assert_eq!(read_in(encoding, &frame), Err(2));
            assert!(read_in(encoding, &frame[..1_522]).is_ok());
        }
        assert!(payload(&frame).is_empty());
        assert_eq!(payload(&frame[..1_522]).len(), 1_522 - 14 - tags.len());
    }
}

/// Insertion into 1,516 and 1,517 octets, and back, in every encoding; under PRP also behind a tag.
#[test]
fn longest_insertion() {
    for tags in [&[][..], &C, &R, &HSR, &C_AND_R, &C_AND_HSR] {
        for encoding in Encoding::ALL {
            if tags.len() > 4 && encoding != Encoding::Prp {
                continue;
            }
            let mut out = [0xEE; 1_600];
            assert_eq!(insert_in(encoding, &framed(tags, 1_517), 258, 9, &mut out), Err(7));
            assert_eq!(out, [0xEE; 1_600]);
            assert_eq!(insert_in(encoding, &framed(tags, 1_516), 258, 9, &mut out), Ok(1_522));
            let header = read_in(encoding, &out[..1_522]);
            assert_eq!(header.map(|header| header.number), Ok(Some(258)));
            assert!(out[1_522..].iter().all(|&octet| octet == 0xEE));
            let mut back = [0; 1_516];
            assert_eq!(remove_in(encoding, &out[..1_522], &mut back), Ok(1_516));
            assert_eq!(back[..], framed(tags, 1_516));
        }
    }
}

/// Ids 15 and 16.
#[test]
fn highest_id() {
    for encoding in [Encoding::Hsr, Encoding::Prp] {
        let frame = framed(&[], 20);
        let mut out = [0xEE; 26];
        assert_eq!(insert_in(encoding, &frame, 258, 16, &mut out), Err(37));
        assert_eq!(out, [0xEE; 26]);
        assert_eq!(insert_in(encoding, &frame, 258, 15, &mut out), Ok(26));
        assert_eq!(read_in(encoding, &out).map(|header| header.path_id), Ok(15));
    }
}

/// Payloads of 5 and 6 octets, and sizes of one less, of the payload's own and of one more.
#[test]
fn shortest_trailer() {
    for tags in [&[][..], &C, &R, &HSR] {
        let head = framed(tags, 14 + tags.len());
        for (length, size, number) in
            [(5, 5, None), (5, 6, None), (6, 5, None), (6, 6, Some(258)), (6, 7, None)]
        {
            let trailer = [1, 2, 0xA0, size, 0x88, 0xFB];
            let frame = [&head[..], &trailer[6 - length..]].concat();
            let header = read_in(Encoding::Prp, &frame).expect("a good frame");
            let id = if number.is_some() { 10 } else { 0 };
            assert_eq!((header.number, header.path_id), (number, id), "{length} and {size}");
            let removed = if number.is_some() { Ok(head.len()) } else { Err(9) };
            assert_eq!(remove_in(Encoding::Prp, &frame, &mut [0; 40]), removed);
        }
    }
}

/// CR 1: DSCP 63, 64, 254 and 255; next protocol 0, 1, 4 and 5; header lengths of 4 and 5 words; a payload
/// of one octet less than its header, and than that and the ports; 256 and 257 entries of kind 4.
#[test]
fn ip_streams() {
    let entry = |dscp, next, ports: [u8; 4]| {
        [&[4, 2, 2, 2, 2, 2, 2, 3, 0, 0, 0, 0, 0, 0, 0, 0, 0, 0, dscp, next], &ports[..], &[0, 7]]
            .concat()
    };
    for (dscp, next, verdict) in [
        (63, 1, Ok(())),
        (64, 1, Err(12)),
        (254, 1, Err(12)),
        (255, 1, Ok(())),
        (255, 0, Err(12)),
        (255, 4, Ok(())),
        (255, 5, Err(12)),
    ] {
        assert_eq!(layers::check_table(&entry(dscp, next, [0; 4])), verdict, "{dscp} and {next}");
    }
    let (no_port, port) = (entry(255, 2, [0; 4]), entry(255, 2, [0, 0, 0, 80]));
    assert_eq!(layers::check_table(&port.repeat(256)), Ok(()));
    assert_eq!(layers::check_table(&port.repeat(257)), Err(13));
    for tags in [&[][..], &C, &R, &HSR, &C_AND_R, &C_AND_HSR] {
        let at = 14 + tags.len();
        for (first, header) in [(0x44, None), (0x45, Some(20)), (0x46, Some(24))] {
            let mut frame = framed(tags, at + 28);
            (frame[at], frame[at + 9]) = (first, 17);
            frame[at + 23] = 80;
            frame[at + 27] = 80;
            for length in at..=frame.len() {
                let found = |least: usize| header.filter(|header| length >= at + header + least);
                let handle = |found: Option<usize>| Ok(found.map(|_| 7));
                assert_eq!(
                    layers::lookup(&no_port, &frame[..length]),
                    handle(found(0)),
                    "{length}"
                );
                assert_eq!(layers::lookup(&port, &frame[..length]), handle(found(4)), "{length}");
            }
        }
    }
}
