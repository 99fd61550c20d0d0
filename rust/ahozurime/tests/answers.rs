//! What this package adds to the layer: names, sentences and walks.

use ahozurime::cards::{self, Calibration, Card, Reading};
use ahozurime::recovery::{Generator, Rule, Setup, State, Usage, Verdict, MARK_WORDS, WORDS};
use ahozurime::{fcs, frame, streams, tape, version, Version, STACK};
use ahozurime::{Milliseconds, Millivolts, RawCode, Refusal, TicksPerSecond, Volts};
use std::collections::BTreeMap;

const HEADER: &str = include_str!("../../../include/ahozurime.h");

#[test]
fn refusals_have_the_numbers_of_the_paper() {
    let in_order = [
        Refusal::FRAME_SHORT,
        Refusal::FRAME_LONG,
        Refusal::TAG_CUT,
        Refusal::TAG_TWICE,
        Refusal::VLAN,
        Refusal::TAG_THERE,
        Refusal::RESULT_LONG,
        Refusal::OUTPUT_SHORT,
        Refusal::NO_TAG,
        Refusal::ENTRY_KIND,
        Refusal::ENTRY_CUT,
        Refusal::ENTRY_RANGE,
        Refusal::ENTRY_257,
        Refusal::STATE,
        Refusal::RULE,
        Refusal::HISTORY,
        Refusal::MILLISECONDS,
        Refusal::RATE,
        Refusal::PATHS,
        Refusal::CARD_KIND,
        Refusal::CARD_CUT,
        Refusal::CALIBRATION,
        Refusal::EVENT_KIND,
        Refusal::EVENT_CUT,
        Refusal::TAPE_SETUP,
        Refusal::TAPE_LONG,
        Refusal::TAKEN_OR_USE,
        Refusal::FCS,
        Refusal::PATH_ID,
    ];
    assert_eq!(in_order.map(Refusal::number).to_vec(), numbers_of_the_papers());
}

fn numbers_of_the_papers() -> Vec<u8> {
    (1..=28).chain([37]).collect()
}

/// The sentences of the header by their numbers, and the one for every other number.
fn sentences_of_the_header() -> (BTreeMap<u8, &'static str>, &'static str) {
    let (_, form) = HEADER.split_once("ahz_refusal_sentence(").expect("the form");
    let (cases, default) = form.split_once("default:").expect("a default");
    let quoted = |text: &'static str| text.split('"').nth(1).expect("a sentence");
    let number = |name: &str| {
        let (_, value) = HEADER.split_once(&format!(" {name} = ")).expect(name);
        let (digits, _) = value.split_once(|c: char| !c.is_ascii_digit()).expect(name);
        digits.parse().expect(name)
    };
    let sentence = |case: &'static str| {
        let (name, answer) = case.split_once(':').expect("an answer");
        (number(name), quoted(answer))
    };
    (cases.split("case ").skip(1).map(sentence).collect(), quoted(default))
}

#[test]
fn sentences_are_those_of_the_header() {
    let (sentences, none) = sentences_of_the_header();
    assert_eq!(sentences.keys().copied().collect::<Vec<_>>(), numbers_of_the_papers());
    for number in 0..=255 {
        let refusal = Refusal::from_number(number);
        assert_eq!(refusal.number(), number);
        assert_eq!(refusal.sentence(), *sentences.get(&number).unwrap_or(&none), "{number}");
    }
}

#[test]
fn a_refusal_is_shown_with_its_sentence() {
    let error: Box<dyn std::error::Error> = Box::new(Refusal::VLAN);
    assert_eq!(error.to_string(), "refusal 5: VLAN id 4,095");
    assert_eq!(format!("{:?}", Refusal::VLAN), r#"Refusal(5, "VLAN id 4,095")"#);
}

#[test]
fn the_version_is_five_point_one() {
    assert_eq!(version(), Version { major: 5, minor: 1 });
    assert_eq!(Version::OF_THIS_PACKAGE, Version { major: 5, minor: 1 });
}

#[test]
fn a_version_fits_the_same_major_and_a_minor_up_to_its_own() {
    let archive = Version { major: 2, minor: 3 };
    for (major, minor, fits) in
        [(2, 3, true), (2, 2, true), (2, 4, false), (1, 3, false), (1, 9, false), (3, 0, false)]
    {
        assert_eq!(archive.fits(Version { major, minor }), fits, "{major}.{minor}");
    }
}

/// But for the last three, which are the layer's own: its stack and the longest output of a tape.
#[test]
fn constants_are_those_of_the_paper() {
    assert_eq!((frame::SHORTEST, frame::LONGEST), (14, 1_522));
    assert_eq!((frame::RTAG_OCTETS, frame::VLAN_LAST), (6, 4_094));
    assert_eq!((frame::HSR_OCTETS, frame::PRP_OCTETS, frame::PATH_ID_LAST), (6, 6, 15));
    assert_eq!((fcs::OCTETS, fcs::SHORTEST, fcs::LONGEST), (4, 18, 1_526));
    assert_eq!((streams::KIND_DESTINATION, streams::KIND_SOURCE, streams::KIND_IP), (1, 2, 4));
    let choices = (streams::CHOICE_TAGGED, streams::CHOICE_PRIORITY, streams::CHOICE_ALL);
    assert_eq!(choices, (1, 2, 3));
    assert_eq!((streams::VLAN_ANY, streams::IP_ANY, streams::PORT_ANY), (0, 0, 0));
    assert_eq!((streams::DSCP_LAST, streams::DSCP_ANY), (63, 255));
    assert_eq!((streams::PROTOCOL_NONE, streams::PROTOCOL_UDP), (1, 2));
    assert_eq!((streams::PROTOCOL_TCP, streams::PROTOCOL_SCTP), (3, 4));
    assert_eq!((streams::ENTRY_OCTETS, streams::IP_ENTRY_OCTETS), (12, 26));
    assert_eq!((streams::ENTRIES, streams::LONGEST), (256, 256 * 26));
    assert_eq!(Setup::HISTORY, 2..=512);
    assert_eq!(Setup::TIMEOUT, Milliseconds(1)..=Milliseconds(3_600_000));
    assert_eq!(Setup::RATE, TicksPerSecond(1)..=TicksPerSecond(10_000));
    assert_eq!(Setup::PATHS, 2..=8);
    // The format, eight numbers of the setup, four of the window and the timer, the marks, nine counters
    // and the base.
    assert_eq!((WORDS, MARK_WORDS), (1 + 8 + 4 + 8 + 9 + 1, 512 / 64));
    assert_eq!((cards::KIND_END, cards::KIND_FLUSH_ORDER), (0x00, 0x10));
    assert_eq!((cards::KIND_RAW_CODE, cards::KIND_MILLIVOLTS), (0x11, 0x12));
    assert_eq!(cards::FLUSH_ORDER_OCTETS, 5);
    assert_eq!((cards::RAW_CODE_OCTETS, cards::MILLIVOLTS_OCTETS), (3, 3));
    assert_eq!((tape::KIND_NUMBERED, tape::KIND_TAGLESS), (0x01, 0x02));
    assert_eq!((tape::KIND_TICK, tape::KIND_RESET), (0x03, 0x04));
    assert_eq!((tape::KIND_LATENT_RESET, tape::KIND_LATENT_TEST), (0x05, 0x06));
    assert_eq!((tape::KIND_SETUP, tape::LONGEST), (0x0F, 4_096));
    assert_eq!((STACK, fcs::STACK, tape::STACK), (512, 1_536, 55_296));
    assert_eq!(tape::OUTPUT, 53_513);
}

type Read = fn(&[u8]) -> Result<frame::Header, Refusal>;
type Insert = fn(&[u8], u16, u8, &mut [u8]) -> Result<usize, Refusal>;
type Remove = fn(&[u8], &mut [u8]) -> Result<usize, Refusal>;

/// The calls of each encoding: R-TAG, which has no id, HSR, PRP.
const ENCODINGS: [(Read, Insert, Remove); 3] = [
    (frame::read, |frame, number, _, out| frame::insert(frame, number, out), frame::remove),
    (frame::read_hsr, frame::insert_hsr, frame::remove_hsr),
    (frame::read_prp, frame::insert_prp, frame::remove_prp),
];
const R_TAG: [u8; 6] = [0xF1, 0xC1, 0, 0, 1, 2];
const HSR_TAG: [u8; 6] = [0x89, 0x2F, 0xA0, 0x0A, 1, 2];
const PRP_TRAILER: [u8; 6] = [1, 2, 0xA0, 0x0A, 0x88, 0xFB];

/// Addresses, VLAN 5, a tag or none, a type, and a payload.
fn frame_of(tag: &[u8], payload: &[u8]) -> Vec<u8> {
    let head = [2, 0, 0, 0, 0, 7, 2, 0, 0, 0, 0, 1, 0x81, 0x00, 0x20, 0x05];
    [&head, tag, &[0x88, 0xB5], payload].concat()
}

/// Number 258 and id 10, for a payload of 4 octets, so that the size is 10.
#[test]
fn a_number_goes_out_in_each_encoding_and_comes_back() {
    let payload = [0x10, 0x20, 0x30, 0x40];
    let bare = frame_of(&[], &payload);
    let with_trailer = frame_of(&[], &[&payload[..], &PRP_TRAILER].concat());
    let with_number = [frame_of(&R_TAG, &payload), frame_of(&HSR_TAG, &payload), with_trailer];
    for (encoding, (read, insert, remove)) in ENCODINGS.into_iter().enumerate() {
        let mut out = [0xA5; frame::LONGEST];
        assert_eq!(insert(&bare, 258, 10, &mut out), Ok(28));
        let (sent, later) = out.split_at(28);
        assert_eq!(sent, with_number[encoding]);
        assert!(later.iter().all(|&octet| octet == 0xA5));

        let mut expected = frame::read(&bare).unwrap();
        assert_eq!((expected.number, expected.path_id, expected.payload_at), (None, 0, 18));
        expected.number = Some(258);
        (expected.path_id, expected.payload_at) = [(0, 24), (10, 24), (10, 18)][encoding];
        assert_eq!(read(sent), Ok(expected));

        let mut back = [0xA5; frame::LONGEST];
        assert_eq!(remove(sent, &mut back), Ok(22));
        assert_eq!(back[..22], bare);
        assert_eq!(remove(&bare, &mut back), Err(Refusal::NO_TAG));
    }
}

#[test]
fn a_number_is_heard_in_its_own_encoding_alone() {
    for (tag, heard) in [
        (&[][..], [None, None, Some(258)]),
        (&R_TAG, [Some(258), None, Some(258)]),
        (&HSR_TAG, [None, Some(258), Some(258)]),
    ] {
        let sent = frame_of(tag, &[&[0; 4][..], &PRP_TRAILER].concat());
        for ((read, _, remove), number) in ENCODINGS.into_iter().zip(heard) {
            let header = read(&sent).unwrap();
            assert_eq!((header.number, header.ethertype), (number, 0x88B5));
            assert_eq!(frame::payload(&sent), &sent[header.payload_at..]);
            let removed = remove(&sent, &mut [0; frame::LONGEST]);
            assert_eq!(removed, number.map(|_| sent.len() - 6).ok_or(Refusal::NO_TAG));
        }
        // Of another size, and without its suffix.
        for (place, octet) in [(3, 0x0B), (4, 0x89), (5, 0xFA)] {
            let mut trailer = PRP_TRAILER;
            trailer[place] = octet;
            let sent = frame_of(tag, &[&[0; 4][..], &trailer].concat());
            let header = frame::read_prp(&sent).unwrap();
            assert_eq!((header.number, header.path_id), (None, 0));
        }
    }
}

#[test]
fn either_tag_is_one_in_every_encoding() {
    for (read, insert, remove) in ENCODINGS {
        for first in [R_TAG, HSR_TAG] {
            for second in [&R_TAG[..], &HSR_TAG, &[0x81, 0x00, 0x00, 0x05]] {
                let twice = frame_of(&[&first[..], second].concat(), &[0; 8]);
                let mut out = [0xA5; frame::LONGEST];
                assert_eq!(read(&twice), Err(Refusal::TAG_TWICE));
                assert_eq!(insert(&twice, 258, 16, &mut out), Err(Refusal::TAG_TWICE));
                assert_eq!(remove(&twice, &mut out), Err(Refusal::TAG_TWICE));
            }
            let once = frame_of(&first, &[]);
            assert_eq!(read(&once[..23]), Err(Refusal::TAG_CUT));
            assert_eq!(read(&once).map(|header| header.ethertype), Ok(0x88B5));
        }
    }
}

#[test]
fn an_id_over_15_is_refused_before_a_tag_that_is_there() {
    let [(_, insert_r_tag, _), with_id @ ..] = ENCODINGS;
    for tag in [R_TAG, HSR_TAG] {
        let tagged = frame_of(&tag, &[0; 4]);
        let mut out = [0xA5; frame::LONGEST];
        assert_eq!(insert_r_tag(&tagged, 258, 0, &mut out), Err(Refusal::TAG_THERE));
        assert_eq!(frame::insert_hsr(&tagged, 258, 15, &mut out), Err(Refusal::TAG_THERE));
        for (_, insert, _) in with_id {
            for id in [16, 17, 255] {
                assert_eq!(insert(&tagged, 258, id, &mut out), Err(Refusal::PATH_ID));
            }
        }
        assert!(out.iter().all(|&octet| octet == 0xA5));
        assert_eq!(frame::insert_prp(&tagged, 258, 15, &mut out), Ok(tagged.len() + 6));
    }
    let mut last_vlan = frame_of(&[], &[0; 4]);
    last_vlan[14..16].fill(0xFF);
    for (_, insert, _) in ENCODINGS {
        assert_eq!(insert(&last_vlan, 258, 16, &mut [0; 64]), Err(Refusal::VLAN));
    }
}

#[test]
fn a_number_is_not_put_in_nor_taken_off_without_room() {
    let octets: Vec<u8> = frame_of(&[], &[0; 1_499]);
    for (_, insert, remove) in ENCODINGS {
        let mut out = [0xA5; frame::LONGEST];
        assert_eq!(insert(&octets, 258, 10, &mut out), Err(Refusal::RESULT_LONG));
        let longest = &octets[..1_516];
        assert_eq!(insert(longest, 258, 10, &mut out[..1_521]), Err(Refusal::OUTPUT_SHORT));
        assert!(out.iter().all(|&octet| octet == 0xA5));
        assert_eq!(insert(longest, 258, 10, &mut out), Ok(1_522));
        let mut back = [0xA5; 1_516];
        assert_eq!(remove(&out, &mut back[..1_515]), Err(Refusal::OUTPUT_SHORT));
        assert!(back.iter().all(|&octet| octet == 0xA5));
        assert_eq!(remove(&out, &mut back), Ok(1_516));
        assert_eq!(back, longest);
    }
}

#[test]
fn a_frame_goes_out_with_its_check_and_comes_back_without() {
    let octets: Vec<u8> = (0..=frame::LONGEST).map(|i| (7 * i + i / 256) as u8).collect();
    for length in [14, 15, 60, 1_521, 1_522] {
        let bare = &octets[..length];
        let mut out = [0xA5; fcs::LONGEST + 1];
        assert_eq!(fcs::append(bare, &mut out), Ok(length + 4));
        let (sent, later) = out.split_at(length + 4);
        assert_eq!(sent[length..], fcs::crc32(bare).to_le_bytes());
        assert_eq!((fcs::check(sent), fcs::without(sent)), (Ok(()), bare));
        assert!(later.iter().all(|&octet| octet == 0xA5));
    }
}

#[test]
fn a_frame_with_its_check_is_refused_by_its_length_and_then_by_its_check() {
    for (length, refusal) in [
        (0, Refusal::FRAME_SHORT),
        (17, Refusal::FRAME_SHORT),
        (18, Refusal::FCS),
        (1_526, Refusal::FCS),
        (1_527, Refusal::FRAME_LONG),
    ] {
        let zeros = vec![0; length];
        assert_eq!((fcs::check(&zeros), fcs::without(&zeros)), (Err(refusal), &[][..]), "{length}");
    }
}

#[test]
fn a_check_is_not_appended_to_a_wrong_length_nor_without_room() {
    for (length, room, refusal) in [
        (0, 0, Refusal::FRAME_SHORT),
        (13, 1_600, Refusal::FRAME_SHORT),
        (1_523, 0, Refusal::FRAME_LONG),
        (1_523, 1_600, Refusal::FRAME_LONG),
        (14, 17, Refusal::OUTPUT_SHORT),
        (1_522, 1_525, Refusal::OUTPUT_SHORT),
    ] {
        let mut out = vec![0xA5; room];
        assert_eq!(fcs::append(&vec![0; length], &mut out), Err(refusal), "{length}, {room}");
        assert!(out.iter().all(|&octet| octet == 0xA5));
    }
}

#[test]
fn a_walk_ends_at_an_end_and_behind_a_refusal() {
    let card = Card::RawCode(RawCode(258));
    for (payload, last) in [
        (&[0x11, 1, 2][..], None),
        (&[0x11, 1, 2, 0, 0x11, 1, 2], None),
        (&[0x11, 1, 2, 0x13, 0x11, 1, 2], Some(Err(Refusal::CARD_KIND))),
        (&[0x11, 1, 2, 0x12, 0], Some(Err(Refusal::CARD_CUT))),
    ] {
        let mut walk = cards::walk(payload);
        assert_eq!(walk.rest(), payload);
        assert_eq!(walk.next(), Some(Ok(card)));
        assert_eq!(walk.rest(), &payload[3..]);
        assert_eq!(walk.next(), last);
        assert_eq!((walk.next(), walk.next(), walk.rest()), (None, None, &[][..]));
    }
}

#[test]
fn readings_end_at_an_end_and_behind_a_refusal() {
    let calibration = Calibration { gain: 0.25, offset: 0.5 };
    let payload = [0x10, 0, 0, 0, 1, 0x11, 0, 10, 0x12, 0, 250, 0, 0x12, 0, 1];
    let readings: Vec<_> = cards::readings(&payload, calibration).collect();
    let expected = [
        Ok(Reading::NotAReading),
        Ok(Reading::FromRawCode(Volts(3.0))),
        Ok(Reading::FromMillivolts(Volts(0.25))),
    ];
    assert_eq!(readings, expected);
    assert_eq!(cards::next(&payload[8..]), Ok(Card::Millivolts(Millivolts(250))));
    let steep = Calibration { gain: 2.0, ..calibration };
    for (payload, calibration, refusal) in [
        (&payload[..], steep, Refusal::CALIBRATION),
        (&[], steep, Refusal::CALIBRATION),
        (&[0x99], calibration, Refusal::CARD_KIND),
        (&[0x11], calibration, Refusal::CARD_CUT),
    ] {
        let mut readings = cards::readings(payload, calibration);
        assert_eq!(readings.next(), Some(Err(refusal)));
        assert_eq!((readings.next(), readings.next()), (None, None));
    }
}

const SETUP: Setup = Setup {
    rule: Rule::Vector,
    take_tagless: true,
    usage: Usage::Individual,
    history: 512,
    timeout: Milliseconds(3_600_000),
    rate: TicksPerSecond(10_000),
    paths: 8,
    difference: u32::MAX,
};

#[test]
fn a_state_keeps_its_setup() {
    for rule in [Rule::Vector, Rule::Match] {
        for take_tagless in [false, true] {
            for usage in [Usage::Sequence, Usage::Individual] {
                let setup = Setup { rule, take_tagless, usage, ..SETUP };
                let state = State::fresh(&setup).unwrap();
                assert_eq!((state.setup(), state.newest()), (setup, None));
                assert_eq!(state.first_below(), None);
                assert_eq!(State::from_words(*state.words()), Ok(state));
            }
        }
    }
    let bad = Setup { history: 513, ..SETUP };
    assert_eq!((bad.check(), State::fresh(&bad)), (Err(Refusal::HISTORY), Err(Refusal::HISTORY)));
}

#[test]
fn a_state_tells_where_its_first_number_stands() {
    for (rule, told) in
        [(Rule::Vector, [Some(0), Some(3), Some(3), None]), (Rule::Match, [None; 4])]
    {
        let mut state = State::fresh(&Setup { rule, history: 4, ..SETUP }).unwrap();
        let after = [10, 13, 12, 14].map(|number| {
            assert_eq!(state.numbered(number), Ok(Verdict::Pass));
            state.first_below()
        });
        assert_eq!(after, told);
    }
}

/// Numbers in the order of their arrival, and how far below the newest of them each then stands: across each
/// end of a word of the marks that there is, and 511 below, the last place of the window.
#[test]
fn a_state_tells_its_marks() {
    let below = [511, 510, 449, 448, 447, 320, 319, 192, 191, 128, 127, 64, 63, 62, 1, 0];
    let mut state = State::fresh(&Setup { history: 512, ..SETUP }).unwrap();
    assert_eq!((state.marks(), state.mark(0)), ([0; MARK_WORDS], false));
    for k in below {
        assert_eq!(state.numbered(600 - k), Ok(Verdict::Pass));
    }
    let marks = |k: u16| below.contains(&k);
    for k in 0..=600 {
        assert_eq!(state.mark(usize::from(k)), marks(k), "{k}");
    }
    assert!(!state.mark(usize::MAX));
    let word = |i: u16| (0..64).filter(|bit| marks(64 * i + bit)).map(|bit| 1 << bit).sum::<u64>();
    assert_eq!(state.marks(), [0, 1, 2, 3, 4, 5, 6, 7].map(word));

    // Shown as one number: 511 places below the newest are 512 digits.
    let digits: String = (0..512).rev().map(|k| if marks(k) { '1' } else { '0' }).collect();
    assert!(format!("{state:?}").contains(&format!("marks: 0b{digits}, ")), "{state:?}");
    let mut state = State::fresh(&SETUP).unwrap();
    assert!(format!("{state:?}").contains("marks: 0b0, "));
    for number in [10, 13, 12] {
        assert_eq!(state.numbered(number), Ok(Verdict::Pass));
    }
    assert!(format!("{state:?}").contains("marks: 0b1011, "));
}

/// A window of 512 places: what comes 500 places behind the newest is late and passes, once; 512 behind is
/// too far.
#[test]
fn a_slow_arm_is_late_and_no_rogue() {
    let mut state = State::fresh(&SETUP).unwrap();
    for number in 0..=500 {
        assert_eq!(state.numbered(2 * number), Ok(Verdict::Pass));
    }
    for (number, verdict) in [
        (501, Verdict::Pass),
        (500, Verdict::Discard),
        (501, Verdict::Discard),
        (489, Verdict::Pass),
        (488, Verdict::Discard),
    ] {
        assert_eq!(state.numbered(number), Ok(verdict), "{number}");
    }
    assert_eq!((state.counters().order, state.counters().rogue), (502, 1));
}

#[test]
fn words_that_hold_no_state_make_none() {
    assert_eq!(State::from_words([0; WORDS]), Err(Refusal::STATE));
    assert_eq!(State::from_words([u64::MAX; WORDS]), Err(Refusal::STATE));
    // A mark at the history length, in the marks' last word but one.
    let mut state = State::fresh(&Setup { history: 400, ..SETUP }).unwrap();
    assert_eq!(state.numbered(7), Ok(Verdict::Pass));
    for (k, sound) in [(399, true), (400, false), (447, false), (448, false), (511, false)] {
        let mut words = *state.words();
        words[10 + k / 64] |= 1 << (k % 64);
        assert_eq!(
            State::from_words(words).map(|state| state.mark(k)),
            sound.then_some(true).ok_or(Refusal::STATE)
        );
    }
}

#[test]
fn a_generator_stored_goes_on() {
    let mut generator = Generator::from_number(65_535);
    assert_eq!((generator.generate(), generator.number()), (65_535, 0));
    assert_eq!(generator, Generator::default());
    assert_eq!(generator.generate(), 0);
    generator.reset();
    assert_eq!(generator, Generator::fresh());
}
