//! "The bench tape": the paper's example octet for octet, every fault on both sides, every line. Every
//! version is asked.

mod common;

use common::report;
use compare::layers::{lines, run};
use compare::random::{Random, SEED};

/// Setup (vector, 0, sequence, 4, 100, 100, 2, 1).
const SETUP: [u8; 17] = [0x0F, 0, 0, 0, 0, 4, 0, 0, 0, 100, 0, 100, 2, 0, 0, 0, 1];

/// Where two of its octets stand.
const TAKEN: usize = 2;
const USE: usize = 3;

const NOTHING: &str = "passed=0 discarded=0 order=0 rogue=0 lost=0 tagless=0 resets=0 \
    latent-resets=0 before-first=0\n";

fn printed(tape: &[u8]) -> String {
    String::from_utf8(lines(tape)).expect("lines are plain text")
}

/// What a tape prints that begins with the setup.
fn after_setup(events: &[u8]) -> String {
    printed(&[&SETUP, events].concat())
}

/// The paper's tape and its lines, octet for octet.
#[test]
fn the_papers_tape() {
    let events = [1, 0, 10, 1, 0, 10, 1, 0, 12, 1, 0, 11, 1, 0, 20, 6];
    let expected = "ok\npass\ndiscard\npass\npass\ndiscard\nlatent ok\n\
        passed=3 discarded=2 order=2 rogue=1 lost=2 tagless=0 resets=0 latent-resets=0 \
        before-first=2\n";
    assert_eq!(after_setup(&events), expected);
}

/// The shortest tape without a fault.
#[test]
fn a_setup_alone() {
    assert_eq!(printed(&SETUP), format!("ok\n{NOTHING}"));
}

/// Each line that an event can print.
#[test]
fn every_line() {
    // Ten ticks are full: the tenth after a pass times out, the next finds nothing to count.
    let mut events = vec![1, 0, 10];
    events.extend([3; 11]);
    events.extend([2, 6, 6, 4, 5, 6]);
    let mut expected = String::from("ok\npass\n");
    expected.push_str(&"tick\n".repeat(9));
    expected
        .push_str("reset\ntick\ndiscard\nlatent ok\nlatent ok\nreset\nlatent reset\nlatent ok\n");
    expected.push_str(
        "passed=1 discarded=1 order=0 rogue=0 lost=0 tagless=1 resets=2 latent-resets=1 \
         before-first=0\n",
    );
    assert_eq!(after_setup(&events), expected);
    // Two passed and none discarded on two paths are 2 away from the base, and 1 is allowed.
    let events = [1, 0, 10, 6, 1, 0, 11, 6, 5, 6];
    assert_eq!(
        after_setup(&events),
        "ok\npass\nlatent ok\npass\nlatent error\nlatent reset\nlatent ok\n\
         passed=2 discarded=0 order=0 rogue=0 lost=1 tagless=0 resets=0 latent-resets=1 \
         before-first=1\n"
    );
}

/// What is lost before the first packet, again after a reset; under match nothing is.
#[test]
fn holes_before_the_first() {
    // From 7 to 9 and 11, which the slide to 15 gives up from both sides of 10; then 37 and 38.
    let events = [1, 0, 10, 1, 0, 12, 1, 0, 15, 4, 1, 0, 40, 1, 0, 42];
    assert_eq!(
        after_setup(&events),
        "ok\npass\npass\npass\nreset\npass\npass\n\
         passed=5 discarded=0 order=3 rogue=0 lost=6 tagless=0 resets=1 latent-resets=0 \
         before-first=5\n"
    );
    let mut tape = [&SETUP[..], &events].concat();
    tape[1] = 1;
    assert_eq!(
        printed(&tape),
        "ok\npass\npass\npass\nreset\npass\npass\n\
         passed=5 discarded=0 order=3 rogue=0 lost=0 tagless=0 resets=1 latent-resets=0 \
         before-first=0\n"
    );
}

/// The taken flag of a setup decides on packets without a number.
#[test]
fn packets_without_a_number_may_be_taken() {
    let mut tape = SETUP.to_vec();
    tape[TAKEN] = 1;
    tape.extend([2, 3, 3]);
    assert!(printed(&tape).starts_with("ok\npass\ntick\ntick\npassed=1 discarded=0"));
}

/// 23, 24, 25 for each event, in this order.
#[test]
fn faults_of_the_tape() {
    assert_eq!(printed(&[]), "fault 25\n");
    for kind in [0x00, 0x07, 0x08, 0x0E, 0x10, 0xFF] {
        assert_eq!(printed(&[kind]), "fault 23\n");
        assert_eq!(after_setup(&[3, kind, 3]), "ok\ntick\nfault 23\n");
    }
    for length in 1..SETUP.len() {
        assert_eq!(printed(&SETUP[..length]), "fault 24\n");
        assert_eq!(after_setup(&SETUP[..length]), "ok\nfault 24\n", "cut before repeated");
    }
    assert_eq!(printed(&[1, 0]), "fault 24\n", "cut before missing");
    assert_eq!(after_setup(&[1]), "ok\nfault 24\n");
    for missing in [&[1, 0, 10][..], &[2], &[3], &[4], &[5], &[6], &[6, 0xFF]] {
        assert_eq!(printed(missing), "fault 25\n");
    }
    assert_eq!(after_setup(&SETUP), "ok\nfault 25\n");
    let mut bad = SETUP;
    bad[1] = 9;
    assert_eq!(after_setup(&bad), "ok\nfault 25\n", "repeated before out of range");
    assert_eq!(after_setup(&[3, 4, 1, 0, 7, 0x0F]), "ok\ntick\nreset\npass\nfault 24\n");
}

/// 15, 27, 27, 16 to 19, in this order.
#[test]
fn faults_of_the_setup() {
    // Each field just out of range, from the last one checked to the first, so that each hides
    // those set before it: 19, 18, 17, 16, 27 by the use, 27 by taken, 15.
    let mut tape = SETUP;
    tape[12] = 9;
    assert_eq!(printed(&tape), "fault 19\n");
    tape[10..12].copy_from_slice(&10_001u16.to_be_bytes());
    assert_eq!(printed(&tape), "fault 18\n");
    tape[6..10].copy_from_slice(&3_600_001u32.to_be_bytes());
    assert_eq!(printed(&tape), "fault 17\n");
    tape[4..6].copy_from_slice(&513u16.to_be_bytes());
    assert_eq!(printed(&tape), "fault 16\n");
    tape[USE] = 2;
    assert_eq!(printed(&tape), "fault 27\n");
    tape[USE] = 0;
    tape[TAKEN] = 2;
    assert_eq!(printed(&tape), "fault 27\n");
    tape[1] = 2;
    assert_eq!(printed(&tape), "fault 15\n");
    assert_eq!(printed(&[&tape[..], &[0xFF]].concat()), "fault 15\n", "left to right");
}

/// "0 sequence, 1 individual, else 27", whatever the octet of taken says.
#[test]
fn every_use_of_a_setup() {
    for (usage, taken) in (0..=255).flat_map(|usage| [0, 1].map(|taken| (usage, taken))) {
        let mut tape = SETUP;
        (tape[TAKEN], tape[USE]) = (taken, usage);
        let expected = if usage > 1 { "fault 27\n".into() } else { format!("ok\n{NOTHING}") };
        assert_eq!(printed(&tape), expected, "use {usage}, taken {taken}");
    }
}

/// A setup of 15 octets, without a use, as tapes once had it: cut where nothing comes behind it, and
/// else out of range, since its history length is read as 256 times that. Only one of 2 is then in
/// range, as 512, and what is read behind it decides.
#[test]
fn a_setup_without_a_use() {
    let mut old = SETUP.to_vec();
    old.remove(USE);
    for (history, rule, taken) in (2..=64).flat_map(|history| {
        [(0, 0), (0, 1), (1, 0), (1, 1)].map(move |(rule, taken)| (history, rule, taken))
    }) {
        (old[1], old[2], old[4]) = (rule, taken, history);
        assert_eq!(printed(&old), "fault 24\n");
        // 100 ticks per second and 2 paths are 25,602 ticks per second.
        let fault = if history == 2 { "fault 18\n" } else { "fault 16\n" };
        for event in [&[1, 0, 10][..], &[2], &[3], &[4], &[5], &[6], &SETUP] {
            assert_eq!(printed(&[&old, event].concat()), fault, "{history}, {event:?}");
        }
    }
    // A history length of 2, 1 ms, 1 tick per second, 2 paths and a difference of 2^25: with one tick
    // behind it, it reads as 512, 256 ms, 258 ticks per second, 2 paths and a difference of 3.
    let misread = [0x0F, 0, 0, 0, 2, 0, 0, 0, 1, 0, 1, 2, 2, 0, 0, 0, 3];
    assert_eq!(printed(&misread), format!("ok\n{NOTHING}"));
}

/// The setup with that history length and rule.
fn with_history(history: u16, rule: u8) -> Vec<u8> {
    let mut tape = SETUP.to_vec();
    tape[1] = rule;
    tape[4..6].copy_from_slice(&history.to_be_bytes());
    tape
}

fn numbered(numbers: impl IntoIterator<Item = u16>) -> Vec<u8> {
    let event = |number: u16| [1, (number >> 8) as u8, number as u8];
    numbers.into_iter().flat_map(event).collect()
}

/// "H 2 to 512": every length, and those about it, under both rules.
#[test]
fn every_history_length() {
    for (history, rule) in (0..=600).flat_map(|history| [0, 1].map(|rule| (history, rule))) {
        let good = (2..=512).contains(&history);
        let expected = if good { format!("ok\n{NOTHING}") } else { "fault 16\n".into() };
        assert_eq!(printed(&with_history(history, rule)), expected, "{history}, rule {rule}");
    }
    for history in [1_024, 16_384, 32_768, 65_535] {
        assert_eq!(printed(&with_history(history, 0)), "fault 16\n", "{history}");
        assert_eq!(printed(&with_history(history, 1)), "fault 16\n", "{history}");
    }
}

/// H 512 across the wrap, by hand. The first is 65,300; 275 is 511 ahead and gives up the 511 places
/// below the first. 65,301 comes 510 late and passes; 65,300 is there; 65,299 is too far. 340 is 65 ahead
/// and gives up 65,300 to 65,364, of which two have passed. 65,535 comes late. 788 is 448 ahead and gives
/// up 65,365 to 276, of which 65,535 and 275 have passed.
#[test]
fn the_longest_history_across_the_wrap() {
    let mut tape = with_history(512, 0);
    tape.extend(numbered([65_300, 275, 65_301, 65_300, 65_299, 340, 65_535, 788]));
    assert_eq!(
        printed(&tape),
        "ok\npass\npass\npass\ndiscard\ndiscard\npass\npass\npass\n\
         passed=6 discarded=2 order=5 rogue=1 lost=1020 tagless=0 resets=0 latent-resets=0 \
         before-first=511\n"
    );
}

/// "A ring with a slow arm needs 512 places": from the 500th on, the numbers come again 500 places
/// behind, and none of them passes twice. With 64 places each of these is a rogue.
#[test]
fn a_slow_arm_500_places_behind() {
    let mut numbers = Vec::new();
    for place in 0..600 {
        let number = 65_100u16.wrapping_add(place);
        // The fast arm leaves out every tenth number.
        numbers.extend(Some(number).filter(|number| number % 10 != 5));
        numbers.extend((place >= 500).then_some(number.wrapping_sub(500)));
    }
    let both = |history| {
        let tape = [with_history(history, 0), numbered(numbers.iter().copied())].concat();
        printed(&tape).lines().last().expect("a last line").to_owned()
    };
    // 540 come by the fast arm, with 60 gaps. Of the 100 that come by the slow arm, 10 fill a gap, in
    // time: no place above the first is lost.
    assert_eq!(
        both(512),
        "passed=550 discarded=90 order=70 rogue=0 lost=511 tagless=0 resets=0 latent-resets=0 \
         before-first=511"
    );
    // 54 gaps have left a window that ends at 163 and begins at 100.
    assert_eq!(
        both(64),
        "passed=540 discarded=100 order=60 rogue=100 lost=117 tagless=0 resets=0 latent-resets=0 \
         before-first=63"
    );
}

/// A sender that is stuck on one number, and one that sends none where none is taken: the same packets
/// and ticks in both uses. Ten ticks are full.
#[test]
fn the_use_decides_on_the_timer() {
    // What is printed but for the ticks.
    let printed = |usage, taken, events: &[u8]| {
        let mut tape = [&SETUP, events].concat();
        (tape[TAKEN], tape[USE]) = (taken, usage);
        printed(&tape).replace("tick\n", "")
    };
    let nine = [3; 9];
    // 10; then twice over nine ticks, 10 again, a tick, and 10 again.
    let again = [&nine[..], &[1, 0, 10, 3, 1, 0, 10]].concat();
    let stuck = [&[1, 0, 10], &again[..], &again].concat();
    for taken in [0, 1] {
        assert_eq!(
            printed(0, taken, &stuck),
            "ok\npass\ndiscard\nreset\npass\ndiscard\nreset\npass\n\
             passed=3 discarded=2 order=0 rogue=0 lost=0 tagless=0 resets=2 latent-resets=0 \
             before-first=0\n"
        );
        assert_eq!(
            printed(1, taken, &stuck),
            "ok\npass\ndiscard\ndiscard\ndiscard\ndiscard\n\
             passed=1 discarded=4 order=0 rogue=0 lost=0 tagless=0 resets=0 latent-resets=0 \
             before-first=0\n"
        );
    }
    // None, nine ticks, none, and ten more, the last of which times out where the second none counts.
    let none = [&[2], &nine[..], &[2], &nine, &[3]].concat();
    assert_eq!(
        printed(0, 0, &none),
        "ok\ndiscard\ndiscard\n\
         passed=0 discarded=2 order=0 rogue=0 lost=0 tagless=2 resets=0 latent-resets=0 \
         before-first=0\n"
    );
    assert_eq!(
        printed(1, 0, &none),
        "ok\ndiscard\ndiscard\nreset\n\
         passed=0 discarded=2 order=0 rogue=0 lost=0 tagless=2 resets=1 latent-resets=0 \
         before-first=0\n"
    );
    for usage in [0, 1] {
        assert_eq!(
            printed(usage, 1, &none),
            "ok\npass\npass\nreset\n\
             passed=2 discarded=0 order=0 rogue=0 lost=0 tagless=2 resets=1 latent-resets=0 \
             before-first=0\n"
        );
    }
}

/// 4,096 octets run; one more is 26, before all else.
#[test]
fn the_longest_tape() {
    let mut tape = SETUP.to_vec();
    tape.resize(4_096, 3);
    let ticks = "tick\n".repeat(4_096 - SETUP.len());
    assert_eq!(printed(&tape), format!("ok\n{ticks}{NOTHING}"));
    tape.push(3);
    assert_eq!(printed(&tape), "fault 26\n");
    assert_eq!(printed(&[0xFF; 5_000]), "fault 26\n", "26 before all else");
}

/// 8 where the output is too short, which then stays; later octets always stay.
#[test]
fn a_lent_buffer() {
    let mut random = Random::new(SEED);
    let mut cases = 0;
    for _ in 0..2_000 {
        let mut tape = SETUP.to_vec();
        for _ in 0..random.below(40) {
            match random.pick(&[1, 1, 1, 2, 3, 4, 5, 6, 7]) {
                1 => tape.extend([1, 0, random.octet() % 16]),
                7 if !random.once_in(9) => {}
                kind => tape.push(kind),
            }
        }
        tape.truncate(random.between(0, 120) as usize);
        let lines = lines(&tape);
        for length in [0, lines.len() - 1, lines.len(), lines.len() + 3] {
            let mut out = vec![0xA5; length];
            let mut later = out.clone();
            let expected = if length < lines.len() {
                Err(8)
            } else {
                later[..lines.len()].copy_from_slice(&lines);
                Ok(lines.len())
            };
            assert_eq!(run(&tape, &mut out), expected);
            assert_eq!(out, later);
            cases += 1;
        }
        assert_eq!(lines.last(), Some(&b'\n'));
    }
    report("tapes into lent buffers", cases);
}
