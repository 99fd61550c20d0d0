//! "Numbering and recovery": setups and states on both sides of every bound. Every version is asked.

use ahozurime_sys::{AHZ_DONE, AHZ_R_STATE};
use compare::layers::{check_setup, event, events, fresh, Event, RULES, USES};
use compare::plain::recovery::{
    Counters, Marks, Milliseconds, Setup, State, Ticks, INDIVIDUAL, LONGEST_HISTORY, MATCH,
    SEQUENCE, VECTOR,
};

const SETUP: Setup = Setup {
    rule: VECTOR,
    taken: 0,
    usage: SEQUENCE,
    history: 4,
    timeout: Milliseconds(100),
    ticks_per_second: 100,
    paths: 2,
    difference: 1,
};

/// Every event is refused by 14 and leaves the state as it was; so is the plain version's step on a
/// value.
fn refused(state: State) {
    assert!(!state.is_sound(), "{state:?}");
    for asked in [events(0), events(state.newest)].concat() {
        assert_eq!(event(&state, asked), (AHZ_R_STATE, state), "{asked:?}");
    }
    assert_eq!(state.packet(None), Err(14));
    assert_eq!(state.tick(), Err(14));
    assert_eq!(state.reset(), Err(14));
    assert_eq!(state.latent_reset(), Err(14));
}

/// Every event is answered and hands back a sound state; the plain version's step on a value, the
/// same one.
fn accepted(state: State) {
    assert!(state.is_sound(), "{state:?}");
    let after = |asked| {
        let (answer, next) = event(&state, asked);
        assert!(answer != AHZ_R_STATE && next.is_sound(), "{asked:?} at {state:?}: {next:?}");
        next
    };
    for number in [None, Some(0), Some(state.newest), Some(state.newest.wrapping_add(1))] {
        let next = after(Event::Packet(number));
        assert_eq!(state.packet(number).map(|(next, _)| next), Ok(next));
    }
    assert_eq!(state.tick().map(|(next, _)| next), Ok(after(Event::Tick)));
    assert_eq!(state.reset(), Ok(after(Event::Reset)));
    assert_eq!(state.latent_reset(), Ok(after(Event::LatentReset)));
    assert_eq!(after(Event::LatentTest), state);
}

/// The fields of a setup that are checked, in the order of the checks: the number by which one is
/// refused, and values out of its range.
const OUT_OF_RANGE: [(u8, &[u32]); 7] = [
    (15, &[2, 255]),
    (27, &[2, 255]),
    (27, &[2, 255]),
    (16, &[0, 1, 513, 65_535]),
    (17, &[0, 3_600_001, u32::MAX]),
    (18, &[0, 10_001, 65_535]),
    (19, &[0, 1, 9, 255]),
];

/// The setup with that value in the field of that place.
fn with(setup: Setup, field: usize, value: u32) -> Setup {
    let (octet, number) = (value as u8, value as u16);
    match field {
        0 => Setup { rule: octet, ..setup },
        1 => Setup { taken: octet, ..setup },
        2 => Setup { usage: octet, ..setup },
        3 => Setup { history: number, ..setup },
        4 => Setup { timeout: Milliseconds(value), ..setup },
        5 => Setup { ticks_per_second: number, ..setup },
        _ => Setup { paths: octet, ..setup },
    }
}

/// The setup with one field put out of range, in every way: the place of the field, the number by which
/// it is refused, and the setup.
fn one_out_of_range(setup: Setup) -> Vec<(usize, u8, Setup)> {
    let mut bad = Vec::new();
    for (field, (number, values)) in OUT_OF_RANGE.into_iter().enumerate() {
        bad.extend(values.iter().map(|&value| (field, number, with(setup, field, value))));
    }
    bad
}

/// Setups that are in range, under both rules and in both uses.
fn in_range() -> impl Iterator<Item = Setup> {
    RULES.into_iter().flat_map(|rule| USES.map(|usage| Setup { rule, usage, ..SETUP }))
}

/// A bad setup has its own number by itself and 14 inside a state; one at its bounds has neither.
#[test]
fn a_setup_by_itself_and_inside_a_state() {
    for good in in_range() {
        for (_, number, setup) in one_out_of_range(good) {
            assert_eq!(check_setup(&setup), Err(number), "{setup:?}");
            assert_eq!(fresh(&setup), Err(number));
            let fresh = fresh(&good).unwrap();
            let marks = (0..u16::from(good.rule == VECTOR)).collect();
            let running =
                State { newest: 9, marks, take_any: false, ticks_left: Ticks(1), ..fresh };
            for state in [fresh, running] {
                accepted(state);
                refused(State { setup, ..state });
            }
        }
    }
    for (rule, taken, usage, history, timeout, ticks_per_second, paths) in [
        (VECTOR, 0, INDIVIDUAL, 2, 1, 1, 2),
        (MATCH, 1, SEQUENCE, 64, 3_600_000, 10_000, 8),
        (VECTOR, 1, SEQUENCE, 64, 1, 10_000, 2),
        (MATCH, 0, INDIVIDUAL, 2, 3_600_000, 1, 8),
        (VECTOR, 0, SEQUENCE, 65, 1, 1, 8),
        (MATCH, 1, INDIVIDUAL, 65, 1, 1, 2),
        (VECTOR, 1, INDIVIDUAL, 512, 3_600_000, 1, 2),
        (MATCH, 0, SEQUENCE, 512, 1, 10_000, 8),
    ] {
        let timeout = Milliseconds(timeout);
        for difference in [0, u32::MAX] {
            let setup =
                Setup { rule, taken, usage, history, timeout, ticks_per_second, paths, difference };
            assert_eq!(check_setup(&setup), Ok(()));
            accepted(fresh(&setup).unwrap());
        }
    }
}

/// Of two bad fields, the one that is checked first decides.
#[test]
fn setup_checks_stand_in_order() {
    for good in in_range() {
        for (first, number, bad) in one_out_of_range(good) {
            for (second, _, both) in one_out_of_range(bad) {
                if first < second {
                    assert_eq!(check_setup(&both), Err(number), "{both:?}");
                    assert_eq!(fresh(&both), Err(number), "{both:?}");
                }
            }
        }
    }
}

/// A fresh state, field by field; a reset gives it back but for counters, base and setup.
#[test]
fn fresh_and_reset() {
    for setup in USES.map(|usage| Setup { usage, ..SETUP }) {
        let fresh = fresh(&setup).unwrap();
        let expected = State {
            setup,
            newest: 65_535,
            marks: Marks::NONE,
            first: None,
            take_any: true,
            ticks_left: Ticks(0),
            counters: Counters::default(),
            base: 0,
        };
        assert_eq!(fresh, expected);
        let counters = Counters {
            passed: 7,
            resets: u64::MAX,
            latent_resets: 3,
            before_first: 2,
            ..Counters::default()
        };
        let used = State {
            newest: 9,
            marks: [0, 1, 3].into_iter().collect(),
            first: Some(3),
            take_any: false,
            ticks_left: Ticks(4),
            counters,
            base: -5,
            ..fresh
        };
        let counters = Counters { resets: 0, ..counters };
        let reset = State { counters, base: -5, ..fresh };
        assert_eq!(event(&used, Event::Reset), (AHZ_DONE, reset));
    }
}

/// "H 2 to 512; refusal 16", under both rules and in both uses.
#[test]
fn every_history_length() {
    for good in in_range() {
        for history in 0..=1_100 {
            let setup = Setup { history, ..good };
            let expected = if (2..=512).contains(&history) { Ok(()) } else { Err(16) };
            assert_eq!(check_setup(&setup), expected, "{setup:?}");
            assert_eq!(fresh(&setup).map(|state| state.setup.history), expected.map(|()| history));
        }
    }
}

/// Each sentence of "Sound state", and what CR 7 adds to it, on both sides.
#[test]
fn unsound_in_each_respect() {
    for usage in USES {
        each_respect(Setup { usage, ..SETUP });
    }
}

/// Every mark of a state, of whichever word.
fn marks() -> impl Iterator<Item = u16> {
    0..LONGEST_HISTORY
}

/// Every mark of the first words, the borders of all, and some that no state has.
fn firsts() -> impl Iterator<Item = u16> {
    (0..=129).chain(marks().filter(is_border)).chain([512, 513, 576, 1_024, 65_534, 65_535])
}

/// The first or the last mark of a word.
fn is_border(mark: &u16) -> bool {
    [0, 63].contains(&(mark % 64))
}

fn only(mark: u16) -> Marks {
    [mark].into_iter().collect()
}

/// Of a setup with H 4 and full ticks of 10.
fn each_respect(setup: Setup) {
    let fresh = fresh(&setup).unwrap();
    // Take-any: newest 65,535, no mark, no first place, ticks up to full.
    accepted(State { ticks_left: Ticks(10), ..fresh });
    refused(State { ticks_left: Ticks(11), ..fresh });
    refused(State { ticks_left: Ticks(u64::MAX), ..fresh });
    refused(State { newest: 65_534, ..fresh });
    refused(State { newest: 0, ..fresh });
    for mark in marks() {
        refused(State { marks: only(mark), ..fresh });
    }
    for first in firsts() {
        refused(State { first: Some(first), ..fresh });
    }
    // Vector: ticks from 1 to full, mark 0 set.
    let running = running(setup);
    accepted(running);
    accepted(State { marks: (0..4).collect(), ticks_left: Ticks(1), ..running });
    accepted(State { newest: 65_535, ..running });
    refused(State { ticks_left: Ticks(0), ..running });
    refused(State { ticks_left: Ticks(11), ..running });
    refused(State { marks: Marks::NONE, ..running });
    refused(State { marks: (1..4).collect(), ..running });
    // Match: no mark at all, and no first place.
    let matching = State { setup: Setup { rule: MATCH, ..setup }, marks: Marks::NONE, ..running };
    accepted(matching);
    refused(State { ticks_left: Ticks(0), ..matching });
    refused(State { ticks_left: Ticks(11), ..matching });
    for mark in marks() {
        refused(State { marks: only(mark), ..matching });
    }
    for first in firsts() {
        refused(State { first: Some(first), ..matching });
    }
}

/// A state under vector with mark 0 alone.
fn running(setup: Setup) -> State {
    let fresh = fresh(&setup).unwrap();
    State { take_any: false, newest: 300, marks: only(0), ticks_left: Ticks(10), ..fresh }
}

/// "Marks at H and above clear", up to the 512th: for every H, the borders of the words and the marks
/// about H, each beside mark 0 alone and beside all marks of the window.
#[test]
fn marks_at_every_history_and_above() {
    for history in 2..=LONGEST_HISTORY {
        let usage = USES[usize::from(history % 2)];
        let running = running(Setup { history, usage, ..SETUP });
        let about = |mark: &u16| is_border(mark) || mark.abs_diff(history) < 3;
        for mark in marks().skip(1).filter(about) {
            let alone: Marks = [0, mark].into_iter().collect();
            let with_all: Marks = (0..history).chain([mark]).collect();
            for marks in [alone, with_all] {
                let marked = State { marks, ..running };
                if mark < history {
                    accepted(marked);
                } else {
                    refused(marked);
                }
            }
        }
        if history < LONGEST_HISTORY {
            refused(State { marks: marks().collect(), ..running });
        }
        accepted(State { marks: (0..history).collect(), ..running });
        // Mark 0 is to be set, whatever else is.
        refused(State { marks: (1..history).collect(), ..running });
        refused(State { marks: only(history - 1), ..running });
    }
}

/// The same for every mark of a state where H is in the first word or about a border of two.
#[test]
fn every_mark_at_some_histories() {
    for history in [2, 4, 33, 63, 64, 65, 100, 127, 128, 129, 256, 448, 511, 512] {
        let running = running(Setup { history, ..SETUP });
        for mark in marks().skip(1) {
            let marked = State { marks: [0, mark].into_iter().collect(), ..running };
            if mark < history {
                accepted(marked);
            } else {
                refused(marked);
            }
        }
    }
}

/// A first place has its mark set, whatever else is set: every H, and in each of its words.
#[test]
fn first_places_at_every_history() {
    for history in 2..=LONGEST_HISTORY {
        let usage = USES[usize::from(history % 2)];
        let running = running(Setup { history, usage, ..SETUP });
        let about = |first: &u16| is_border(first) || first.abs_diff(history) < 3;
        for first in firsts().filter(|first| history <= 64 || about(first)) {
            let at = |marks| State { marks, first: Some(first), ..running };
            let others = (0..history).filter(|&mark| mark != first).collect();
            if first < history {
                accepted(at([0, first].into_iter().collect()));
                accepted(at((0..history).collect()));
                refused(at(others));
                refused(at((0..u16::from(first > 0)).collect()));
            } else {
                refused(at(only(0)));
                refused(at(others));
                refused(at((0..history).chain([first]).collect()));
            }
        }
    }
}
