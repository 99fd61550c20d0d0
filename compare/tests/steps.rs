//! "Numbering and recovery": the generator, the timer, the marks moved one place at a time, the holes
//! before the first packet, counters and the latent figure at the ends of 64 bits. Every version is
//! asked.

mod common;

use ahozurime_sys::{
    AHZ_DISCARD, AHZ_DONE, AHZ_LATENT_ERROR, AHZ_LATENT_OK, AHZ_PASS, AHZ_RESET, AHZ_TICK,
};
use common::report;
use compare::layers::{event, generate, generator_reset, Event, Kept, RULES, USES};
use compare::plain::recovery::{
    Counters, Marks, Milliseconds, Setup, State, Ticks, INDIVIDUAL, MATCH, SEQUENCE, VECTOR,
};
use compare::random::{Random, SEED};
use std::collections::VecDeque;

const SETUP: Setup = Setup {
    rule: VECTOR,
    taken: 0,
    usage: SEQUENCE,
    history: 4,
    timeout: Milliseconds(100),
    ticks_per_second: 100,
    paths: 2,
    difference: 1,
};

const FULL: Counters = Counters {
    passed: u64::MAX,
    discarded: u64::MAX,
    order: u64::MAX,
    rogue: u64::MAX,
    lost: u64::MAX,
    tagless: u64::MAX,
    resets: u64::MAX,
    latent_resets: u64::MAX,
    before_first: u64::MAX,
};

fn packet(state: &State, number: Option<u16>) -> (u8, State) {
    event(state, Event::Packet(number))
}

/// "65,535 going to 0", twice round; a reset sets 0.
#[test]
fn the_generator_wraps() {
    let mut generator = 0;
    for round in 0..140_000u32 {
        let number;
        (number, generator) = generate(generator);
        assert_eq!(u32::from(number), round % 65_536);
    }
    assert_eq!(generator_reset(generator), 0);
    assert_eq!(generate(65_535), (65_535, 0));
}

/// The number that a running state has as its newest, one that passed late under vector, and one that
/// is a rogue under it.
const NEWEST: u16 = 300;
const LATE: u16 = 298;
const FAR: u16 = 30_000;

/// A state with so many ticks left: one that takes any where there is no newest number. Under vector the
/// late number was the first.
fn timed(setup: Setup, newest: Option<u16>, left: u64) -> State {
    let marked = newest.is_some() && setup.rule == VECTOR;
    State {
        newest: newest.unwrap_or(65_535),
        marks: if marked { [0, NEWEST - LATE].into_iter().collect() } else { Marks::NONE },
        first: marked.then_some(NEWEST - LATE),
        take_any: newest.is_none(),
        ticks_left: Ticks(left),
        ..State::fresh(setup).unwrap()
    }
}

/// The ticks that are left run out, the last in a reset that is counted; with none left, none does.
fn runs_out(state: State) {
    let mut kept = Kept::of(&state);
    for left in (1..state.ticks_left.0).rev() {
        let ticked = State { ticks_left: Ticks(left), ..state };
        assert_eq!((kept.event(Event::Tick), kept.state()), (AHZ_TICK, ticked));
    }
    if state.ticks_left != Ticks(0) {
        let counters = Counters { resets: state.counters.resets + 1, ..state.counters };
        let reset = State { counters, ..timed(state.setup, None, 0) };
        assert_eq!((kept.event(Event::Tick), kept.state()), (AHZ_RESET, reset));
    }
    let stands = kept.state();
    assert_eq!((kept.event(Event::Tick), kept.state()), (AHZ_TICK, stands), "0 stays 0");
}

/// The most full ticks for which the timer is seen to run out.
const FEW: Ticks = Ticks(30);

/// Setups whose full ticks are each number up to a few, and some with many more.
fn timeouts(setup: Setup) -> impl Iterator<Item = Setup> {
    let few = (1..=FEW.0 as u32).map(|ticks| (10 * ticks, 100));
    let many = [(3_600_000, 333), (3_599_999, 10_000), (3_600_000, 10_000)];
    few.chain(many).map(move |(milliseconds, ticks_per_second)| Setup {
        timeout: Milliseconds(milliseconds),
        ticks_per_second,
        ..setup
    })
}

/// Ticks that a state of that newest number may have left: none only where it takes any.
fn lefts(newest: Option<u16>, full: Ticks) -> impl Iterator<Item = u64> {
    newest.is_none().then_some(0).into_iter().chain([1, full.0 / 2 + 1, full.0])
}

/// "Only a passed packet" restarts the timer in sequence use; "in individual use a discarded packet
/// also". Each rule, each use and each kind of discard, of states with few ticks left and many, those
/// that take any among them: nothing else moves, and what is left then runs out.
#[test]
fn discards_and_the_timer() {
    let mut cases = 0;
    let discards = [
        (VECTOR, Some(NEWEST), Some(NEWEST)),
        (VECTOR, Some(NEWEST), Some(LATE)),
        (VECTOR, Some(NEWEST), Some(FAR)),
        (VECTOR, Some(NEWEST), None),
        (VECTOR, None, None),
        (MATCH, Some(NEWEST), Some(NEWEST)),
        (MATCH, Some(NEWEST), None),
        (MATCH, None, None),
    ];
    for (usage, (rule, newest, number)) in
        USES.into_iter().flat_map(|usage| discards.map(|discard| (usage, discard)))
    {
        for setup in timeouts(Setup { rule, usage, ..SETUP }) {
            let full = setup.full_ticks();
            for left in lefts(newest, full) {
                let state = timed(setup, newest, left);
                let counters = Counters {
                    discarded: 1,
                    rogue: u64::from(number == Some(FAR)),
                    tagless: u64::from(number.is_none()),
                    ..Counters::default()
                };
                let ticks_left = if usage == INDIVIDUAL { full } else { Ticks(left) };
                let next = State { ticks_left, counters, ..state };
                assert_eq!(packet(&state, number), (AHZ_DISCARD, next), "{number:?}, {state:?}");
                if full <= FEW {
                    runs_out(next);
                }
                cases += 1;
            }
        }
    }
    report("discards and the timer", cases);
}

/// A passed packet restarts the timer in both uses, whatever it passes by; one without a number
/// though any number is still taken.
#[test]
fn passes_and_the_timer() {
    let mut cases = 0;
    for (rule, usage) in RULES.into_iter().flat_map(|rule| USES.map(|usage| (rule, usage))) {
        for setup in timeouts(Setup { rule, usage, taken: 1, ..SETUP }) {
            let full = setup.full_ticks();
            for (newest, number) in [
                (None, Some(NEWEST)),
                (None, None),
                (Some(NEWEST), None),
                (Some(NEWEST), Some(NEWEST + 1)),
                (Some(NEWEST), Some(NEWEST + 3)),
                (Some(NEWEST), Some(NEWEST - 3)),
            ] {
                for left in lefts(newest, full) {
                    let state = timed(setup, newest, left);
                    let (answer, next) = packet(&state, number);
                    assert_eq!((answer, next.ticks_left), (AHZ_PASS, full), "{state:?}");
                    assert_eq!(next.take_any, newest.is_none() && number.is_none());
                    if full <= FEW {
                        runs_out(next);
                    }
                    cases += 1;
                }
            }
        }
    }
    report("passes and the timer", cases);
}

/// Which packets of a stuck sender pass, from how many ticks lie before each of them alone. In sequence
/// use one passes where full ticks lie between it and the last that passed; in individual use, where
/// they lie between it and the one before it.
fn let_through(usage: u8, gaps: &[u64], full: u64) -> Vec<bool> {
    let mut silence = 0;
    let passes = |&gap: &u64| {
        silence = if usage == INDIVIDUAL { gap } else { silence + gap };
        let passes = silence >= full;
        if passes {
            silence = 0;
        }
        passes
    };
    gaps.iter().map(passes).collect()
}

/// "A stuck sender repeated one number and our timer ran out under it, letting the repeat through":
/// so it is in sequence use. In individual use, of the same packets and ticks, none passes that comes
/// within the timeout; one that comes after it does.
#[test]
fn a_stuck_sender() {
    let mut random = Random::new(SEED);
    let (mut cases, mut with_repeats) = (0, 0);
    for round in 0..3_000 {
        let full = random.between(1, 40) as u64;
        // A silence that is long enough comes in every third list.
        let longest = if round % 3 == 0 { full } else { full - 1 };
        let gap = |_| {
            let any = random.below(longest + 1);
            random.pick(&[longest, any])
        };
        let gaps: Vec<u64> = (0..60).map(gap).collect();
        let setup =
            Setup { rule: random.pick(&RULES), timeout: Milliseconds(10 * full as u32), ..SETUP };
        // The number that is repeated has passed before; or, under vector, it is a rogue at first.
        let (number, far) = (random.number(), setup.rule == VECTOR && random.once_in(2));
        let first =
            if far { number.wrapping_add(random.between(4, 65_532) as u16) } else { number };
        for usage in USES {
            let mut kept = Kept::of(&State::fresh(Setup { usage, ..setup }).unwrap());
            assert_eq!(kept.event(Event::Packet(Some(first))), AHZ_PASS);
            let expected = let_through(usage, &gaps, full);
            for (&gap, &passes) in gaps.iter().zip(&expected) {
                for _ in 0..gap {
                    kept.event(Event::Tick);
                }
                let answer = if passes { AHZ_PASS } else { AHZ_DISCARD };
                assert_eq!(kept.event(Event::Packet(Some(number))), answer, "{setup:?}, {gaps:?}");
                cases += 1;
            }
            let repeats = expected.iter().filter(|&&passes| passes).count() as u64;
            assert_eq!(kept.state().counters.passed, 1 + repeats);
            assert_eq!(kept.state().counters.resets, repeats, "one for each that is let through");
            if usage == INDIVIDUAL && longest < full {
                assert_eq!(repeats, 0);
            } else {
                with_repeats += u64::from(repeats > 0);
            }
        }
    }
    assert!(with_repeats > 3_500, "few stuck senders were let through: {with_repeats}");
    report("packets of a stuck sender", cases);
}

/// The marks as a row of places, the newest first. Mark 0, which is the newest, is set in every
/// sound state, and so is that of the first packet's place.
fn row(history: u16, first: Option<u16>, mut set: impl FnMut(u16) -> bool) -> Row {
    let set = |mark| mark == 0 || first == Some(mark) || set(mark);
    Row { marks: (0..history).map(set).collect(), first, lost: 0, before_first: 0 }
}

/// A row, which of its places is the first packet's, and how many clear marks have left it: in all, and
/// from below the first.
struct Row {
    marks: VecDeque<bool>,
    first: Option<u16>,
    lost: u64,
    before_first: u64,
}

impl Row {
    fn marks(&self) -> Marks {
        (0..).zip(&self.marks).filter(|(_, &set)| set).map(|(mark, _)| mark).collect()
    }
}

/// The row moved as 01 and 002 clause 7.4.3.6 say, one place at a time. While the row has the first
/// place, a clear mark that leaves it comes from below that.
fn moved(mut row: Row, d: u16) -> Row {
    for _ in 0..d {
        let left = row.marks.pop_back().expect("at least two marks");
        row.lost += u64::from(!left);
        row.before_first += u64::from(!left && row.first.is_some());
        row.marks.push_front(false);
        row.first = row.first.map(|mark| mark + 1).filter(|&mark| mark < row.marks.len() as u16);
    }
    row.marks[0] = true;
    row
}

/// Which marks are set beside mark 0, by the mark, H and d; the marks from H - d on leave. Mark 0 is
/// set in every sound state, so "none" and "only the first" are one case; mark 1 stands for the next.
/// A border is the first or the last mark of a word.
type Extreme = (&'static str, fn(u16, u16, u16) -> bool);
const EXTREMES: [Extreme; 14] = [
    ("none, or only mark 0", |_, _, _| false),
    ("all", |_, _, _| true),
    ("every other", |mark, _, _| mark % 2 == 1),
    ("only the borders", |mark, _, _| is_border(mark)),
    ("only the last", |mark, h, _| mark == h - 1),
    ("only mark 1", |mark, _, _| mark == 1),
    ("all but the last", |mark, h, _| mark != h - 1),
    ("all but mark 1", |mark, _, _| mark != 1),
    ("only the lowest that leaves", |mark, h, d| mark == h - d),
    ("only the highest that stays", |mark, h, d| mark == h - d - 1),
    ("all that leave", |mark, h, d| mark >= h - d),
    ("all that stay", |mark, h, d| mark < h - d),
    ("all but the borders", |mark, _, _| !is_border(mark)),
    ("every other word", |mark, _, _| mark / 64 % 2 == 1),
];

fn is_border(mark: u16) -> bool {
    [0, 63].contains(&(mark % 64))
}

/// What the slides of a test have counted.
#[derive(Default)]
struct Slides {
    cases: u64,
    wraps: u64,
    wraps_before_first: u64,
}

impl Slides {
    /// One slide by d, against the row moved one by one. About half go from any number with counters at
    /// 0, the others round 65,535 with counters that wrap.
    fn slide(&mut self, random: &mut Random, name: &str, row: Row, d: u16) {
        let history = row.marks.len() as u16;
        let mut below = || random.below(d.into());
        let below_the_wrap = 65_535 - below() as u16;
        let near = Counters { lost: u64::MAX - below(), before_first: u64::MAX - below(), ..FULL };
        let starts = [(random.number(), Counters::default()), (below_the_wrap, near)];
        let (newest, counters) = random.pick(&starts);
        let state = State {
            setup: Setup { history, ..SETUP },
            newest,
            marks: row.marks(),
            first: row.first,
            take_any: false,
            ticks_left: Ticks(3),
            counters,
            ..State::fresh(SETUP).unwrap()
        };
        let number = newest.wrapping_add(d);
        let row = moved(row, d);
        let next = State {
            newest: number,
            marks: row.marks(),
            first: row.first,
            ticks_left: Ticks(10),
            counters: Counters {
                passed: counters.passed.wrapping_add(1),
                order: counters.order.wrapping_add(u64::from(d != 1)),
                lost: counters.lost.wrapping_add(row.lost),
                before_first: counters.before_first.wrapping_add(row.before_first),
                ..counters
            },
            ..state
        };
        assert_eq!(packet(&state, Some(number)), (AHZ_PASS, next), "H {history}, {name}");
        self.wraps += u64::from(next.counters.lost < counters.lost && number < newest);
        self.wraps_before_first += u64::from(next.counters.before_first < counters.before_first);
        self.cases += 1;
    }

    fn report(&self, what: &str) {
        let Slides { cases, wraps, wraps_before_first } = *self;
        assert!(wraps > cases / 8, "numbers and lost were to wrap: {wraps}");
        assert!(wraps_before_first > cases / 16, "before-first was to wrap: {wraps_before_first}");
        report(what, cases);
    }
}

/// Every d below every H that one word has marks for, with the first place at every mark of the window
/// and at none, from extreme marks and from any, against marks moved one by one.
#[test]
fn marks_move_one_place_at_a_time() {
    let mut random = Random::new(SEED);
    let mut slides = Slides::default();
    for (history, d) in (2..=64).flat_map(|history| (1..history).map(move |d| (history, d))) {
        for first in (0..history).map(Some).chain([None; 4]) {
            for (name, set) in EXTREMES {
                let row = row(history, first, |mark| set(mark, history, d));
                slides.slide(&mut random, name, row, d);
            }
            for _ in 0..6 {
                let row = row(history, first, |_| random.once_in(2));
                slides.slide(&mut random, "any", row, d);
            }
        }
    }
    slides.report("slides in one word");
}

/// Every d below every H that needs more words, from the first four extremes, from one of them in turn,
/// and from any marks. The first place stands anywhere, at a border, about the marks that leave, or
/// nowhere.
#[test]
fn marks_move_across_words() {
    let mut random = Random::new(SEED + 1);
    let mut slides = Slides::default();
    let mut turns = EXTREMES.iter().cycle();
    for (history, d) in (65..=512).flat_map(|history| (1..history).map(move |d| (history, d))) {
        for (name, set) in EXTREMES.iter().take(4).chain(turns.next()) {
            let first = first_place(&mut random, history, d);
            let row = row(history, first, |mark| set(mark, history, d));
            slides.slide(&mut random, name, row, d);
        }
        let first = first_place(&mut random, history, d);
        let row = row(history, first, |_| random.once_in(2));
        slides.slide(&mut random, "any", row, d);
    }
    slides.report("slides across words, every H and d");
}

/// The same about each length that fills its words: every extreme.
#[test]
fn marks_move_about_full_words() {
    let mut random = Random::new(SEED + 2);
    let mut slides = Slides::default();
    let about = |words: u16| [64 * words - 1, 64 * words, 64 * words + 1];
    let histories = (2..=8).flat_map(about).filter(|&history| history <= 512);
    for (history, d) in histories.flat_map(|history| (1..history).map(move |d| (history, d))) {
        for (name, set) in EXTREMES {
            let first = first_place(&mut random, history, d);
            let row = row(history, first, |mark| set(mark, history, d));
            slides.slide(&mut random, name, row, d);
        }
    }
    slides.report("slides about full words");
}

/// A mark of the window for the first place, or none.
fn first_place(random: &mut Random, history: u16, d: u16) -> Option<u16> {
    let any = random.below(history.into()) as u16;
    let border = any / 64 * 64 + random.pick(&[0, 63]);
    let first = random.pick(&[any, any, border, 0, history - d - 1, history - d, history - 1]);
    Some(first).filter(|&first| first < history && !random.once_in(5))
}

/// Every late packet below every H, where its mark alone is set, where all others are, and from any
/// marks: it is judged by its own mark, of whichever word, and sets that one alone.
#[test]
fn late_packets_by_their_own_mark() {
    let mut random = Random::new(SEED + 3);
    let (mut cases, mut passed) = (0, 0);
    for (history, late) in
        (2..=512).flat_map(|history| (0..history).map(move |late| (history, late)))
    {
        let newest = random.number();
        let alone = row(history, None, |mark| mark == late);
        let others = row(history, None, |mark| mark != late);
        let any = row(history, None, |_| random.once_in(2));
        for mut row in [alone, others, any] {
            let setup = Setup { history, ..SETUP };
            let timed = timed(setup, Some(newest), 3);
            let state = State { marks: row.marks(), first: None, ..timed };
            let was = std::mem::replace(&mut row.marks[late.into()], true);
            let (answer, ticks_left, order) =
                if was { (AHZ_DISCARD, 3, 0) } else { (AHZ_PASS, 10, 1) };
            let discarded = u64::from(was);
            let counters =
                Counters { passed: 1 - discarded, discarded, order, ..Counters::default() };
            let marks = row.marks();
            let next = State { marks, ticks_left: Ticks(ticks_left), counters, ..state };
            let number = newest.wrapping_sub(late);
            assert_eq!(packet(&state, Some(number)), (answer, next), "H {history}, {late} late");
            passed += u64::from(!was);
            cases += 1;
        }
    }
    assert!(passed > cases / 3 && passed < cases, "both answers were wanted: {passed}");
    report("late packets, every H", cases);
}

/// By hand, what H 4 gives up after a first packet 10, whose window begins at 7, and H 512 after a first
/// packet 1,000, whose window begins at 489: how many places are lost, how many of them before the first,
/// and the mark of the first place where the window still has it. The same lists go round the wrap; and
/// each is run again after a reset and after a timeout, which start the first place anew and keep the
/// counters. Under match nothing is lost, and no first place is kept.
#[test]
fn holes_before_the_first_packet() {
    for (numbers, lost, before_first, first) in [
        (&[10u16][..], 0, 0, Some(0)),
        (&[10, 11], 1, 1, Some(1)),
        (&[10, 12], 2, 2, Some(2)),
        (&[10, 13], 3, 3, Some(3)),
        (&[10, 13, 14], 3, 3, None), // 10 leaves, which is not lost
        (&[10, 13, 15], 4, 3, None), // and 11
        (&[10, 13, 16], 5, 3, None), // and 12
        (&[10, 13, 12, 11, 16], 3, 3, None), // which both came late here
        (&[10, 12, 14], 3, 3, None),
        (&[10, 12, 15], 4, 3, None), // 9 and 11 in one slide, from both sides of the first
        (&[10, 12, 9, 15], 3, 2, None), // 9 came late, and is no hole
        (&[10, 9, 13], 2, 2, Some(3)),
        (&[10, 9, 8, 7, 13, 16], 2, 0, None),
        (&[10, 11, 12, 13, 14, 16, 19], 4, 3, None), // 15, long after the first
        (&[1_000], 0, 0, Some(0)),
        (&[1_000, 1_064], 64, 64, Some(64)), // from 489 to 552
        (&[1_000, 1_511], 511, 511, Some(511)),
        (&[1_000, 1_511, 1_512], 511, 511, None), // 1,000 leaves, which is not lost
        (&[1_000, 1_511, 1_576], 575, 511, None), // and 1,001 to 1,064
        (&[1_000, 1_256, 745, 1_300], 299, 299, Some(300)), // 745 came late, 511 below
        (&[1_000, 1_256, 808, 1_320], 319, 319, Some(320)), // 745 to 807, and 808 came late
        (&[1_000, 1_256, 1_767], 766, 511, None), // 745 to 999 and 1,001 to 1,255 in one slide
    ] {
        let history = if numbers[0] == 10 { 4 } else { 512 };
        for (rule, shift) in [(VECTOR, 0), (VECTOR, 65_526), (VECTOR, 65_523), (MATCH, 0)] {
            let shift = if history == 4 || shift == 0 { shift } else { shift - 1_200 };
            let setup = Setup { rule, history, ..SETUP };
            let mut kept = Kept::of(&State::fresh(setup).unwrap());
            for rounds in 1..=3 {
                for number in numbers {
                    let number = number.wrapping_add(shift);
                    assert_eq!(kept.event(Event::Packet(Some(number))), AHZ_PASS, "{numbers:?}");
                }
                kept.event(Event::LatentReset);
                let State { counters, first: told, .. } = kept.state();
                let counted = (counters.lost, counters.before_first, told);
                let expected = match rule {
                    VECTOR => (rounds * lost, rounds * before_first, first),
                    _ => (0, 0, None),
                };
                assert_eq!(counted, expected, "{numbers:?}");
                if rounds == 1 {
                    kept.event(Event::Reset);
                } else {
                    while kept.event(Event::Tick) != AHZ_RESET {}
                }
                assert_eq!((kept.state().first, kept.state().counters.resets), (None, rounds));
            }
        }
    }
}

/// Every counter goes from 2^64 - 1 to 0.
#[test]
fn counters_wrap() {
    let state = State { counters: FULL, ..State::fresh(SETUP).unwrap() };
    let after = |numbers: &[Option<u16>]| {
        let step = |state: State, number: &Option<u16>| packet(&state, *number).1;
        numbers.iter().fold(state, step).counters
    };
    assert_eq!(after(&[Some(10)]), Counters { passed: 0, ..FULL });
    assert_eq!(after(&[None]), Counters { discarded: 0, tagless: 0, ..FULL });
    assert_eq!(
        after(&[Some(10), Some(14)]),
        Counters { passed: 0, discarded: 0, rogue: 0, ..FULL }
    );
    assert_eq!(
        after(&[Some(10), Some(13)]),
        Counters { passed: 1, order: 0, lost: 2, before_first: 2, ..FULL }
    );
    let (_, reset) = event(&state, Event::Reset);
    assert_eq!(reset.counters, Counters { resets: 0, ..FULL });
    let (_, reset) = event(&state, Event::LatentReset);
    assert_eq!(reset.counters, Counters { latent_resets: 0, ..FULL });
}

/// The test's bound in 128 bits: the figure and the difference brought into 64 signed bits by hand.
fn latent_error(state: &State) -> bool {
    let wrapped = |value: i128| {
        let low = value.rem_euclid(1 << 64);
        if low >= 1 << 63 {
            low - (1 << 64)
        } else {
            low
        }
    };
    let expected = i128::from(state.counters.passed) * (i128::from(state.setup.paths) - 1);
    let figure = wrapped(expected - i128::from(state.counters.discarded));
    wrapped(i128::from(state.base) - figure).abs() > i128::from(state.setup.difference)
}

/// The test and the reset about every end of 64 bits.
#[test]
fn the_latent_figure() {
    let mut random = Random::new(SEED);
    let (mut cases, mut errors) = (0, 0);
    for _ in 0..400_000 {
        let near = |random: &mut Random| {
            let centre = random.pick(&[0, 1 << 63, u64::MAX, 1 << 32]);
            centre.wrapping_add(random.between(-3, 3) as u64)
        };
        let counters = Counters {
            passed: near(&mut random),
            discarded: near(&mut random),
            ..Counters::default()
        };
        let difference = random.pick(&[0, 1, 2, 3, u32::MAX - 1, u32::MAX]);
        let setup = Setup { paths: random.between(2, 8) as u8, difference, ..SETUP };
        let base = near(&mut random) as i64;
        let state = State { base, counters, ..State::fresh(setup).unwrap() };
        let error = latent_error(&state);
        let answer = if error { AHZ_LATENT_ERROR } else { AHZ_LATENT_OK };
        assert_eq!(event(&state, Event::LatentTest), (answer, state), "{state:?}");
        let (answer, reset) = event(&state, Event::LatentReset);
        let base = reset.base;
        let counters = Counters { latent_resets: 1, ..counters };
        assert_eq!((answer, reset), (AHZ_DONE, State { base, counters, ..state }));
        assert_eq!(event(&reset, Event::LatentTest), (AHZ_LATENT_OK, reset));
        cases += 1;
        errors += u64::from(error);
    }
    assert!(errors > cases / 20 && errors < cases, "both answers were wanted: {errors}");
    // The one difference whose absolute value needs the 64th bit.
    let state = State { base: i64::MIN, ..State::fresh(SETUP).unwrap() };
    assert_eq!(event(&state, Event::LatentTest), (AHZ_LATENT_ERROR, state));
    report("latent tests", cases);
}
