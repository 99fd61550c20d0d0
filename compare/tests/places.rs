//! Recovery against places: every packet of a span gets a place, a signed 64-bit number, and what
//! has passed, is lost or is still open is counted from the list of packets alone. No mark, no
//! window of bits and no stored number of the layer is read to find the expected answer. Every version
//! is held to it, each on a state of its own, in both uses: these differ in when a span times out, and
//! in nothing else.
//!
//! The sum behind 01's tape ("4 + 2 = 3 passed + 2 lost + 1 open") is held after each event: H and
//! the way from the first place to the newest are the passed, the lost and the open places
//! together. So is what CR 7 adds: before-first counts those of the lost places that lie below the
//! first, and lost less before-first "counts only places above the first".

mod common;

use ahozurime_sys as sys;
use common::report;
use compare::layers::{self, Event, Kept, USES};
use compare::plain::recovery::{
    Counters, Marks, Milliseconds, Setup, State, INDIVIDUAL, MATCH, VECTOR,
};
use compare::random::{Random, SEED};
use std::collections::BTreeSet;

/// The numbered packets from a reset to the next.
struct Span {
    first: i64,
    newest: i64,
    /// Every place that has passed; not only those that are near.
    passed: BTreeSet<i64>,
    /// Places given up so far, and those of them below the first: kept by `advance` and counted anew by
    /// `recount`.
    lost: u64,
    before_first: u64,
}

impl Span {
    fn starting(number: u16) -> Span {
        let first = i64::from(number);
        let passed = BTreeSet::from([first]);
        Span { first, newest: first, passed, lost: 0, before_first: 0 }
    }

    /// The place nearest to the newest that the number can stand for, the lower one at equal
    /// distance.
    fn place(&self, number: u16) -> i64 {
        let ahead = (i64::from(number) - self.newest).rem_euclid(65_536);
        self.newest + if ahead < 32_768 { ahead } else { ahead - 65_536 }
    }

    /// The places from one to another, both included, where nothing has passed.
    fn missing(&self, from: i64, to: i64) -> u64 {
        if from > to {
            return 0;
        }
        (to - from + 1) as u64 - self.passed.range(from..=to).count() as u64
    }

    fn advance(&mut self, newest: i64, history: i64) {
        let (from, to) = (self.newest - history + 1, newest - history);
        self.lost += self.missing(from, to);
        self.before_first += self.missing(from, to.min(self.first - 1));
        self.newest = newest;
    }

    fn open(&self, history: i64) -> u64 {
        self.missing(self.newest - history + 1, self.newest)
    }

    /// All places from the lowest one of the first window to the last one given up: those below the
    /// first, and those above it.
    fn recount(&self, history: i64) -> (u64, u64) {
        let last = self.newest - history;
        let below = self.missing(self.first - history + 1, last.min(self.first - 1));
        (below, self.missing(self.first + 1, last))
    }

    fn sum_closes(&self, history: i64) -> bool {
        let places = self.passed.len() as u64 + self.lost + self.open(history);
        (history + self.newest - self.first) as u64 == places
    }
}

/// The whole list of events so far, in the paper's terms.
struct Model {
    setup: Setup,
    full: u64,
    span: Option<Span>,
    /// The last number passed in this span, for match.
    last: Option<u16>,
    /// Ticks since the last packet of this span that passed, or in individual use since the last one.
    since: Option<u64>,
    counted: Counters,
    base: i128,
}

impl Model {
    fn new(setup: Setup) -> Model {
        let product = u64::from(setup.timeout.0) * u64::from(setup.ticks_per_second);
        let full = product / 1000 + u64::from(product % 1000 != 0);
        let counted = Counters::default();
        Model { setup, full, span: None, last: None, since: None, counted, base: 0 }
    }

    fn history(&self) -> i64 {
        i64::from(self.setup.history)
    }

    /// The number of the answer: did the packet pass, did the tick time out, is there an error.
    fn event(&mut self, event: Event) -> u8 {
        match event {
            Event::Packet(number) if self.packet(number) => sys::AHZ_PASS,
            Event::Packet(_) => sys::AHZ_DISCARD,
            Event::Tick if self.tick() => sys::AHZ_RESET,
            Event::Tick => sys::AHZ_TICK,
            Event::Reset => {
                self.reset();
                sys::AHZ_DONE
            }
            Event::LatentReset => {
                self.base = self.figure();
                self.counted.latent_resets += 1;
                sys::AHZ_DONE
            }
            Event::LatentTest if self.is_far_off() => sys::AHZ_LATENT_ERROR,
            Event::LatentTest => sys::AHZ_LATENT_OK,
        }
    }

    fn packet(&mut self, number: Option<u16>) -> bool {
        let passes = match number {
            None => {
                self.counted.tagless += 1;
                self.setup.taken == 1
            }
            Some(number) if self.setup.rule == MATCH => self.by_match(number),
            Some(number) => self.by_place(number),
        };
        let counter = if passes { &mut self.counted.passed } else { &mut self.counted.discarded };
        *counter += 1;
        if passes || self.setup.usage == INDIVIDUAL {
            self.since = Some(0);
        }
        passes
    }

    fn by_match(&mut self, number: u16) -> bool {
        let last = self.last.replace(number);
        let follows = last.map(|last| (u32::from(last) + 1) % 65_536 == u32::from(number));
        self.counted.order += u64::from(follows == Some(false) && last != Some(number));
        last != Some(number)
    }

    /// The first packet passes. Later ones pass exactly if they stand less than H from the newest
    /// place and no packet of the span has passed there.
    fn by_place(&mut self, number: u16) -> bool {
        let history = self.history();
        let Some(span) = &mut self.span else {
            self.span = Some(Span::starting(number));
            return true;
        };
        let place = span.place(number);
        if (place - span.newest).abs() >= history {
            self.counted.rogue += 1;
            return false;
        }
        if span.passed.contains(&place) {
            return false;
        }
        self.counted.order += u64::from(place != span.newest + 1);
        let (lost, before_first) = (span.lost, span.before_first);
        if place > span.newest {
            span.advance(place, history);
        }
        span.passed.insert(place);
        let Counters { lost: all, before_first: before, .. } = &mut self.counted;
        *all = all.wrapping_add(span.lost - lost);
        *before = before.wrapping_add(span.before_first - before_first);
        true
    }

    fn tick(&mut self) -> bool {
        self.since = self.since.map(|ticks| ticks + 1);
        let timed_out = self.since == Some(self.full);
        if timed_out {
            self.reset();
        }
        timed_out
    }

    fn reset(&mut self) {
        self.span = None;
        self.last = None;
        self.since = None;
        self.counted.resets += 1;
    }

    fn figure(&self) -> i128 {
        let others = i128::from(self.setup.paths) - 1;
        i128::from(self.counted.passed) * others - i128::from(self.counted.discarded)
    }

    fn is_far_off(&self) -> bool {
        (self.base - self.figure()).abs() > i128::from(self.setup.difference)
    }

    /// What a state has to hold after the events so far. The marks come last, as a view of the
    /// places.
    fn holds(&self, state: &State) {
        let history = self.history();
        assert_eq!(state.setup, self.setup);
        assert_eq!(state.counters, self.counted);
        assert_eq!(i128::from(state.base), self.base);
        let left = self.since.map_or(0, |ticks| self.full - ticks);
        assert_eq!(state.ticks_left.0, left);
        assert_eq!(state.take_any, self.span.is_none() && self.last.is_none());
        let Some(span) = &self.span else {
            let newest = self.last.unwrap_or(65_535);
            assert_eq!((state.newest, state.marks, state.first), (newest, Marks::NONE, None));
            return;
        };
        assert_eq!(i64::from(state.newest), span.newest.rem_euclid(65_536));
        let near = span.passed.range(span.newest - history + 1..);
        let marks = near.map(|place| (span.newest - place) as u16).collect();
        let below = span.newest - span.first;
        let first = (below < history).then_some(below as u16);
        assert_eq!((state.marks, state.first), (marks, first));
    }

    /// The sum closes; and, where it is asked for, the lost places counted anew, those below the first
    /// and those above it, are those that were counted one by one.
    fn closes(&self, recount: bool) {
        let Some(span) = &self.span else { return };
        assert!(span.sum_closes(self.history()));
        let counted = (span.before_first, span.lost - span.before_first);
        assert!(!recount || counted == span.recount(self.history()));
    }
}

/// Numbers as two paths would bring them: mostly the next one, some late, some twice, some far off.
fn number(random: &mut Random, near: u16, history: u16) -> u16 {
    let h = i64::from(history);
    let away = match random.below(16) {
        0..=6 => 1,
        7 | 8 => random.between(-2, 3),
        9..=11 => random.between(1 - h, h - 1),
        12 => random.pick(&[-h - 1, -h, 1 - h, h - 1, h, h + 1]),
        13 => random.pick(&[-32_768, -32_767, 32_767, 65_535, 0]),
        14 => random.between(0, h - 1),
        _ if random.once_in(6) => random.between(0, 65_535),
        _ => -1,
    };
    near.wrapping_add(away as u16)
}

fn random_event(random: &mut Random, near: u16, setup: &Setup) -> Event {
    match random.below(40) {
        0 => Event::Packet(None),
        1..=3 => Event::Tick,
        4 => Event::LatentReset,
        5 => Event::LatentTest,
        6 if random.once_in(5) => Event::Reset,
        _ => Event::Packet(Some(number(random, near, setup.history))),
    }
}

fn random_setup(random: &mut Random, rule: u8, history: u16) -> Setup {
    Setup {
        rule,
        taken: random.below(2) as u8,
        usage: random.pick(&USES),
        history,
        timeout: Milliseconds(random.between(1, 90) as u32),
        ticks_per_second: random.pick(&[1, 100, 101, 333]),
        paths: random.between(2, 8) as u8,
        difference: random.pick(&[0, 1, 5, 40, u32::MAX]),
    }
}

/// Every H whose marks are in one word, and those of more words that fill their last one, or would
/// with a mark more or less.
fn histories() -> impl Iterator<Item = u16> {
    let about = |words: u16| [64 * words - 1, 64 * words, 64 * words + 1];
    (2..=64).chain((1..=8).flat_map(about).filter(|history| (65..=512).contains(history)))
}

/// Every d below an H of one word; of more words, those of whole words, and the ends.
fn slides(history: u16) -> impl Iterator<Item = u16> {
    let far = move |d: u16| [0, 1, 2, 62, 63].contains(&(d % 64)) || d + 2 >= history;
    (1..history).filter(move |&d| history <= 64 || far(d))
}

/// The list so far, and the state that each version made of it.
struct Held {
    model: Model,
    kept: Kept,
    events: u64,
}

impl Held {
    fn fresh(setup: Setup) -> Held {
        Held::counting_from(Counters::default(), setup)
    }

    /// Fresh, but for what it has counted.
    fn counting_from(counted: Counters, setup: Setup) -> Held {
        let fresh = layers::fresh(&setup).expect("a setup in range");
        let kept = Kept::of(&State { counters: counted, ..fresh });
        Held { model: Model { counted, ..Model::new(setup) }, kept, events: 0 }
    }

    /// What the next number is drawn near to. Taken from the model, so a wrong state cannot steer
    /// the list that is to catch it; a span begins close to the wrap as often as not.
    fn near(&self, random: &mut Random) -> u16 {
        match (&self.model.span, self.model.last) {
            (Some(span), _) => span.newest.rem_euclid(65_536) as u16,
            (None, Some(last)) => last,
            (None, None) if random.once_in(2) => random.pick(&[65_535, 65_530, 0, 1]),
            (None, None) => random.number(),
        }
    }

    fn event(&mut self, event: Event, recount_every: u64) -> u8 {
        let (expected, answer) = (self.model.event(event), self.kept.event(event));
        let setup = &self.model.setup;
        assert_eq!(answer, expected, "event {}, {event:?}, {setup:?}", self.events);
        self.model.holds(&self.kept.state());
        self.model.closes(self.events % recount_every == 0);
        self.events += 1;
        answer
    }
}

/// Short lists with every H and both rules, all places counted after each event.
#[test]
fn short_lists_counted_after_each_event() {
    let mut random = Random::new(SEED);
    let mut events = 0;
    let mut seen = Counters::default();
    for history in 2..=512 {
        for list in 0..if history <= 64 { 60 } else { 12 } {
            let rule = if list % 6 == 5 { MATCH } else { VECTOR };
            let setup = random_setup(&mut random, rule, history);
            let mut held = Held::fresh(setup);
            for _ in 0..120 {
                let near = held.near(&mut random);
                held.event(random_event(&mut random, near, &setup), 1);
            }
            events += held.events;
            let counted = held.model.counted;
            seen.order += counted.order;
            seen.rogue += counted.rogue;
            seen.lost += counted.lost;
            seen.before_first += counted.before_first;
            seen.tagless += counted.tagless;
            seen.resets += counted.resets;
            seen.discarded += counted.discarded;
        }
    }
    assert!(seen.order.min(seen.rogue).min(seen.tagless).min(seen.resets) > 1_000);
    assert!(seen.before_first.min(seen.lost - seen.before_first) > 10_000, "{seen:?}");
    assert!(seen.discarded > seen.rogue + seen.tagless, "no repeats among {seen:?}");
    report("events in short lists, every H", events);
}

/// The same list in both uses, half of it ticks, with every H and both rules: the spans end by timeouts
/// at moments that the use decides, those of a state that takes any among them. Both counters of lost
/// places begin near their end and wrap.
#[test]
fn timeouts_at_the_moment_of_the_use() {
    let mut random = Random::new(SEED + 4);
    let (mut events, mut apart, mut wraps) = (0, 0, 0);
    let near = Counters { lost: u64::MAX - 20, before_first: u64::MAX - 20, ..Counters::default() };
    let (mut timeouts, mut taking_any) = ([0; 2], [0; 2]);
    let lists = |history| 0..if history <= 64 { 24 } else { 6 };
    for (history, list) in
        (2..=512).flat_map(|history| lists(history).map(move |list| (history, list)))
    {
        let rule = if list % 6 == 5 { MATCH } else { VECTOR };
        let timeout = Milliseconds(random.between(1, 80) as u32);
        let setup =
            Setup { timeout, ticks_per_second: 100, ..random_setup(&mut random, rule, history) };
        let mut both = USES.map(|usage| Held::counting_from(near, Setup { usage, ..setup }));
        let mut moments = USES.map(|_| Vec::new());
        for moment in 0..160 {
            let near = both[list % 2].near(&mut random);
            let drawn = random_event(&mut random, near, &setup);
            let event = random.pick(&[drawn, Event::Packet(None), Event::Tick, Event::Tick]);
            for (place, held) in both.iter_mut().enumerate() {
                let took_any = held.kept.state().take_any;
                if held.event(event, 1) == sys::AHZ_RESET {
                    moments[place].push(moment);
                    timeouts[place] += 1;
                    taking_any[place] += u64::from(took_any && setup.taken == 0);
                }
                events += 1;
            }
        }
        apart += u64::from(moments[0] != moments[1]);
        wraps += u64::from(both.iter().all(|held| held.model.counted.before_first < 1 << 20));
    }
    assert!(timeouts.iter().all(|&timeouts| timeouts > 10_000), "{timeouts:?}");
    assert!(taking_any[0] == 0 && taking_any[1] > 500, "by a discarded packet: {taking_any:?}");
    assert!(apart > 700, "the uses are to differ: {apart}");
    assert!(wraps > 700, "before-first was to wrap: {wraps}");
    report("events with timeouts in both uses, every H", events);
}

/// One span for each H that goes round the numbers twice and more, with no reset and no timeout.
#[test]
fn long_spans_across_wraps() {
    let mut random = Random::new(SEED + 1);
    let mut events = 0;
    for history in histories() {
        let setup = Setup {
            timeout: Milliseconds(3_600_000),
            ticks_per_second: 10_000,
            ..random_setup(&mut random, VECTOR, history)
        };
        let mut held = Held::fresh(setup);
        while held.model.span.as_ref().is_none_or(|span| span.newest - span.first < 140_000) {
            let near = held.near(&mut random);
            match random_event(&mut random, near, &setup) {
                Event::Reset => continue,
                event => held.event(event, 20_011),
            };
            assert!(held.events < 1_000_000, "H {history} does not get on");
        }
        held.model.closes(true);
        assert_eq!(held.model.counted.resets, 0);
        events += held.events;
    }
    report("events in spans over two wraps", events);
}

/// Streams that lose nothing, by two paths: the window fills, whatever its length, and stays full. What
/// is counted as lost lies before the first, once more after a reset.
#[test]
fn streams_without_a_gap() {
    let mut random = Random::new(SEED + 2);
    let mut events = 0;
    for history in 2..=512 {
        let mut held = Held::fresh(random_setup(&mut random, VECTOR, history));
        let numbers = u64::from(history) + 136;
        for streams in 1..=2 {
            for number in 65_436..65_436 + numbers {
                let packet = Event::Packet(Some(number as u16));
                for event in [packet, packet, Event::LatentTest] {
                    held.event(event, if history <= 64 { 1 } else { 101 });
                }
            }
            let counted = held.model.counted;
            let all = numbers * streams;
            assert_eq!((counted.passed, counted.discarded), (all, all));
            assert_eq!((counted.order, counted.rogue), (0, 0));
            let before = streams * (u64::from(history) - 1);
            assert_eq!((counted.lost, counted.before_first), (before, before));
            for event in [Event::LatentReset, Event::Reset] {
                held.event(event, 1);
            }
        }
        held.event(Event::Packet(Some(7)), 1);
        events += held.events;
    }
    report("events in streams without a gap, every H", events);
}

/// The same slide again and again, in one span for each H: marks that went through many slides. Behind
/// each come none, some or all of the late packets that the window still takes.
#[test]
fn the_same_slide_in_sequence() {
    let mut random = Random::new(SEED + 3);
    let mut events = 0;
    for history in histories() {
        let mut held = Held::fresh(random_setup(&mut random, VECTOR, history));
        let mut newest = 65_530u16;
        held.event(Event::Packet(Some(newest)), 1);
        for (d, quarters) in
            slides(history).flat_map(|d| (0..=4).map(move |quarters| (d, quarters)))
        {
            for _ in 0..4 {
                newest = newest.wrapping_add(d);
                held.event(Event::Packet(Some(newest)), 20_011);
                for late in (1..history).filter(|_| random.below(4) < quarters) {
                    held.event(Event::Packet(Some(newest.wrapping_sub(late))), 20_011);
                }
            }
        }
        held.model.closes(true);
        let span = held.model.span.as_ref().expect("no reset");
        let slid: i64 = slides(history).map(|d| 20 * i64::from(d)).sum();
        assert_eq!((span.newest - span.first, held.model.counted.rogue), (slid, 0));
        events += held.events;
    }
    report("events with the same slide in sequence", events);
}

/// Every way past the first place: from a reset or a timeout on, the same slide until the window has left
/// the first place behind. Before each come none, half or all of the late packets that the window takes,
/// those below the first place among them; where the marks are in more words, one in so many of these.
#[test]
fn past_the_first_place() {
    let mut random = Random::new(SEED + 5);
    let mut events = 0;
    for history in histories() {
        let mut held = Held::fresh(random_setup(&mut random, VECTOR, history));
        let words = u64::from(history.div_ceil(64));
        for (d, halves) in slides(history).flat_map(|d| (0..=2).map(move |halves| (d, halves))) {
            let mut newest = held.near(&mut random);
            held.event(Event::Packet(Some(newest)), 1);
            for _ in 0..=history / d + 1 {
                let mut is_sent = || random.below(2) < halves && random.once_in(words);
                for late in (1..history).filter(|_| is_sent()) {
                    held.event(Event::Packet(Some(newest.wrapping_sub(late))), 1);
                }
                newest = newest.wrapping_add(d);
                held.event(Event::Packet(Some(newest)), 1);
            }
            assert_eq!(held.kept.state().first, None, "H {history}, by {d}");
            held.event(Event::LatentReset, 1);
            if random.once_in(2) {
                held.event(Event::Reset, 1);
            } else {
                while held.event(Event::Tick, 1) != sys::AHZ_RESET {}
            }
        }
        assert_eq!(held.model.counted.rogue, 0);
        events += held.events;
    }
    report("events past the first place", events);
}
