//! The proved layer against the plain version: "Numbering and recovery". After each event every
//! word of the state is compared.

mod common;

use ahozurime::recovery as safe;
use ahozurime::Refusal;
use ahozurime_sys::{
    AHZ_LATENT_ERROR, AHZ_LATENT_OK, AHZ_MARK_WORDS, AHZ_S_BEFORE_FIRST, AHZ_S_FIRST, AHZ_S_MARKS,
    AHZ_S_TAKE_ANY, AHZ_S_USE,
};
use common::report;
use compare::layers::{
    self, check_setup, event, events, fresh_into, raw_event, Event, Kept, RULES, USES,
};
use compare::plain::recovery::{
    Counters, Marks, Milliseconds, Setup, State, Ticks, LONGEST_HISTORY,
};
use compare::random::{Random, SEED};
use compare::{guarded, words};

/// A number of a range: one of its ends, any, or one of any smaller size.
fn within(random: &mut Random, low: u64, high: u64) -> u64 {
    let any = random.below(high - low + 1);
    let smaller = any >> random.below(24);
    low + random.pick(&[0, high - low, any, smaller])
}

/// A setup anywhere in its ranges; every other has its marks in one word.
fn random_setup(random: &mut Random) -> Setup {
    let longest = random.pick(&[64, LONGEST_HISTORY]);
    Setup {
        rule: random.pick(&[0, 0, 1]),
        taken: random.pick(&[0, 1]),
        usage: random.pick(&USES),
        history: random.between(2, longest.into()) as u16,
        timeout: Milliseconds(within(random, 1, 3_600_000) as u32),
        ticks_per_second: within(random, 1, 10_000) as u16,
        paths: random.between(2, 8) as u8,
        difference: within(random, 0, u32::MAX.into()) as u32,
    }
}

/// Every field at both of its bounds and on both sides of each, all with all.
#[test]
fn setups_at_every_bound() {
    let mut random = Random::new(SEED);
    let mut cases = 0;
    let bounds: [&[u32]; 7] = [
        &[0, 1, 2, 255],
        &[0, 1, 2, 255],
        &[0, 1, 2, 255],
        &[0, 1, 2, 3, 64, 65, 511, 512, 513, 65_535],
        &[0, 1, 3_600_000, 3_600_001, u32::MAX],
        &[0, 1, 10_000, 10_001, 65_535],
        &[0, 1, 2, 8, 9, 255],
    ];
    for combination in 0..bounds.iter().map(|values| values.len()).product() {
        let mut rest: usize = combination;
        let values = bounds.map(|values| {
            let value = values[rest % values.len()];
            rest /= values.len();
            value
        });
        let [rule, taken, usage, history, timeout, ticks_per_second, paths] = values;
        let any = random.next_u64() as u32;
        let setup = Setup {
            rule: rule as u8,
            taken: taken as u8,
            usage: usage as u8,
            history: history as u16,
            timeout: Milliseconds(timeout),
            ticks_per_second: ticks_per_second as u16,
            paths: paths as u8,
            difference: random.pick(&[0, 1, 1 << 31, u32::MAX, any]),
        };
        cases += same_setup(&mut random, &setup);
    }
    report("setups, ours and plain", cases);
}

/// Every value of each field, in a setup that is else in range, under both rules and in both uses; and
/// setups that are in range anywhere.
#[test]
fn setups_of_every_value() {
    let mut random = Random::new(SEED);
    let mut cases = 0;
    for value in 0..=u16::MAX {
        let (rule, usage) = ((value >> 8 & 1) as u8, (value >> 9 & 1) as u8);
        let good = Setup { rule, usage, ..busy().setup };
        let other = Setup { rule: 1 - rule, usage: 1 - usage, ..good };
        let low = value as u8;
        let timeout = Milliseconds(u32::from(value) << (value % 17));
        let mut setups = vec![
            Setup { history: value, ..good },
            Setup { history: value, ..other },
            Setup { ticks_per_second: value, ..good },
            Setup { timeout, ..good },
            Setup { difference: timeout.0, ..good },
            random_setup(&mut random),
        ];
        if value < 256 {
            setups.push(Setup { rule: low, ..good });
            setups.push(Setup { taken: low, ..good });
            setups.push(Setup { usage: low, ..good });
            setups.push(Setup { paths: low, ..good });
        }
        for setup in setups {
            cases += same_setup(&mut random, &setup);
        }
    }
    report("setups of every value, ours and plain", cases);
}

/// The check; and a fresh state in too few words, just enough and more, which refuses by the setup's
/// number before it looks at how many there are.
fn same_setup(random: &mut Random, setup: &Setup) -> u64 {
    let _ = check_setup(setup);
    for count in [0, 24, 29, 30, 31, 32, 47] {
        let lent: Vec<u64> = (0..count).map(|_| random.next_u64()).collect();
        let _ = fresh_into(setup, &lent);
    }
    8
}

/// "Full ticks = ms x ticks per second / 1000, rounded up", in 128 bits.
fn exact(milliseconds: u32, rate: u16) -> u64 {
    let product = u128::from(milliseconds) * u128::from(rate);
    let rounded_up = product / 1_000 + u128::from(product % 1_000 != 0);
    rounded_up.try_into().expect("below 2^48 / 1,000")
}

fn same_ticks(milliseconds: u32, rate: u16) {
    let expected = Ticks(exact(milliseconds, rate));
    assert_eq!(layers::ticks(Milliseconds(milliseconds), rate), expected);
}

/// Every rate that a setup may have, and those about it, with every remainder that milliseconds can
/// leave; and both factors anywhere in their widths.
#[test]
fn milliseconds_become_ticks() {
    let mut random = Random::new(SEED);
    let mut cases = 0;
    for rate in 0..=10_100 {
        let far = random.next_u64() as u32 / 2;
        let near_the_longest = 3_599_000..=3_600_001;
        for milliseconds in (0..=1_001).chain(near_the_longest).chain(far..far + 1_000) {
            same_ticks(milliseconds, rate);
            cases += 2;
        }
    }
    for _ in 0..2_000_000 {
        same_ticks(random.between(0, 3_600_100) as u32, random.between(0, 10_100) as u16);
        cases += 2;
    }
    for rate in 0..=u16::MAX {
        for milliseconds in [0, 1, 999, 1_000, 1_001, 3_600_000, u32::MAX - 1, u32::MAX] {
            same_ticks(milliseconds, rate);
            same_ticks(random.next_u64() as u32, rate);
            cases += 4;
        }
    }
    report("milliseconds as ticks", cases);
}

/// Every number, and lists that go across the wrap before each reset.
#[test]
fn the_generator() {
    for number in 0..=u16::MAX {
        let next = if number == 65_535 { 0 } else { number + 1 };
        assert_eq!(layers::generate(number), (number, next));
        assert_eq!(layers::generator_reset(number), 0);
    }
    let mut typed = safe::Generator::fresh();
    let mut lent = guarded::generator();
    assert_eq!((typed.number(), lent), (0, 0));
    for round in 0..200_000u32 {
        let given;
        (given, lent) = layers::generate(lent);
        assert_eq!((typed.generate(), typed.number()), (given, lent));
        if round % 90_000 == 89_999 {
            typed.reset();
            lent = layers::generator_reset(lent);
            assert_eq!((typed.number(), lent), (0, 0));
        }
    }
    report("numbers generated, ours and plain", 4 * 65_536 + 3 * 200_000);
}

/// A state made of likely and of unlikely fields; about half of them are sound.
fn random_state(random: &mut Random) -> State {
    let mut setup = random_setup(random);
    match random.below(30) {
        0 => setup.rule = 2,
        1 => setup.taken = 2,
        2 => setup.usage = random.pick(&[2, 255]),
        3 => setup.history = random.pick(&[0, 1, 513, 65_535]),
        4 => setup.timeout = Milliseconds(random.pick(&[0, 3_600_001])),
        5 => setup.ticks_per_second = random.pick(&[0, 10_001]),
        6 => setup.paths = random.pick(&[0, 1, 9]),
        _ => {}
    }
    let take_any = random.once_in(3);
    let full = setup.full_ticks().0;
    let inside = setup.history.clamp(1, LONGEST_HISTORY);
    let marks = match (take_any, setup.rule) {
        (true, _) | (_, 1) => Marks::NONE,
        _ if random.once_in(4) => (0..inside).collect(),
        _ => (0..inside).filter(|&mark| mark == 0 || random.once_in(2)).collect(),
    };
    let mut counter = || {
        let (any, bits) = (random.next_u64(), random.below(65) as u32);
        let low = u64::MAX.checked_shr(bits).unwrap_or(0);
        random.pick(&[0, 1, 2, u64::MAX, u64::MAX - 1, low, low.wrapping_add(1), any])
    };
    let counters = Counters {
        passed: counter(),
        discarded: counter(),
        order: counter(),
        rogue: counter(),
        lost: counter(),
        tagless: counter(),
        resets: counter(),
        latent_resets: counter(),
        before_first: counter(),
    };
    let base = counter() as i64;
    let about_16_bits = random.between(65_534, 65_538) as u64;
    let least = u64::from(!take_any);
    let left = [least, 1, full, full.saturating_sub(1), full / 2 + 1, about_16_bits.min(full)];
    let any = random.below(inside.into()) as u16;
    let marked = marks.is_set(any).then_some(any);
    let mut state = State {
        setup,
        newest: if take_any { 65_535 } else { random.number() },
        marks,
        first: marked.filter(|_| !random.once_in(4)),
        take_any,
        ticks_left: Ticks(random.pick(&left)),
        counters,
        base,
    };
    // One respect more in which it may be unsound.
    match random.below(16) {
        0 => state.marks.0[0] ^= 1,
        1 => state.marks.set(random.below(LONGEST_HISTORY.into()) as u16),
        2 => state.newest = random.number(),
        3 => state.ticks_left = Ticks(full + 1),
        4 => state.ticks_left = Ticks(random.next_u64()),
        5 => state.ticks_left = Ticks(0),
        6 => state.take_any = !state.take_any,
        7 => state.first = Some(any),
        8 => state.first = Some(random.pick(&[0, setup.history, 63, 64, 511, 512, 65_535])),
        _ => {}
    }
    state
}

/// Every event on states of any setup, sound ones and ones that are not in one respect.
#[test]
fn states_sound_and_unsound() {
    let mut random = Random::new(SEED);
    let (mut cases, mut sound) = (0, 0);
    for _ in 0..150_000 {
        let state = random_state(&mut random);
        sound += u64::from(state.is_sound());
        let about = i64::from(state.setup.history.min(LONGEST_HISTORY)) + 2;
        let away = random.between(-about, about) as u16;
        for asked in events(state.newest.wrapping_add(away)) {
            let _ = event(&state, asked);
            cases += 1;
        }
    }
    assert!(sound > 20_000 && sound < 130_000, "{sound} sound states");
    report("states sound and unsound, ours and plain", cases);
}

/// A state with every field in use.
fn busy() -> State {
    let setup = Setup {
        rule: 0,
        taken: 1,
        usage: 1,
        history: 4,
        timeout: Milliseconds(100),
        ticks_per_second: 100,
        paths: 2,
        difference: 1,
    };
    let mut state = State::fresh(setup).unwrap();
    for number in [3, 3, 5, 4, 90] {
        state.packet_in_place(Some(number)).unwrap();
    }
    state.packet_in_place(None).unwrap();
    state.latent_reset_in_place().unwrap();
    state.tick_in_place().unwrap();
    state
}

/// Each event is refused by 14 and the words stay; the package makes no state of them.
fn refused(words: &[u64], what: &str) -> u64 {
    for asked in events(7) {
        assert_eq!(raw_event(words, asked), (14, words.to_vec()), "{what}, {asked:?}");
    }
    if let Ok(words) = words.try_into() {
        assert_eq!(safe::State::from_words(words), Err(Refusal::STATE), "{what}");
    }
    6
}

/// Words that are no state of this format, each refused by 14 and left as it was.
#[test]
fn words_that_hold_no_state() {
    let mut random = Random::new(SEED);
    let mut cases = 0;
    let words = words::of_state(&busy());
    // A word above what its field can hold, by one bit and by all from there on. The bits that the
    // field holds are those of a sound state.
    let of_the_setup = [(1, 8), (2, 8), (3, 8), (4, 16), (5, 32), (6, 16), (7, 8), (8, 32)];
    let without_a_first = words::of_state(&State { first: None, ..busy() });
    let behind = [(9, 16), (AHZ_S_FIRST, 16), (AHZ_S_TAKE_ANY, 1)];
    for (at, bits) in of_the_setup.into_iter().chain(behind) {
        for more in bits..64 {
            for above in [1 << more, u64::MAX << more] {
                for mut lent in [words, without_a_first] {
                    lent[at] |= above;
                    cases += refused(&lent, &format!("word {at} with {above:#x}"));
                }
            }
        }
    }
    // A use that is none, in a state that is else sound.
    for usage in 2..=255 {
        let mut lent = words;
        lent[AHZ_S_USE] = usage;
        cases += refused(&lent, &format!("use {usage}"));
    }
    // Another format: each bit of the word, those about it, and what stands first without one.
    let formats = (0..64).map(|bit| words::FORMAT ^ 1 << bit);
    let others = [0, 1, u64::MAX, words::FORMAT + 1, words::FORMAT - 1, words::FORMAT.swap_bytes()];
    for format in formats.chain(others) {
        let mut lent = words;
        lent[0] = format;
        cases += refused(&lent, &format!("format {format:#x}"));
    }
    let mut without = words;
    without.rotate_left(1);
    cases += refused(&without, "no format");
    // As the older formats had them: one word of marks; before that neither a first place nor
    // before-first, and in the first one no use either; by themselves, and with any number behind them,
    // under their own format and under this one.
    let mut third = words.to_vec();
    third.drain(AHZ_S_MARKS + 1..AHZ_S_MARKS + AHZ_MARK_WORDS);
    let mut second = third.clone();
    second.remove(AHZ_S_BEFORE_FIRST + 1 - AHZ_MARK_WORDS);
    second.remove(AHZ_S_FIRST + 1 - AHZ_MARK_WORDS);
    let mut first = second.clone();
    first.remove(AHZ_S_USE);
    assert_eq!([first.len(), second.len(), third.len()], [21, 22, 24]);
    let older =
        [(third, words::FORMAT - 1), (second, words::FORMAT - 2), (first, words::FORMAT - 3)];
    for (mut older, own) in older {
        for format in [own, words::FORMAT] {
            older[0] = format;
            cases += refused(&older, &format!("{} words of format {format:#x}", older.len()));
            for behind in [0, 1, words[AHZ_S_USE], u64::MAX, random.next_u64()] {
                let lent = [&older[..], &[behind; 12]].concat();
                cases += refused(&lent[..words::STATE], &format!("format {format:#x}, {behind}"));
                cases += refused(&lent, &format!("format {format:#x} and more of {behind}"));
            }
        }
    }
    for length in 0..words::STATE {
        cases += refused(&words[..length], &format!("{length} words"));
        let noise: Vec<u64> = (0..length).map(|_| random.next_u64()).collect();
        cases += refused(&noise, &format!("{length} words of noise"));
    }
    report("words that hold no state", cases);
}

/// "A state is the first words of what is lent": behind them anything may stand, and stays, however
/// many there are; 8 or 16 bits of their number may be too few for a state.
#[test]
fn longer_lent_states() {
    let mut random = Random::new(SEED);
    let mut cases = 0;
    let sound = busy();
    let unsound = State { marks: Marks::NONE, ..sound };
    let counts = (32..=300).chain([511, 512, 543, 65_535, 65_536, 65_566, 65_567, 65_600]);
    for count in counts {
        let lent: Vec<u64> = (0..count).map(|_| random.next_u64()).collect();
        assert!(fresh_into(&sound.setup, &lent).is_ok());
        for state in [sound, unsound] {
            let around =
                |state: &State| [&words::of_state(state)[..], &lent[words::STATE..]].concat();
            for asked in events(7) {
                let (answer, next) = event(&state, asked);
                let said = raw_event(&around(&state), asked);
                assert!(said == (answer, around(&next)), "{asked:?}, {count} words, {state:?}");
                cases += 1;
            }
        }
    }
    report("longer lent states", cases);
}

fn random_event(random: &mut Random, newest: u16, history: u16) -> Event {
    let h = i64::from(history);
    match random.below(40) {
        0 => Event::Packet(None),
        1..4 => Event::Tick,
        4 if random.once_in(10) => Event::Reset,
        5 => Event::LatentReset,
        6 => Event::LatentTest,
        7 => Event::Packet(Some(random.number())),
        8..12 => Event::Packet(Some(newest.wrapping_add(random.between(-h - 1, h + 1) as u16))),
        12..18 => Event::Packet(Some(newest.wrapping_sub(random.below(4) as u16))),
        _ => Event::Packet(Some(newest.wrapping_add(random.between(1, 3) as u16))),
    }
}

/// Long lists under both rules, in both uses and with every H, across the wrap of the numbers and of what
/// counts lost places.
#[test]
fn event_lists_across_wraps_with_every_history() {
    let mut random = Random::new(SEED);
    let mut cases = 0;
    for rule in RULES {
        for history in 2..=LONGEST_HISTORY {
            let setup = Setup {
                rule,
                taken: (history % 2) as u8,
                usage: (history / 2 % 2) as u8,
                history,
                timeout: Milliseconds(random.pick(&[1, 50, 2_000])),
                ticks_per_second: random.pick(&[1, 100, 1_000]),
                paths: random.pick(&[2, 3, 8]),
                difference: random.pick(&[0, 1, 1_000]),
            };
            let near = u64::MAX - 30;
            let counters = Counters { lost: near, before_first: near, ..Counters::default() };
            let mut kept = Kept::of(&State { counters, ..State::fresh(setup).unwrap() });
            // Begin shortly before the wrap; two steps on for each event go across it again, or more
            // of them where the window is long.
            kept.event(Event::Packet(Some(65_500)));
            for _ in 0..if history <= 64 { 50_000 } else { 6_000 } {
                kept.event(random_event(&mut random, kept.state().newest, history));
                cases += 1;
            }
        }
    }
    report("events in lists across wraps, ours and plain", cases);
}

/// Every number there is, from states of both rules and both uses whose newest stands at the ends and
/// in between, and so the first place in the window, or nowhere.
#[test]
fn every_number_from_some_states() {
    let mut cases = 0;
    for (rule, usage) in RULES.into_iter().flat_map(|rule| USES.map(|usage| (rule, usage))) {
        for history in [2, 4, 33, 63, 64, 65, 200, 512] {
            // In runs of sixteen, now the even ones and now the odd.
            let is_set = |mark: &u16| rule == 0 && (*mark == 0 || (mark / 16 + mark) % 2 == 0);
            let set: Vec<u16> = (0..history).filter(is_set).collect();
            let marks = set.iter().copied().collect();
            for (newest, first) in [
                (0, None),
                (10, set.first()),
                (32_767, set.get(set.len() / 2)),
                (32_768, set.last()),
                (65_535, set.get(1)),
            ] {
                let mut state = busy();
                state.setup = Setup { rule, usage, history, ..state.setup };
                (state.newest, state.marks, state.first) = (newest, marks, first.copied());
                assert!(state.is_sound());
                for number in 0..=u16::MAX {
                    let _ = event(&state, Event::Packet(Some(number)));
                    cases += 1;
                }
            }
        }
    }
    report("every number from some states, ours and plain", cases);
}

/// Figures anywhere in 64 bits, with the base as far off as the difference allows, and one further.
#[test]
fn latent_tests_at_the_bound() {
    let mut random = Random::new(SEED);
    let (mut cases, mut errors) = (0, 0);
    for _ in 0..200_000 {
        let mut state = busy();
        state.setup.paths = random.between(2, 8) as u8;
        let any = random.next_u64() as u32;
        state.setup.difference = random.pick(&[0, 1, 2, any, u32::MAX]);
        state.counters.passed = random.next_u64() >> random.pick(&[0, 16, 31, 32, 33, 60]);
        state.counters.discarded = random.next_u64() >> random.pick(&[0, 16, 31, 32, 33, 60]);
        (_, state) = event(&state, Event::LatentReset);
        assert_eq!(event(&state, Event::LatentTest), (AHZ_LATENT_OK, state));
        let (difference, further) = (i64::from(state.setup.difference), random.between(-1, 1));
        let away = random.pick(&[1, -1]) * (difference + further);
        state.base = state.base.wrapping_add(away);
        let error = away.abs() > difference;
        let answer = if error { AHZ_LATENT_ERROR } else { AHZ_LATENT_OK };
        assert_eq!(event(&state, Event::LatentTest), (answer, state));
        errors += u64::from(error);
        cases += 3;
    }
    assert!(errors > 50_000, "both answers were wanted");
    report("latent tests at the bound, ours and plain", cases);
}
