use crate::raw::{self, SetupNumbers};
use crate::{Milliseconds, Refusal, TicksPerSecond};
use ahozurime_sys as sys;
use core::ops::RangeInclusive;

/// By what a number is told from a repeat.
#[derive(Clone, Copy, Debug, PartialEq, Eq, Hash)]
pub enum Rule {
    /// By a window of the last numbers: each passes once, a late one too.
    Vector,
    /// By the last number alone.
    Match,
}

/// What a state recovers, and so what restarts its timer: a packet that passes does in both uses.
///
/// ```
/// use ahozurime::recovery::{Rule, Setup, State, Usage};
/// use ahozurime::{Milliseconds, Refusal, TicksPerSecond};
///
/// // A sender that is stuck on one number sends it at each of 100 ticks. Full ticks are 2.
/// let passed = |usage| {
///     let mut state = State::fresh(&Setup {
///         rule: Rule::Vector,
///         take_tagless: false,
///         usage,
///         history: 4,
///         timeout: Milliseconds(20),
///         rate: TicksPerSecond(100),
///         paths: 2,
///         difference: 1,
///     })?;
///     for _ in 0..100 {
///         let _ = state.numbered(7)?;
///         state.tick()?;
///     }
///     Ok::<u64, Refusal>(state.counters().passed)
/// };
/// assert_eq!(passed(Usage::Sequence)?, 50); // each timeout lets it through once more
/// assert_eq!(passed(Usage::Individual)?, 1);
/// # Ok::<(), Refusal>(())
/// ```
#[derive(Clone, Copy, Debug, PartialEq, Eq, Hash)]
pub enum Usage {
    /// A stream, after its paths have come together. A packet that is discarded leaves the timer
    /// alone.
    Sequence,
    /// One member stream, as one path brings it. A packet that is discarded restarts the timer too,
    /// whatever it is discarded for: a sender that is stuck on one number is not let through after a
    /// silence that there never was.
    Individual,
}

/// How a stream is recovered. Any values may be put in; [`State::fresh`](super::State::fresh) refuses
/// those out of range.
#[derive(Clone, Copy, Debug, PartialEq, Eq, Hash)]
pub struct Setup {
    /// By what a number is told from a repeat.
    pub rule: Rule,
    /// Whether packets without a number pass.
    pub take_tagless: bool,
    /// What is recovered, and so what restarts the timer.
    pub usage: Usage,
    /// The history length, within [`HISTORY`](Setup::HISTORY), 2 to 512: how many numbers the window
    /// has.
    pub history: u16,
    /// Without a packet that restarts the timer for so long, any number is taken next: within
    /// [`TIMEOUT`](Setup::TIMEOUT), 1 to 3,600,000.
    pub timeout: Milliseconds,
    /// How often [`State::tick`](super::State::tick) is called: within [`RATE`](Setup::RATE), 1 to
    /// 10,000.
    pub rate: TicksPerSecond,
    /// Over how many paths each packet comes: within [`PATHS`](Setup::PATHS), 2 to 8.
    pub paths: u8,
    /// By how much repeats may differ from what the paths should bring, before it is a latent error.
    pub difference: u32,
}

impl Setup {
    /// The history lengths that are taken.
    pub const HISTORY: RangeInclusive<u16> = sys::AHZ_HISTORY_LEAST..=sys::AHZ_HISTORY_MOST;
    /// The timeouts that are taken.
    pub const TIMEOUT: RangeInclusive<Milliseconds> =
        Milliseconds(sys::AHZ_MILLISECONDS_LEAST)..=Milliseconds(sys::AHZ_MILLISECONDS_MOST);
    /// The rates that are taken.
    pub const RATE: RangeInclusive<TicksPerSecond> =
        TicksPerSecond(sys::AHZ_RATE_LEAST)..=TicksPerSecond(sys::AHZ_RATE_MOST);
    /// The paths that are taken.
    pub const PATHS: RangeInclusive<u8> = sys::AHZ_PATHS_LEAST..=sys::AHZ_PATHS_MOST;

    /// Checks the setup.
    ///
    /// # Errors
    ///
    /// In this order: 16 [`Refusal::HISTORY`]; 17 [`Refusal::MILLISECONDS`]; 18 [`Refusal::RATE`];
    /// 19 [`Refusal::PATHS`].
    #[inline]
    pub fn check(&self) -> Result<(), Refusal> {
        match raw::check_setup(self.numbers()) {
            sys::AHZ_DONE => Ok(()),
            refusal => Err(Refusal::from_number(refusal)),
        }
    }

    #[inline]
    pub(super) fn numbers(&self) -> SetupNumbers {
        let rule = match self.rule {
            Rule::Vector => sys::AHZ_RULE_VECTOR,
            Rule::Match => sys::AHZ_RULE_MATCH,
        };
        let taken = if self.take_tagless { sys::AHZ_TAKEN } else { sys::AHZ_NOT_TAKEN };
        let usage = match self.usage {
            Usage::Sequence => sys::AHZ_USE_SEQUENCE,
            Usage::Individual => sys::AHZ_USE_INDIVIDUAL,
        };
        let Setup { history, timeout, rate, paths, difference, .. } = *self;
        (rule, taken, usage, history, timeout.0, rate.0, paths, difference)
    }

    /// The setup in the words of a sound state, which are in range.
    #[inline]
    pub(super) fn of(words: &[u64; sys::AHZ_S_WORDS]) -> Setup {
        let is = |at: usize, number: u8| words[at] == u64::from(number);
        Setup {
            rule: if is(sys::AHZ_S_RULE, sys::AHZ_RULE_MATCH) { Rule::Match } else { Rule::Vector },
            take_tagless: is(sys::AHZ_S_TAKEN, sys::AHZ_TAKEN),
            usage: if is(sys::AHZ_S_USE, sys::AHZ_USE_INDIVIDUAL) {
                Usage::Individual
            } else {
                Usage::Sequence
            },
            history: words[sys::AHZ_S_HISTORY] as u16,
            timeout: Milliseconds(words[sys::AHZ_S_MILLISECONDS] as u32),
            rate: TicksPerSecond(words[sys::AHZ_S_RATE] as u16),
            paths: words[sys::AHZ_S_PATHS] as u8,
            difference: words[sys::AHZ_S_DIFFERENCE] as u32,
        }
    }
}
