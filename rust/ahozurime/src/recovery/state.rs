use super::Setup;
use crate::{raw, Refusal, Ticks};
use ahozurime_sys as sys;
use core::fmt;

/// How many words a state has.
pub const WORDS: usize = sys::AHZ_S_WORDS;

/// How many words its marks have: a bit for each number of the longest window.
pub const MARK_WORDS: usize = sys::AHZ_MARK_WORDS;

// An answer becomes one of these three without a branch, since they have its numbers.

/// What becomes of a packet. `as u8` gives the answer of the raw call.
#[derive(Clone, Copy, Debug, PartialEq, Eq, Hash)]
#[must_use]
#[repr(u8)]
pub enum Verdict {
    /// It is the first of its number: keep it. It restarts the timer.
    Pass = sys::AHZ_PASS,
    /// It is a repeat, a rogue, or has no number where none is taken. In
    /// [individual](super::Usage::Individual) use it restarts the timer nevertheless.
    Discard = sys::AHZ_DISCARD,
}

/// What a tick did. `as u8` gives the answer of the raw call.
#[derive(Clone, Copy, Debug, PartialEq, Eq, Hash)]
#[repr(u8)]
pub enum Ticked {
    /// No more than that.
    Tick = sys::AHZ_TICK,
    /// The timeout is over, and the state is reset.
    Reset = sys::AHZ_RESET,
}

/// What the latent error test found. `as u8` gives the answer of the raw call.
#[derive(Clone, Copy, Debug, PartialEq, Eq, Hash)]
#[must_use]
#[repr(u8)]
pub enum Latent {
    /// The paths bring what they should.
    Ok = sys::AHZ_LATENT_OK,
    /// They do not: a path is silent, or brings too much.
    Error = sys::AHZ_LATENT_ERROR,
}

/// What a state has counted since it was fresh. Each counter wraps at 2^64.
#[derive(Clone, Copy, Debug, Default, PartialEq, Eq, Hash)]
pub struct Counters {
    /// Packets that passed.
    pub passed: u64,
    /// Packets that were discarded.
    pub discarded: u64,
    /// Packets that passed and did not follow the newest number.
    pub order: u64,
    /// Packets discarded for a number too far from the newest.
    pub rogue: u64,
    /// Numbers that left the window and had not passed, as the standard has it. The window reaches below
    /// the first number: up to history length - 1 that never were count here too, after each reset, also
    /// in a run that lost nothing.
    pub lost: u64,
    /// Packets without a number.
    pub tagless: u64,
    /// Resets, by call or by timeout.
    pub resets: u64,
    /// Latent resets.
    pub latent_resets: u64,
    /// [`lost`](Counters::lost) counts all places that the window left and that nothing passed at, and
    /// this those of them that lie below the first packet's place. So `lost.wrapping_sub(before_first)`
    /// counts only places above it.
    pub before_first: u64,
}

/// The recovery state of one stream.
///
/// Its words are sound: they come from [`fresh`](State::fresh), or were found so by
/// [`from_words`](State::from_words), and it is proved that a step leaves a sound state sound. So the
/// one refusal of a step, 14, is for words that something else has written over.
///
/// It is not `Copy`: a step on a copy would be forgotten.
///
/// # Stored and taken up again
///
/// ```
/// use ahozurime::recovery::{Rule, Setup, State, Usage, Verdict};
/// use ahozurime::{Milliseconds, Refusal, TicksPerSecond};
///
/// let setup = Setup {
///     rule: Rule::Match,
///     take_tagless: true,
///     usage: Usage::Individual,
///     history: 2,
///     timeout: Milliseconds(500),
///     rate: TicksPerSecond(10),
///     paths: 2,
///     difference: 0,
/// };
/// let mut state = State::fresh(&setup)?;
/// assert_eq!(state.hear(Some(7))?, Verdict::Pass);
/// let mut stored = *state.words();
///
/// let mut state = State::from_words(stored)?;
/// assert_eq!(state.setup(), setup);
/// assert_eq!(state.hear(Some(7))?, Verdict::Discard);
/// assert_eq!(state.hear(None)?, Verdict::Pass);
///
/// // Words of another format are refused and not misread.
/// stored[0] += 1;
/// assert_eq!(State::from_words(stored), Err(Refusal::STATE));
/// # Ok::<(), Refusal>(())
/// ```
#[derive(Clone, PartialEq, Eq, Hash)]
pub struct State {
    words: [u64; WORDS],
}

impl State {
    /// A fresh state of that setup, which takes any number next.
    ///
    /// # Errors
    ///
    /// 16 to 19 as [`Setup::check`].
    #[inline]
    pub fn fresh(setup: &Setup) -> Result<State, Refusal> {
        let mut words = [0; WORDS];
        match raw::fresh(setup.numbers(), &mut words) {
            sys::AHZ_DONE => Ok(State { words }),
            refusal => Err(Refusal::from_number(refusal)),
        }
    }

    /// The state that these words hold, as [`words`](State::words) gave them.
    ///
    /// # Errors
    ///
    /// 14 they hold none, [`Refusal::STATE`]: they are of another format, or not sound.
    #[inline]
    pub fn from_words(words: [u64; WORDS]) -> Result<State, Refusal> {
        let state = State { words };
        // The one call that asks whether a state is sound and changes nothing.
        state.latent_test().map(|_| state)
    }

    /// The words of the state, to be stored. The first says their format, which changes with their
    /// meaning.
    #[must_use]
    #[inline]
    pub fn words(&self) -> &[u64; WORDS] {
        &self.words
    }

    /// A packet, with the number that its [`Header`](crate::frame::Header) has, or without one.
    ///
    /// # Errors
    ///
    /// 14 the state is not sound, [`Refusal::STATE`].
    #[inline]
    pub fn hear(&mut self, number: Option<u16>) -> Result<Verdict, Refusal> {
        match number {
            Some(number) => self.numbered(number),
            None => self.tagless(),
        }
    }

    /// A packet with that number.
    ///
    /// # Errors
    ///
    /// 14 the state is not sound, [`Refusal::STATE`].
    #[inline]
    pub fn numbered(&mut self, number: u16) -> Result<Verdict, Refusal> {
        verdict(raw::numbered(&mut self.words, number))
    }

    /// A packet without a number.
    ///
    /// # Errors
    ///
    /// 14 the state is not sound, [`Refusal::STATE`].
    #[inline]
    pub fn tagless(&mut self) -> Result<Verdict, Refusal> {
        verdict(raw::tagless(&mut self.words))
    }

    /// A tick of the clock, which the program calls at the [`rate`](Setup::rate) of the setup.
    ///
    /// # Errors
    ///
    /// 14 the state is not sound, [`Refusal::STATE`].
    #[inline]
    pub fn tick(&mut self) -> Result<Ticked, Refusal> {
        match raw::tick(&mut self.words) {
            sys::AHZ_TICK => Ok(Ticked::Tick),
            sys::AHZ_RESET => Ok(Ticked::Reset),
            refusal => Err(Refusal::from_number(refusal)),
        }
    }

    /// Fresh again, but for counters, base and setup, and counted.
    ///
    /// # Errors
    ///
    /// 14 the state is not sound, [`Refusal::STATE`].
    #[inline]
    pub fn reset(&mut self) -> Result<(), Refusal> {
        done(raw::reset(&mut self.words))
    }

    /// Takes the figure of now as the base of the latent error test.
    ///
    /// # Errors
    ///
    /// 14 the state is not sound, [`Refusal::STATE`].
    #[inline]
    pub fn latent_reset(&mut self) -> Result<(), Refusal> {
        done(raw::latent_reset(&mut self.words))
    }

    /// The latent error test: whether passed x (paths - 1) - discarded is further from the base than
    /// the setup's [`difference`](Setup::difference).
    ///
    /// # Errors
    ///
    /// 14 the state is not sound, [`Refusal::STATE`].
    #[inline]
    pub fn latent_test(&self) -> Result<Latent, Refusal> {
        match raw::latent_test(&self.words) {
            sys::AHZ_LATENT_OK => Ok(Latent::Ok),
            sys::AHZ_LATENT_ERROR => Ok(Latent::Error),
            refusal => Err(Refusal::from_number(refusal)),
        }
    }
}

#[inline]
fn verdict(answer: u8) -> Result<Verdict, Refusal> {
    match answer {
        sys::AHZ_PASS => Ok(Verdict::Pass),
        sys::AHZ_DISCARD => Ok(Verdict::Discard),
        refusal => Err(Refusal::from_number(refusal)),
    }
}

#[inline]
fn done(answer: u8) -> Result<(), Refusal> {
    match answer {
        sys::AHZ_DONE => Ok(()),
        refusal => Err(Refusal::from_number(refusal)),
    }
}

/// What the state holds. The words of a sound state are within their fields, so that a narrower
/// number is the whole of its word.
impl State {
    /// The setup that it was made with.
    #[must_use]
    #[inline]
    pub fn setup(&self) -> Setup {
        Setup::of(&self.words)
    }

    /// The nine counters.
    #[must_use]
    #[inline]
    pub fn counters(&self) -> Counters {
        Counters {
            passed: self.words[sys::AHZ_S_PASSED],
            discarded: self.words[sys::AHZ_S_DISCARDED],
            order: self.words[sys::AHZ_S_ORDER],
            rogue: self.words[sys::AHZ_S_ROGUE],
            lost: self.words[sys::AHZ_S_LOST],
            tagless: self.words[sys::AHZ_S_TAGLESS],
            resets: self.words[sys::AHZ_S_RESETS],
            latent_resets: self.words[sys::AHZ_S_LATENT_RESETS],
            before_first: self.words[sys::AHZ_S_BEFORE_FIRST],
        }
    }

    /// The newest number; none where any is taken next.
    #[must_use]
    #[inline]
    pub fn newest(&self) -> Option<u16> {
        (!self.take_any()).then_some(self.words[sys::AHZ_S_NEWEST] as u16)
    }

    /// The marks of the window, 64 in a word: bit k % 64 of word k / 64 is set where the number k below the
    /// newest has passed. There are none under [`Rule::Match`](super::Rule::Match).
    #[must_use]
    #[inline]
    pub fn marks(&self) -> [u64; MARK_WORDS] {
        core::array::from_fn(|word| self.words[sys::AHZ_S_MARKS + word])
    }

    /// Mark k of the window: whether the number k below the newest has passed. From the history length on
    /// there is none.
    #[must_use]
    #[inline]
    pub fn mark(&self, k: usize) -> bool {
        self.marks().get(k / 64).is_some_and(|word| word >> (k % 64) & 1 == 1)
    }

    /// How far below the newest number the first one since the last reset stands in the window: 0 where
    /// it is the newest itself. None where the window has left it, where there was none yet, and under
    /// [`Rule::Match`](super::Rule::Match).
    #[must_use]
    #[inline]
    pub fn first_below(&self) -> Option<u16> {
        self.words[sys::AHZ_S_FIRST].checked_sub(1).map(|below| below as u16)
    }

    /// Whether any number is taken next, as in a fresh state and after a reset. The timer may run
    /// nevertheless: a packet without a number leaves this as it is, and restarts the timer where it
    /// passes or the use is [individual](super::Usage::Individual).
    #[must_use]
    #[inline]
    pub fn take_any(&self) -> bool {
        self.words[sys::AHZ_S_TAKE_ANY] == 1
    }

    /// After so many ticks without a packet that restarts the timer, a reset follows; with 0, none
    /// does. Which packets do, the setup's [`usage`](Setup::usage) says.
    #[must_use]
    #[inline]
    pub fn ticks_left(&self) -> Ticks {
        Ticks::counted(self.words[sys::AHZ_S_LEFT])
    }

    /// The base of the latent error test, modulo 2^64 and signed.
    #[must_use]
    #[inline]
    pub fn base(&self) -> i64 {
        self.words[sys::AHZ_S_BASE] as i64
    }
}

/// One number in binary, mark 0 its lowest bit.
struct Marks([u64; MARK_WORDS]);

impl fmt::Debug for Marks {
    fn fmt(&self, f: &mut fmt::Formatter) -> fmt::Result {
        let highest = self.0.iter().rposition(|&word| word != 0).unwrap_or(0);
        write!(f, "{:#b}", self.0[highest])?;
        self.0[..highest].iter().rev().try_for_each(|word| write!(f, "{word:064b}"))
    }
}

impl fmt::Debug for State {
    fn fmt(&self, f: &mut fmt::Formatter) -> fmt::Result {
        f.debug_struct("State")
            .field("setup", &self.setup())
            .field("newest", &self.newest())
            .field("marks", &Marks(self.marks()))
            .field("first_below", &self.first_below())
            .field("take_any", &self.take_any())
            .field("ticks_left", &self.ticks_left())
            .field("counters", &self.counters())
            .field("base", &self.base())
            .finish()
    }
}
