use crate::raw;

/// A span of time, as a setup has its timeout. Ticks come of it at a rate, and in no other way.
///
/// ```
/// use ahozurime::{Milliseconds, TicksPerSecond};
///
/// let full = Milliseconds(11).ticks(TicksPerSecond(100));
/// assert_eq!(full.count(), 2); // rounded up
/// ```
///
/// The two factors are types of their own:
///
/// ```compile_fail,E0308
/// use ahozurime::{Milliseconds, TicksPerSecond};
///
/// let full = Milliseconds(11).ticks(Milliseconds(100));
/// ```
#[derive(Clone, Copy, Debug, PartialEq, Eq, PartialOrd, Ord, Hash)]
pub struct Milliseconds(pub u32);

impl Milliseconds {
    /// Full ticks of this timeout: milliseconds x ticks per second / 1000, rounded up. Any two
    /// numbers have an answer.
    #[must_use]
    #[inline]
    pub fn ticks(self, rate: TicksPerSecond) -> Ticks {
        Ticks::counted(raw::ticks(self.0, rate.0))
    }
}

/// How often a program ticks.
#[derive(Clone, Copy, Debug, PartialEq, Eq, PartialOrd, Ord, Hash)]
pub struct TicksPerSecond(pub u16);

/// A count of ticks. It comes from [`Milliseconds::ticks`] or from a state's
/// [`ticks_left`](crate::recovery::State::ticks_left), and a number cannot be made one:
///
/// ```compile_fail,E0423
/// use ahozurime::{Milliseconds, Ticks};
///
/// let full = Ticks(Milliseconds(100).0.into());
/// ```
#[derive(Clone, Copy, Debug, PartialEq, Eq, PartialOrd, Ord, Hash)]
pub struct Ticks(u64);

impl Ticks {
    #[inline]
    pub(crate) fn counted(count: u64) -> Ticks {
        Ticks(count)
    }

    /// How many.
    #[must_use]
    #[inline]
    pub fn count(self) -> u64 {
        self.0
    }
}

/// What a charge gauge reads, before a calibration.
///
/// It is no voltage, and is not taken for one:
///
/// ```compile_fail,E0308
/// use ahozurime::{Millivolts, RawCode};
///
/// let charge: Millivolts = RawCode(10);
/// ```
#[derive(Clone, Copy, Debug, PartialEq, Eq, PartialOrd, Ord, Hash)]
pub struct RawCode(pub u16);

/// A voltage as a card has it.
#[derive(Clone, Copy, Debug, PartialEq, Eq, PartialOrd, Ord, Hash)]
pub struct Millivolts(pub u16);

/// How many blocks a flush order asks for.
#[derive(Clone, Copy, Debug, PartialEq, Eq, PartialOrd, Ord, Hash)]
pub struct Blocks(pub u32);

/// A voltage that was read.
#[derive(Clone, Copy, Debug, PartialEq, PartialOrd)]
pub struct Volts(pub f64);
