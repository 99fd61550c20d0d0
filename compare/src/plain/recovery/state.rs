use super::marks::Marks;
use super::setup::{Setup, Ticks, VECTOR};

pub(super) const NEWEST_AT_RESET: u16 = u16::MAX;

/// What became of a packet.
#[derive(Clone, Copy, Debug, PartialEq, Eq)]
pub enum Verdict {
    Pass,
    Discard,
}

/// "Eight 64-bit counters that wrap", and "a ninth counter, before-first".
#[derive(Clone, Copy, Debug, Default, PartialEq, Eq)]
pub struct Counters {
    pub passed: u64,
    pub discarded: u64,
    pub order: u64,
    pub rogue: u64,
    pub lost: u64,
    pub tagless: u64,
    pub resets: u64,
    pub latent_resets: u64,
    /// Those of `lost` "below the first packet's place".
    pub before_first: u64,
}

/// A recovery state. Any values may be handed in; a step refuses 14 where they are not sound.
#[derive(Clone, Copy, Debug, PartialEq, Eq)]
pub struct State {
    pub setup: Setup,
    pub newest: u16,
    pub marks: Marks,
    /// The mark of the first packet's place, while the window still has it.
    pub first: Option<u16>,
    pub take_any: bool,
    pub ticks_left: Ticks,
    pub counters: Counters,
    /// The latent base.
    pub base: i64,
}

impl State {
    /// The setup is handed in by itself, so it is refused by its own numbers.
    #[inline]
    pub fn fresh(setup: Setup) -> Result<State, u8> {
        setup.check()?;
        Ok(State {
            setup,
            newest: NEWEST_AT_RESET,
            marks: Marks::NONE,
            first: None,
            take_any: true,
            ticks_left: Ticks(0),
            counters: Counters::default(),
            base: 0,
        })
    }

    /// The paragraph "Sound state", and "a first place kept as still in the window has its mark set,
    /// and take-any and match keep none". Under take-any the ticks may still run: a packet without a
    /// number has set them, one that passed or, in individual use, one that was discarded. Every step
    /// asks this first.
    #[inline(always)]
    pub fn is_sound(&self) -> bool {
        if self.setup.check().is_err() || self.ticks_left > self.setup.full_ticks() {
            return false;
        }
        if self.take_any {
            self.newest == NEWEST_AT_RESET && self.marks == Marks::NONE && self.first.is_none()
        } else {
            self.ticks_left >= Ticks(1)
                && match self.setup.rule {
                    VECTOR => {
                        self.marks.is_set(0)
                            && self.marks.are_within(self.setup.history)
                            && self.first.is_none_or(|first| self.marks.is_set(first))
                    }
                    _ => self.marks == Marks::NONE && self.first.is_none(),
                }
        }
    }

    #[inline]
    pub(super) fn check(&self) -> Result<(), u8> {
        if self.is_sound() {
            Ok(())
        } else {
            Err(14)
        }
    }

    /// One packet with its number, or without one.
    #[inline]
    pub fn packet(mut self, number: Option<u16>) -> Result<(State, Verdict), u8> {
        let verdict = self.packet_in_place(number)?;
        Ok((self, verdict))
    }

    /// One tick, and whether it timed out.
    #[inline]
    pub fn tick(mut self) -> Result<(State, bool), u8> {
        let timed_out = self.tick_in_place()?;
        Ok((self, timed_out))
    }

    #[inline]
    pub fn reset(mut self) -> Result<State, u8> {
        self.reset_in_place()?;
        Ok(self)
    }

    #[inline]
    pub fn latent_reset(mut self) -> Result<State, u8> {
        self.latent_reset_in_place()?;
        Ok(self)
    }
}
