//! The steps themselves, on a state that stays where it is: what a head with many streams would
//! call. `State::packet` and its kin take a value and hand the next one back, and are one line over
//! these. Each checks the state and then makes its step; a refusal comes before the first change, so
//! a refused state keeps its values. The steps without their check are for a state that is known to
//! be sound.

use super::marks::Marks;
use super::setup::{Ticks, INDIVIDUAL, MATCH, VECTOR};
use super::state::{State, Verdict, NEWEST_AT_RESET};

fn add(counter: &mut u64, more: u64) {
    *counter = counter.wrapping_add(more);
}

fn count(counter: &mut u64) {
    add(counter, 1);
}

impl State {
    /// One packet with its number, or without one.
    #[inline]
    pub fn packet_in_place(&mut self, number: Option<u16>) -> Result<Verdict, u8> {
        self.check()?;
        Ok(self.hear(number))
    }

    #[inline]
    pub(in crate::plain) fn hear(&mut self, number: Option<u16>) -> Verdict {
        let verdict = match number {
            None => self.tagless(),
            Some(number) if self.take_any => self.begin(number),
            Some(number) if self.setup.rule == MATCH => self.by_match(number),
            Some(number) => self.by_vector(number),
        };
        match verdict {
            Verdict::Pass => count(&mut self.counters.passed),
            Verdict::Discard => count(&mut self.counters.discarded),
        }
        // The timer's whole rule: a passed packet restarts it, "in individual use a discarded packet
        // also", and either may be without a number.
        if verdict == Verdict::Pass || self.setup.usage == INDIVIDUAL {
            self.ticks_left = self.setup.full_ticks();
        }
        verdict
    }

    fn tagless(&mut self) -> Verdict {
        count(&mut self.counters.tagless);
        if self.setup.taken == 1 {
            Verdict::Pass
        } else {
            Verdict::Discard
        }
    }

    fn begin(&mut self, number: u16) -> Verdict {
        self.newest = number;
        if self.setup.rule == VECTOR {
            self.marks.set(0);
            self.first = Some(0);
        }
        self.take_any = false;
        Verdict::Pass
    }

    fn by_match(&mut self, number: u16) -> Verdict {
        if number == self.newest {
            return Verdict::Discard;
        }
        if number != self.newest.wrapping_add(1) {
            count(&mut self.counters.order);
        }
        self.newest = number;
        Verdict::Pass
    }

    #[inline]
    fn by_vector(&mut self, number: u16) -> Verdict {
        // The cast reads the difference modulo 65,536 as -32,768 to 32,767.
        let d = number.wrapping_sub(self.newest) as i16;
        let far = d.unsigned_abs();
        if far >= self.setup.history {
            count(&mut self.counters.rogue);
            return Verdict::Discard;
        }
        if d <= 0 {
            return self.late(far);
        }
        if d != 1 {
            count(&mut self.counters.order);
        }
        self.slide(far);
        self.newest = number;
        Verdict::Pass
    }

    fn late(&mut self, below: u16) -> Verdict {
        if self.marks.is_set(below) {
            return Verdict::Discard;
        }
        self.marks.set(below);
        count(&mut self.counters.order);
        Verdict::Pass
    }

    /// Moves the marks d places, 0 < d < H, and the first place with them. No mark that enters on the
    /// way can leave, so the clear ones among those that leave are what single moves count.
    #[inline]
    fn slide(&mut self, d: u16) {
        let stays = self.setup.history - d;
        if let Some(first) = self.first.filter(|&first| first >= stays) {
            // The first place leaves too, and is none of the clear ones: its mark is set.
            let below = self.clear_from(first);
            add(&mut self.counters.before_first, below);
            self.first = None;
        }
        let lost = u64::from(d) - u64::from(self.marks.slide(self.setup.history, d));
        self.marks.set(0);
        add(&mut self.counters.lost, lost);
        if let Some(first) = &mut self.first {
            // It stays, so all that leave are below it.
            add(&mut self.counters.before_first, lost);
            *first += d;
        }
    }

    /// How many marks are clear from that one on, up to the last of the H.
    #[inline]
    fn clear_from(&self, mark: u16) -> u64 {
        u64::from(self.setup.history - mark) - u64::from(self.marks.count_from(mark))
    }

    /// One tick, and whether it timed out.
    #[inline]
    pub fn tick_in_place(&mut self) -> Result<bool, u8> {
        self.check()?;
        Ok(self.count_down())
    }

    /// "From 1 it becomes 0 and a reset follows."
    #[inline]
    pub(in crate::plain) fn count_down(&mut self) -> bool {
        let timed_out = self.ticks_left == Ticks(1);
        if timed_out {
            self.clear();
        } else {
            self.ticks_left = Ticks(self.ticks_left.0.saturating_sub(1));
        }
        timed_out
    }

    #[inline]
    pub fn reset_in_place(&mut self) -> Result<(), u8> {
        self.check()?;
        self.clear();
        Ok(())
    }

    /// Fresh again, but "keeps counters, base and setup, and adds 1 to resets".
    #[inline]
    pub(in crate::plain) fn clear(&mut self) {
        self.newest = NEWEST_AT_RESET;
        self.marks = Marks::NONE;
        self.first = None;
        self.take_any = true;
        self.ticks_left = Ticks(0);
        count(&mut self.counters.resets);
    }

    #[inline]
    pub fn latent_reset_in_place(&mut self) -> Result<(), u8> {
        self.check()?;
        self.rebase();
        Ok(())
    }

    #[inline]
    pub(in crate::plain) fn rebase(&mut self) {
        self.base = self.latent_figure();
        count(&mut self.counters.latent_resets);
    }

    /// "Passed x (paths - 1) - discarded modulo 2^64, signed."
    #[inline]
    fn latent_figure(&self) -> i64 {
        let others = u64::from(self.setup.paths) - 1;
        let expected = self.counters.passed.wrapping_mul(others);
        expected.wrapping_sub(self.counters.discarded) as i64
    }

    /// True for a latent error.
    #[inline]
    pub fn latent_test(&self) -> Result<bool, u8> {
        self.check()?;
        Ok(self.is_latent_error())
    }

    /// The absolute value is unsigned: that of -2^63 is 2^63.
    #[inline]
    pub(in crate::plain) fn is_latent_error(&self) -> bool {
        let away = self.base.wrapping_sub(self.latent_figure()).unsigned_abs();
        away > u64::from(self.setup.difference)
    }
}
