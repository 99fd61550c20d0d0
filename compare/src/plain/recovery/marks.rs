//! "H marks (mark 0 is the newest)", in as many words as the longest history has. Most histories are
//! in one word, for which what every step asks has a shorter way. No index here can be out of range, so a
//! step has all of it inlined and needs no stack.

use super::setup::LONGEST_HISTORY;

const BITS: u16 = u64::BITS as u16;
const WORDS: usize = (LONGEST_HISTORY / BITS) as usize;

/// Mark i, for the place i below the newest, is bit i % 64 of word i / 64.
#[derive(Clone, Copy, Debug, PartialEq, Eq)]
pub struct Marks(pub [u64; WORDS]);

/// The word of a mark, and its bit there.
#[inline]
fn at(mark: u16) -> (usize, u16) {
    ((mark / BITS).into(), mark % BITS)
}

impl Marks {
    pub const NONE: Marks = Marks([0; WORDS]);

    /// Whether the mark is set, which none beyond the last is.
    #[inline]
    pub fn is_set(&self, mark: u16) -> bool {
        let (word, bit) = at(mark);
        self.0.get(word).is_some_and(|word| word >> bit & 1 == 1)
    }

    /// Sets a mark, if there is one of that number.
    #[inline]
    pub fn set(&mut self, mark: u16) {
        let (word, bit) = at(mark);
        if let Some(word) = self.0.get_mut(word) {
            *word |= 1 << bit;
        }
    }

    /// Whether none is set at H or above. Every step asks it.
    #[inline(always)]
    pub fn are_within(&self, history: u16) -> bool {
        let [word, later @ ..] = &self.0;
        if history <= BITS {
            let above = word.checked_shr(history.into()).unwrap_or(0);
            return above == 0 && *later == [0; WORDS - 1];
        }
        let (word, bit) = at(history);
        match self.0.get(word..) {
            Some([word, later @ ..]) => word >> bit == 0 && later.iter().all(|&word| word == 0),
            _ => true,
        }
    }

    /// How many are set from that one on.
    #[inline]
    pub fn count_from(&self, mark: u16) -> u32 {
        let (word, bit) = at(mark);
        match self.0.get(word..) {
            Some([word, later @ ..]) => {
                let later: u32 = later.iter().map(|word| word.count_ones()).sum();
                (word >> bit).count_ones() + later
            }
            _ => 0,
        }
    }

    /// Moves the marks of a history by d places, 0 < d < H, and tells how many have left that were
    /// set. Those that leave are the highest d of the H.
    #[inline]
    pub fn slide(&mut self, history: u16, d: u16) -> u32 {
        let stays = history - d;
        if history <= BITS {
            let word = self.0[0];
            self.0[0] = word << d & u64::MAX >> (BITS - history);
            (word >> stays).count_ones()
        } else {
            let left = self.clear_from(stays);
            self.shift(d);
            left
        }
    }

    /// Clears all from that one on, and tells how many were set.
    #[inline]
    fn clear_from(&mut self, mark: u16) -> u32 {
        let (word, bit) = at(mark);
        let (mut bits, mut left) = (u64::MAX << bit, 0);
        for word in self.0.iter_mut().skip(word) {
            left += (*word & bits).count_ones();
            *word &= !bits;
            bits = u64::MAX;
        }
        left
    }

    /// Whole words first, by moves that are each of one length, then what is left.
    #[inline]
    fn shift(&mut self, d: u16) {
        let words = &mut self.0;
        let (whole, bits) = at(d);
        for step in [4, 2, 1] {
            if whole & step != 0 {
                words.copy_within(..WORDS - step, step);
                words[..step].fill(0);
            }
        }
        for word in (1..WORDS).rev() {
            // In two shifts, since there may be no bit to carry.
            let carried = words[word - 1] >> 1 >> (BITS - 1 - bits);
            words[word] = words[word] << bits | carried;
        }
        words[0] <<= bits;
    }
}

/// Those marks, and no other.
impl FromIterator<u16> for Marks {
    fn from_iter<T: IntoIterator<Item = u16>>(set: T) -> Marks {
        let mut marks = Marks::NONE;
        set.into_iter().for_each(|mark| marks.set(mark));
        marks
    }
}
