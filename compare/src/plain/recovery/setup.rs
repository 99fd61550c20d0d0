pub const VECTOR: u8 = 0;
pub const MATCH: u8 = 1;
pub const SEQUENCE: u8 = 0;
pub const INDIVIDUAL: u8 = 1;
pub const SHORTEST_HISTORY: u16 = 2;
pub const LONGEST_HISTORY: u16 = 512;

/// A span of time. Milliseconds were once loaded as ticks; only `full_ticks` turns one into the
/// other.
#[derive(Clone, Copy, Debug, PartialEq, Eq, PartialOrd, Ord)]
pub struct Milliseconds(pub u32);

/// A count of calls of `tick`. Wide enough for every product of the field widths, so that the
/// conversion is total.
#[derive(Clone, Copy, Debug, PartialEq, Eq, PartialOrd, Ord)]
pub struct Ticks(pub u64);

/// "Full ticks = ms x ticks per second / 1000, rounded up." Every step asks for them.
#[inline]
#[allow(clippy::manual_div_ceil, reason = "`div_ceil` takes the remainder too")]
pub fn full_ticks(timeout: Milliseconds, ticks_per_second: u16) -> Ticks {
    Ticks((u64::from(timeout.0) * u64::from(ticks_per_second) + 999) / 1000)
}

/// A setup as it is handed in: the fields have the tape's widths and hold any value.
#[derive(Clone, Copy, Debug, PartialEq, Eq)]
pub struct Setup {
    /// 0 vector, 1 match.
    pub rule: u8,
    /// Whether packets without a number are taken: 0 or 1.
    pub taken: u8,
    /// The use: 0 sequence, 1 individual.
    pub usage: u8,
    /// H, the history length.
    pub history: u16,
    pub timeout: Milliseconds,
    pub ticks_per_second: u16,
    pub paths: u8,
    /// The latent difference; no value is out of range.
    pub difference: u32,
}

impl Setup {
    /// "A setup is checked 15, 27, 16 to 19"; 27 for taken, and for the use behind it; H under match
    /// too (*house*).
    #[inline]
    pub fn check(&self) -> Result<(), u8> {
        if self.rule > MATCH {
            return Err(15);
        }
        if self.taken > 1 || self.usage > INDIVIDUAL {
            return Err(27);
        }
        if !(SHORTEST_HISTORY..=LONGEST_HISTORY).contains(&self.history) {
            return Err(16);
        }
        if !(1..=3_600_000).contains(&self.timeout.0) {
            return Err(17);
        }
        if !(1..=10_000).contains(&self.ticks_per_second) {
            return Err(18);
        }
        if !(2..=8).contains(&self.paths) {
            return Err(19);
        }
        Ok(())
    }

    #[inline]
    pub fn full_ticks(&self) -> Ticks {
        full_ticks(self.timeout, self.ticks_per_second)
    }
}
