//! Repeatable random numbers for tests and measurements. No dependency, and the same list on every
//! machine: a failing case can be named by its seed alone.

/// The seed that every test starts from, printed beside its count of cases.
pub const SEED: u64 = 0x5EED_AB0A_2017_0CB1;

/// SplitMix64: one addition and three mixing steps; every seed is a good one, 0 included.
#[derive(Clone, Debug)]
pub struct Random(u64);

impl Random {
    pub fn new(seed: u64) -> Self {
        Random(seed)
    }

    pub fn next_u64(&mut self) -> u64 {
        self.0 = self.0.wrapping_add(0x9E37_79B9_7F4A_7C15);
        let mut z = self.0;
        z = (z ^ (z >> 30)).wrapping_mul(0xBF58_476D_1CE4_E5B9);
        z = (z ^ (z >> 27)).wrapping_mul(0x94D0_49BB_1331_11EB);
        z ^ (z >> 31)
    }

    /// A number from 0 to `bound - 1`; 0 where the bound is 0. The bias is below 2^-32 for the
    /// small bounds of a test.
    pub fn below(&mut self, bound: u64) -> u64 {
        ((u128::from(self.next_u64()) * u128::from(bound)) >> 64) as u64
    }

    /// A number from `low` to `high`, both included.
    pub fn between(&mut self, low: i64, high: i64) -> i64 {
        low + self.below((high - low + 1) as u64) as i64
    }

    /// True once in `times`.
    pub fn once_in(&mut self, times: u64) -> bool {
        self.below(times) == 0
    }

    pub fn octet(&mut self) -> u8 {
        self.next_u64() as u8
    }

    pub fn number(&mut self) -> u16 {
        self.next_u64() as u16
    }

    pub fn fill(&mut self, octets: &mut [u8]) {
        octets.fill_with(|| self.octet());
    }

    pub fn pick<T: Copy>(&mut self, from: &[T]) -> T {
        from[self.below(from.len() as u64) as usize]
    }
}
