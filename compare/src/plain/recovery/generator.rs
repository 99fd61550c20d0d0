/// The next number to give. A value: a step hands back the number and the generator after it.
#[derive(Clone, Copy, Debug, Default, PartialEq, Eq)]
pub struct Generator {
    pub number: u16,
}

impl Generator {
    /// "Gives its number, then adds one, 65,535 going to 0."
    #[inline]
    #[must_use]
    pub fn next(self) -> (u16, Generator) {
        (self.number, Generator { number: self.number.wrapping_add(1) })
    }

    #[inline]
    #[must_use]
    pub fn reset(self) -> Generator {
        Generator { number: 0 }
    }
}
