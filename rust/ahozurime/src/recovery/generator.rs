use crate::raw;

/// The numbers of a stream that is sent, one after another, 65,535 followed by 0.
///
/// It is not `Copy`: two copies would give the same numbers.
///
/// ```
/// use ahozurime::recovery::Generator;
///
/// let mut generator = Generator::fresh();
/// assert_eq!((generator.generate(), generator.generate()), (0, 1));
///
/// // Stored by its number, and taken up again.
/// let mut generator = Generator::from_number(generator.number());
/// assert_eq!(generator.generate(), 2);
/// ```
#[derive(Clone, Debug, PartialEq, Eq, Hash)]
pub struct Generator {
    number: u16,
}

impl Generator {
    /// A generator whose first number is 0.
    #[must_use]
    #[inline]
    pub fn fresh() -> Generator {
        Generator { number: raw::generator() }
    }

    /// A generator that goes on with that number.
    #[must_use]
    #[inline]
    pub fn from_number(number: u16) -> Generator {
        Generator { number }
    }

    /// The number that comes next.
    #[must_use]
    #[inline]
    pub fn number(&self) -> u16 {
        self.number
    }

    /// Gives the number, and goes on to the next.
    #[must_use = "a number that is given and not sent is a gap"]
    #[inline]
    pub fn generate(&mut self) -> u16 {
        raw::generate(&mut self.number)
    }

    /// Sets it back to 0.
    #[inline]
    pub fn reset(&mut self) {
        raw::generator_reset(&mut self.number);
    }
}

impl Default for Generator {
    fn default() -> Generator {
        Generator::fresh()
    }
}
