use crate::raw;

/// The version of a layer: two of the same major are alike but for what the later minor adds.
#[derive(Clone, Copy, Debug, PartialEq, Eq, PartialOrd, Ord, Hash)]
pub struct Version {
    /// Goes up where a program written for an older layer could go wrong; the words of a stored state
    /// are among what it speaks for.
    pub major: u16,
    /// Goes up where something is only added.
    pub minor: u16,
}

impl Version {
    /// The version that this package is written for.
    pub const OF_THIS_PACKAGE: Version = Version::of(ahozurime_sys::AHZ_VERSION);

    /// Whether an archive of this version fits what is written for the other: its major is the same,
    /// and its minor not less.
    #[must_use]
    pub const fn fits(self, written_for: Version) -> bool {
        self.major == written_for.major && self.minor >= written_for.minor
    }

    /// Both halves of the number that the layer has for a version.
    const fn of(number: u32) -> Version {
        Version { major: (number >> 16) as u16, minor: number as u16 }
    }
}

/// The version of the archive that is linked.
///
/// ```
/// use ahozurime::{version, Version};
///
/// assert!(version().fits(Version::OF_THIS_PACKAGE));
/// ```
#[must_use]
#[inline]
pub fn version() -> Version {
    Version::of(raw::version())
}
