//! Versions: of this package, and of the archive that it is linked with.

use core::fmt;

/// A version of the library. Versions are ordered as usual; [`version`](crate::version) gives one.
///
/// ```
/// let version = porthwynna::version();
/// assert_eq!(version.to_string(), env!("CARGO_PKG_VERSION"));
/// assert_eq!(version.major, 0);
/// ```
#[derive(Clone, Copy, Debug, PartialEq, Eq, PartialOrd, Ord, Hash)]
#[non_exhaustive]
pub struct Version {
    /// The first number.
    pub major: u32,
    /// The second number.
    pub minor: u32,
    /// The third number.
    pub patch: u32,
}

impl Version {
    /// The version of this package.
    pub(crate) const PACKAGE: Self = Self {
        major: number(env!("CARGO_PKG_VERSION_MAJOR")),
        minor: number(env!("CARGO_PKG_VERSION_MINOR")),
        patch: number(env!("CARGO_PKG_VERSION_PATCH")),
    };

    /// The version that the library gives as one number.
    pub(crate) fn from_number(number: u32) -> Self {
        Self {
            major: number / 10_000,
            minor: number / 100 % 100,
            patch: number % 100,
        }
    }
}

impl fmt::Display for Version {
    fn fmt(&self, f: &mut fmt::Formatter<'_>) -> fmt::Result {
        write!(f, "{}.{}.{}", self.major, self.minor, self.patch)
    }
}

/// The number that these decimal digits are.
const fn number(digits: &str) -> u32 {
    let digits = digits.as_bytes();
    let (mut number, mut place) = (0, 0);
    while place < digits.len() {
        number = 10 * number + (digits[place] - b'0') as u32;
        place += 1;
    }
    number
}
