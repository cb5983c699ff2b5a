//! The refusals, one type for all functions.

use crate::{sys, Totals, LENGTH_LIMIT};
use core::error::Error;
use core::fmt;

/// Why a question is not answered. The refusals are tried in this order.
///
/// ```
/// use porthwynna::{room, LENGTH_LIMIT};
/// use std::error::Error;
///
/// fn numbers_of_a_report(n: usize) -> Result<usize, Box<dyn Error>> {
///     Ok(3 * room(n)?)
/// }
///
/// let refusal = numbers_of_a_report(LENGTH_LIMIT + 1).unwrap_err();
/// assert_eq!(refusal.to_string(), "the text has more than 16384 bytes");
/// ```
#[derive(Clone, Copy, Debug, PartialEq, Eq, Hash)]
#[non_exhaustive]
pub enum Refusal {
    /// The text has more than [`LENGTH_LIMIT`] bytes.
    TextTooLong,
    /// The work space has fewer than [`WORK_PER_BYTE`](crate::WORK_PER_BYTE) numbers for each byte
    /// of the text.
    WorkTooShort,
    /// There are more blocks than the report has room for. It holds the leading ones that fit,
    /// which [`lent::blocks`](crate::lent::blocks) reads.
    #[non_exhaustive]
    Full {
        /// The totals of the full list.
        totals: Totals,
    },
    /// The half is 0, or start plus twice the half is past the end of the text.
    NoSuchPlace,
}

impl Refusal {
    /// The number that the library gives for this refusal: 1 to 4, in the order above.
    ///
    /// ```
    /// use porthwynna::{stands, sys, Refusal};
    ///
    /// let refusal = stands(b"abab", 1, 2).unwrap_err();
    /// assert_eq!(refusal, Refusal::NoSuchPlace);
    /// assert_eq!(refusal.number(), sys::NO_SUCH_PLACE);
    /// ```
    #[must_use]
    pub fn number(&self) -> u32 {
        match self {
            Self::TextTooLong => sys::TEXT_TOO_LONG,
            Self::WorkTooShort => sys::WORK_TOO_SHORT,
            Self::Full { .. } => sys::FULL,
            Self::NoSuchPlace => sys::NO_SUCH_PLACE,
        }
    }
}

impl fmt::Display for Refusal {
    fn fmt(&self, f: &mut fmt::Formatter<'_>) -> fmt::Result {
        match self {
            Self::TextTooLong => write!(f, "the text has more than {LENGTH_LIMIT} bytes"),
            Self::WorkTooShort => {
                f.write_str("the work space has fewer than two numbers for each byte of the text")
            }
            Self::Full { totals } => {
                let blocks = totals.blocks;
                let plural = if blocks == 1 { "" } else { "s" };
                write!(
                    f,
                    "the list has {blocks} block{plural}, more than the report has room for"
                )
            }
            Self::NoSuchPlace => {
                f.write_str("the half is 0, or its two copies go past the end of the text")
            }
        }
    }
}

impl Error for Refusal {}
