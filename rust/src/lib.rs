//! Finds passages that stand twice in a row in a text: a safe wrapper of the proved finder.
//!
//! A repetition has a start and a half of at least 1: the half bytes from the start on stand again
//! right behind themselves. A list has each repetition of a text once, in [`Block`]s.
//!
//! ```
//! # #[cfg(feature = "std")]
//! fn main() -> Result<(), porthwynna::Refusal> {
//!     for block in &porthwynna::find(b"go go go")? {
//!         println!("{} bytes stand twice at {:?}", block.half, block.starts());
//!     }
//!     Ok(())
//! }
//! # #[cfg(not(feature = "std"))]
//! # fn main() {}
//! ```
//!
//! - [`find`] lists all repetitions, [`longest`] gives the longest one, and [`is_free`] tells
//!   whether there is none. They allocate what they need.
//! - The module [`lent`] has these three for memory that the caller lends. [`room`] tells how many
//!   blocks it may have to take.
//! - [`stands`] tells whether a repetition stands at a place.
//! - [`version`] is the linked archive's.
//!
//! # Order
//!
//! A list's order follows the way the text is cut: first what crosses the cut in the middle, with
//! its second half beginning at the cut or after it, by rising half; then what else crosses it, by
//! rising half; then the left piece in the same way, and then the right piece. The left piece is
//! the longer one where the text has an odd number of bytes.
//!
//! # Cost
//!
//! A list, a longest repetition and a free test take time of the order of n log n for n bytes, the
//! free test as much as a list, and some 72 KB of stack. The other functions take little. [`find`]
//! allocates up to 1.5 MB besides the list that it gives. Several threads may call at the same
//! time.
//!
//! # Features
//!
//! `std`, which is on by default, brings the functions that allocate. Without it the package needs
//! `core` alone.
//!
//! # The archive
//!
//! The package links `libporthwynna.a`, for x86-64 Linux: the one that `rt lib`, run in the
//! repository's `crates/porthwynna`, has made in the folder `out` there, or the one in the folder
//! that the variable `PORTHWYNNA_LIB_DIR` names while cargo builds. A relative folder counts from
//! the package's own folder. The first call panics where the archive is of another version than
//! the package.
#![no_std]
#![deny(missing_docs)]
#![deny(unsafe_code)]
#![deny(unsafe_op_in_unsafe_fn)]
// The documentation is written for all features.
#![cfg_attr(not(feature = "std"), allow(rustdoc::broken_intra_doc_links))]

#[cfg(feature = "std")]
extern crate std;

#[allow(unsafe_code)]
mod call;
#[cfg(feature = "std")]
mod found;
pub mod lent;
mod refusal;
mod repetition;
pub mod sys;
mod version;

#[cfg(feature = "std")]
pub use found::{find, is_free, longest, Found};
pub use refusal::Refusal;
pub use repetition::{Block, Repetition};
pub use version::Version;

/// Bytes that a text may have.
pub const LENGTH_LIMIT: usize = 16_384;
/// Numbers of work space that a byte of the text needs.
pub const WORK_PER_BYTE: usize = 2;
/// Numbers of a report that a block takes.
pub const NUMBERS_PER_BLOCK: usize = 3;
/// Numbers of a report that has room for the list of any text.
pub const LARGEST_REPORT: usize = NUMBERS_PER_BLOCK * LENGTH_LIMIT * GREATEST_DEPTH;
/// Two to this power is the length limit.
const GREATEST_DEPTH: usize = 14;

/// The totals of a text's full list.
#[derive(Clone, Copy, Debug, PartialEq, Eq, Hash)]
pub struct Totals {
    /// Number of blocks.
    pub blocks: u32,
    /// Comparisons of one byte with another that the search took.
    pub comparisons: u32,
}

/// Tells whether the repetition with this start and half stands in the text; both may be any
/// numbers.
///
/// ```
/// use porthwynna::stands;
///
/// assert!(stands(b"abab", 0, 2)?);
/// assert!(!stands(b"abab", 1, 1)?);
/// assert!(stands(b"abab", 1, 2).is_err());
/// # Ok::<(), porthwynna::Refusal>(())
/// ```
///
/// # Errors
///
/// [`Refusal::TextTooLong`], and [`Refusal::NoSuchPlace`] where the half is 0 or start plus twice
/// the half is past the end of the text.
pub fn stands(text: &[u8], start: u64, half: u64) -> Result<bool, Refusal> {
    let mut answer = [0];
    match call::stands(text, start, half, &mut answer) {
        sys::DONE => Ok(answer != [0]),
        sys::TEXT_TOO_LONG => Err(Refusal::TextTooLong),
        sys::NO_SUCH_PLACE => Err(Refusal::NoSuchPlace),
        reply => call::unknown("stands", reply),
    }
}

/// Tells how many blocks a report must have room for, so that it takes the list of any text of n
/// bytes.
///
/// ```
/// use porthwynna::{room, LENGTH_LIMIT};
///
/// assert_eq!(room(4)?, 8);
/// assert!(room(LENGTH_LIMIT + 1).is_err());
/// # Ok::<(), porthwynna::Refusal>(())
/// ```
///
/// # Errors
///
/// [`Refusal::TextTooLong`] where n is over [`LENGTH_LIMIT`].
pub fn room(n: usize) -> Result<usize, Refusal> {
    let mut answer = [0];
    let reply = call::room(n, &mut answer);
    let [blocks] = answer;
    match reply {
        sys::DONE => Ok(blocks as usize),
        sys::TEXT_TOO_LONG => Err(Refusal::TextTooLong),
        _ => call::unknown("room", reply),
    }
}

/// The version of the archive that the package is linked with. It never panics.
///
/// ```
/// assert_eq!(porthwynna::version().to_string(), env!("CARGO_PKG_VERSION"));
/// ```
#[must_use]
pub fn version() -> Version {
    call::version()
}
