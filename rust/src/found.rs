//! The functions that allocate what they need, and the list that one of them gives.

use crate::{lent, room, Block, Refusal, Repetition, NUMBERS_PER_BLOCK, WORK_PER_BYTE};
use std::vec::Vec;
use std::{slice, vec};

/// The full list of a text, in memory of its own. [`find`] makes it.
#[derive(Clone, Debug, PartialEq, Eq, Hash)]
#[non_exhaustive]
pub struct Found {
    /// The blocks in the order of the list.
    pub blocks: Vec<Block>,
    /// Comparisons of one byte with another that the search took.
    pub comparisons: u32,
}

impl Found {
    /// The blocks in the order of the list.
    ///
    /// ```
    /// let found = porthwynna::find(b"go go go")?;
    /// assert!(found.iter().all(|block| block.half == 3));
    /// # Ok::<(), porthwynna::Refusal>(())
    /// ```
    pub fn iter(&self) -> slice::Iter<'_, Block> {
        self.blocks.iter()
    }
}

impl IntoIterator for Found {
    type Item = Block;
    type IntoIter = vec::IntoIter<Block>;

    fn into_iter(self) -> Self::IntoIter {
        self.blocks.into_iter()
    }
}

impl<'a> IntoIterator for &'a Found {
    type Item = &'a Block;
    type IntoIter = slice::Iter<'a, Block>;

    fn into_iter(self) -> Self::IntoIter {
        self.iter()
    }
}

/// Lists all repetitions of the text. With the feature `std`.
///
/// ```
/// let found = porthwynna::find(b"go go go")?;
/// for block in &found {
///     println!("{} bytes stand twice at {:?}", block.half, block.starts());
/// }
/// assert_eq!(found.blocks.len(), 2);
/// assert_eq!(found.comparisons, 34);
/// # Ok::<(), porthwynna::Refusal>(())
/// ```
///
/// # Errors
///
/// [`Refusal::TextTooLong`] alone.
pub fn find(text: &[u8]) -> Result<Found, Refusal> {
    let mut work = work_for(text)?;
    let mut report = vec![0; NUMBERS_PER_BLOCK * room(text.len())?];
    let totals = granted(lent::list(text, &mut work, &mut report));
    Ok(Found {
        blocks: lent::blocks(&report, totals).collect(),
        comparisons: totals.comparisons,
    })
}

/// Tells whether the text has no repetition. It costs a whole list. With the feature `std`.
///
/// ```
/// assert!(porthwynna::is_free(b"abacab")?);
/// assert!(!porthwynna::is_free(b"abacca")?);
/// # Ok::<(), porthwynna::Refusal>(())
/// ```
///
/// # Errors
///
/// [`Refusal::TextTooLong`] alone.
pub fn is_free(text: &[u8]) -> Result<bool, Refusal> {
    let mut work = work_for(text)?;
    Ok(granted(lent::is_free(text, &mut work)))
}

/// Finds the longest repetition, if there is any: the one with the greatest half, and among equals
/// the first start of the block that the list has first. With the feature `std`.
///
/// ```
/// let longest = porthwynna::longest(b"go go go")?;
/// assert!(longest.is_some_and(|it| (it.start, it.half) == (1, 3)));
/// assert!(porthwynna::longest(b"go")?.is_none());
/// # Ok::<(), porthwynna::Refusal>(())
/// ```
///
/// # Errors
///
/// [`Refusal::TextTooLong`] alone.
pub fn longest(text: &[u8]) -> Result<Option<Repetition>, Refusal> {
    let mut work = work_for(text)?;
    Ok(granted(lent::longest(text, &mut work)))
}

/// Work space for the text. A text that is too long is refused before memory is taken for it.
fn work_for(text: &[u8]) -> Result<Vec<u16>, Refusal> {
    room(text.len())?;
    Ok(vec![0; WORK_PER_BYTE * text.len()])
}

/// The answer of a call that had work space and room.
fn granted<T>(reply: Result<T, Refusal>) -> T {
    reply.unwrap_or_else(|refusal| {
        unreachable!("the library refused a call that had work space and room: {refusal}")
    })
}
