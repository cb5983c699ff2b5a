//! The functions that work in memory that the caller lends: they allocate nothing.
//!
//! The work space needs [`WORK_PER_BYTE`](crate::WORK_PER_BYTE) numbers for each byte of the text.
//! As many are 0 after a call, and the rest of it is as before. Where text or work space is refused
//! no lent memory is changed.

use crate::{call, sys, Block, Refusal, Repetition, Totals, NUMBERS_PER_BLOCK};
use core::iter::FusedIterator;
use core::slice::ChunksExact;

/// Lists all repetitions of the text, as blocks in the report, which [`blocks`] reads.
///
/// [`room`](crate::room) tells how many blocks a report must have room for, at
/// [`NUMBERS_PER_BLOCK`] numbers each. Numbers of the report that no block takes stay as they are.
///
/// ```
/// use porthwynna::{lent, Refusal};
///
/// let mut work = [0; 8];
/// let mut report = [0; 12];
/// let totals = lent::list(b"aaaa", &mut work, &mut report)?;
/// assert_eq!((totals.blocks, totals.comparisons), (4, 10));
/// assert_eq!(report, [1, 1, 1, 2, 0, 0, 1, 0, 0, 1, 2, 2]);
///
/// let short = lent::list(b"aaaa", &mut work, &mut report[..7]);
/// assert!(matches!(short, Err(Refusal::Full { totals, .. }) if totals.blocks == 4));
/// # Ok::<(), Refusal>(())
/// ```
///
/// # Errors
///
/// [`Refusal::TextTooLong`], [`Refusal::WorkTooShort`], and [`Refusal::Full`] with the totals of
/// the full list: the report then holds the leading blocks that fit.
pub fn list(text: &[u8], work: &mut [u16], report: &mut [u16]) -> Result<Totals, Refusal> {
    let mut answer = [0; 2];
    let reply = call::list(text, work, report, &mut answer);
    let [blocks, comparisons] = answer;
    let totals = Totals {
        blocks,
        comparisons,
    };
    match reply {
        sys::DONE => Ok(totals),
        sys::FULL => Err(Refusal::Full { totals }),
        sys::TEXT_TOO_LONG => Err(Refusal::TextTooLong),
        sys::WORK_TOO_SHORT => Err(Refusal::WorkTooShort),
        _ => call::unknown("list", reply),
    }
}

/// Tells whether the text has no repetition. It costs a whole list.
///
/// ```
/// use porthwynna::lent;
///
/// let mut work = [0; 12];
/// assert!(lent::is_free(b"abacab", &mut work)?);
/// assert!(!lent::is_free(b"abacca", &mut work)?);
/// # Ok::<(), porthwynna::Refusal>(())
/// ```
///
/// # Errors
///
/// [`Refusal::TextTooLong`] and [`Refusal::WorkTooShort`].
pub fn is_free(text: &[u8], work: &mut [u16]) -> Result<bool, Refusal> {
    let mut answer = [0];
    match call::is_free(text, work, &mut answer) {
        sys::DONE => Ok(answer != [0]),
        sys::TEXT_TOO_LONG => Err(Refusal::TextTooLong),
        sys::WORK_TOO_SHORT => Err(Refusal::WorkTooShort),
        reply => call::unknown("is_free", reply),
    }
}

/// Finds the longest repetition, if there is any: the one with the greatest half, and among equals
/// the first start of the block that the list has first.
///
/// ```
/// use porthwynna::lent;
///
/// let mut work = [0; 16];
/// let longest = lent::longest(b"go go go", &mut work)?;
/// assert!(longest.is_some_and(|it| (it.start, it.half) == (1, 3)));
/// assert!(lent::longest(b"go", &mut work)?.is_none());
/// # Ok::<(), porthwynna::Refusal>(())
/// ```
///
/// # Errors
///
/// [`Refusal::TextTooLong`] and [`Refusal::WorkTooShort`].
pub fn longest(text: &[u8], work: &mut [u16]) -> Result<Option<Repetition>, Refusal> {
    let mut answer = [0; 2];
    let reply = call::longest(text, work, &mut answer);
    match (reply, answer.map(|number| number as usize)) {
        (sys::DONE, [_, 0]) => Ok(None),
        (sys::DONE, [start, half]) => Ok(Some(Repetition { start, half })),
        (sys::TEXT_TOO_LONG, _) => Err(Refusal::TextTooLong),
        (sys::WORK_TOO_SHORT, _) => Err(Refusal::WorkTooShort),
        _ => call::unknown("longest", reply),
    }
}

/// Reads the blocks that [`list`] wrote into the report: all, or the leading ones that fit.
///
/// ```
/// use porthwynna::lent;
///
/// let mut report = [0; 12];
/// let totals = lent::list(b"go go go", &mut [0; 16], &mut report)?;
/// let mut listed = lent::blocks(&report, totals);
/// assert_eq!(listed.len(), 2);
/// assert!(listed.next().is_some_and(|block| block.starts() == (1..=2)));
/// # Ok::<(), porthwynna::Refusal>(())
/// ```
#[must_use]
pub fn blocks(report: &[u16], totals: Totals) -> Blocks<'_> {
    let room = report.len() / NUMBERS_PER_BLOCK;
    let written = room.min(totals.blocks as usize);
    Blocks(report[..NUMBERS_PER_BLOCK * written].chunks_exact(NUMBERS_PER_BLOCK))
}

/// The blocks in a report, in the order of the list. [`blocks`] makes it.
#[derive(Clone, Debug)]
pub struct Blocks<'a>(ChunksExact<'a, u16>);

fn block(numbers: &[u16]) -> Block {
    Block {
        half: numbers[0],
        first: numbers[1],
        last: numbers[2],
    }
}

impl Iterator for Blocks<'_> {
    type Item = Block;

    fn next(&mut self) -> Option<Block> {
        self.0.next().map(block)
    }

    fn size_hint(&self) -> (usize, Option<usize>) {
        self.0.size_hint()
    }
}

impl DoubleEndedIterator for Blocks<'_> {
    fn next_back(&mut self) -> Option<Block> {
        self.0.next_back().map(block)
    }
}

impl ExactSizeIterator for Blocks<'_> {}

impl FusedIterator for Blocks<'_> {}
