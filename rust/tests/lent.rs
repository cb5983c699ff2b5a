//! Calls in lent memory that lies between guards. Whatever a call leaves is in its outcome; a guard
//! or a byte of the text that changed is a failure at once.

use crate::reference::fast;
use porthwynna::{sys, Refusal, Repetition};
use std::fmt::Debug;

/// Numbers on either side of lent memory.
const GUARD: usize = 24;

/// How many numbers are lent.
#[derive(Clone, Copy, Debug)]
pub struct Lengths {
    pub work: usize,
    pub report: usize,
    pub answer: usize,
}

impl Lengths {
    pub fn with_work(self, work: usize) -> Self {
        Self { work, ..self }
    }

    pub fn with_report(self, report: usize) -> Self {
        Self { report, ..self }
    }

    pub fn with_answer(self, answer: usize) -> Self {
        Self { answer, ..self }
    }
}

/// The reply, and the lent memory afterwards.
#[derive(PartialEq)]
pub struct Outcome {
    pub reply: u32,
    pub answer: Vec<u32>,
    pub report: Vec<u16>,
    pub work: Vec<u16>,
}

impl Outcome {
    /// A reply that leaves all memory as before.
    pub fn unchanged(reply: u32, lengths: Lengths) -> Self {
        Self {
            reply,
            answer: before(lengths.answer),
            report: before(lengths.report),
            work: before(lengths.work),
        }
    }
}

pub trait Number: Copy + PartialEq + Debug {
    /// What a place in lent memory holds before a call. No reply writes such a number.
    fn before(place: usize) -> Self;
}

impl Number for u16 {
    fn before(place: usize) -> Self {
        0xC000 | place as u16
    }
}

impl Number for u32 {
    fn before(place: usize) -> Self {
        0xC000_0000 | place as u32
    }
}

fn before<T: Number>(len: usize) -> Vec<T> {
    (GUARD..GUARD + len).map(T::before).collect()
}

/// Lent memory with its guards.
struct Lent<T> {
    whole: Vec<T>,
    before: Vec<T>,
}

impl Lent<u8> {
    /// In the guards the text stands again and again, so that a look past an end finds bytes that
    /// fit.
    fn text(text: &[u8]) -> Self {
        let mut front: Vec<u8> = text.iter().rev().copied().cycle().take(GUARD).collect();
        front.reverse();
        let mut behind: Vec<u8> = text.iter().copied().cycle().take(GUARD).collect();
        // There is nothing to go on with beside an empty text.
        front.resize(GUARD, 0);
        behind.resize(GUARD, 0);
        Self::new([&front, text, &behind].concat())
    }
}

impl<T: Number> Lent<T> {
    fn numbers(len: usize) -> Self {
        Self::new((0..len + 2 * GUARD).map(T::before).collect())
    }
}

impl<T: Copy + PartialEq + Debug> Lent<T> {
    fn new(whole: Vec<T>) -> Self {
        Self {
            before: whole.clone(),
            whole,
        }
    }

    fn len(&self) -> usize {
        self.whole.len() - 2 * GUARD
    }

    /// A pointer into the whole, so that a write outside is a write into the guards.
    fn pointer(&mut self) -> *mut T {
        self.whole.as_mut_ptr().wrapping_add(GUARD)
    }

    fn inside(&mut self) -> &mut [T] {
        let len = self.len();
        &mut self.whole[GUARD..GUARD + len]
    }

    /// The numbers between the guards, which are as before.
    fn back(mut self) -> Vec<T> {
        let end = GUARD + self.len();
        assert_eq!(self.whole[..GUARD], self.before[..GUARD], "guard in front");
        assert_eq!(self.whole[end..], self.before[end..], "guard behind");
        self.inside().to_vec()
    }
}

struct Memory {
    text: Lent<u8>,
    work: Lent<u16>,
    report: Lent<u16>,
    answer: Lent<u32>,
}

impl Memory {
    fn new(text: &[u8], lengths: Lengths) -> Self {
        Self {
            text: Lent::text(text),
            work: Lent::numbers(lengths.work),
            report: Lent::numbers(lengths.report),
            answer: Lent::numbers(lengths.answer),
        }
    }

    /// What a call left that gave this reply.
    fn after(self, reply: u32) -> Outcome {
        assert!(self.text.whole == self.text.before, "the text is written");
        Outcome {
            reply,
            answer: self.answer.back(),
            report: self.report.back(),
            work: self.work.back(),
        }
    }

    /// The same for a result of the wrapper, with the values that it holds.
    fn after_wrapper<const N: usize>(mut self, result: Result<[u32; N], Refusal>) -> Outcome {
        let (reply, values) = match result {
            Ok(values) => (0, values.to_vec()),
            Err(Refusal::TextTooLong) => (1, vec![]),
            Err(Refusal::WorkTooShort) => (2, vec![]),
            Err(Refusal::Full { totals, .. }) => (3, vec![totals.blocks, totals.comparisons]),
            Err(Refusal::NoSuchPlace) => (4, vec![]),
            Err(refusal) => panic!("{refusal:?} is none of document 01's"),
        };
        assert_eq!(result.map_or_else(|refusal| refusal.number(), |_| 0), reply);
        self.answer.inside()[..values.len()].copy_from_slice(&values);
        self.after(reply)
    }
}

pub fn list(text: &[u8], lengths: Lengths) -> Outcome {
    let mut lent = Memory::new(text, lengths);
    // SAFETY: each pointer and length are those of one part of the memory that is lent.
    let reply = unsafe {
        sys::porthwynna_list(
            lent.text.pointer(),
            lent.text.len(),
            lent.work.pointer(),
            lent.work.len(),
            lent.report.pointer(),
            lent.report.len(),
            lent.answer.pointer(),
            lent.answer.len(),
        )
    };
    lent.after(reply)
}

pub fn list_by_wrapper(text: &[u8], lengths: Lengths) -> Outcome {
    let mut lent = Memory::new(text, lengths);
    let Memory {
        text, work, report, ..
    } = &mut lent;
    let result = porthwynna::lent::list(text.inside(), work.inside(), report.inside());
    lent.after_wrapper(result.map(|totals| [totals.blocks, totals.comparisons]))
}

pub fn list_by_fast(text: &[u8], lengths: Lengths) -> Outcome {
    let mut lent = Memory::new(text, lengths);
    let reply = fast::list(
        lent.text.inside(),
        lent.work.inside(),
        lent.report.inside(),
        lent.answer.inside(),
    );
    lent.after(reply)
}

pub fn stands(text: &[u8], start: u64, half: u64, lengths: Lengths) -> Outcome {
    let mut lent = Memory::new(text, lengths);
    // SAFETY: as in `list`.
    let reply = unsafe {
        sys::porthwynna_stands(
            lent.text.pointer(),
            lent.text.len(),
            start,
            half,
            lent.answer.pointer(),
            lent.answer.len(),
        )
    };
    lent.after(reply)
}

pub fn stands_by_wrapper(text: &[u8], start: u64, half: u64, lengths: Lengths) -> Outcome {
    let mut lent = Memory::new(text, lengths);
    let result = porthwynna::stands(lent.text.inside(), start, half);
    lent.after_wrapper(result.map(|yes| [yes.into()]))
}

pub fn is_free(text: &[u8], lengths: Lengths) -> Outcome {
    let mut lent = Memory::new(text, lengths);
    // SAFETY: as in `list`.
    let reply = unsafe {
        sys::porthwynna_is_free(
            lent.text.pointer(),
            lent.text.len(),
            lent.work.pointer(),
            lent.work.len(),
            lent.answer.pointer(),
            lent.answer.len(),
        )
    };
    lent.after(reply)
}

pub fn is_free_by_wrapper(text: &[u8], lengths: Lengths) -> Outcome {
    let mut lent = Memory::new(text, lengths);
    let result = porthwynna::lent::is_free(lent.text.inside(), lent.work.inside());
    lent.after_wrapper(result.map(|yes| [yes.into()]))
}

pub fn longest(text: &[u8], lengths: Lengths) -> Outcome {
    let mut lent = Memory::new(text, lengths);
    // SAFETY: as in `list`.
    let reply = unsafe {
        sys::porthwynna_longest(
            lent.text.pointer(),
            lent.text.len(),
            lent.work.pointer(),
            lent.work.len(),
            lent.answer.pointer(),
            lent.answer.len(),
        )
    };
    lent.after(reply)
}

pub fn longest_by_wrapper(text: &[u8], lengths: Lengths) -> Outcome {
    let mut lent = Memory::new(text, lengths);
    let result = porthwynna::lent::longest(lent.text.inside(), lent.work.inside());
    // No repetition has half 0, so that 0 and 0 are free for "none".
    let numbers = |longest: Repetition| {
        assert_ne!(longest.half, 0);
        [longest.start as u32, longest.half as u32]
    };
    lent.after_wrapper(result.map(|longest| longest.map_or([0, 0], numbers)))
}

pub fn room(n: usize, lengths: Lengths) -> Outcome {
    let mut lent = Memory::new(&[], lengths);
    // SAFETY: as in `list`.
    let reply = unsafe { sys::porthwynna_room(n, lent.answer.pointer(), lent.answer.len()) };
    lent.after(reply)
}

pub fn room_by_wrapper(n: usize, lengths: Lengths) -> Outcome {
    let lent = Memory::new(&[], lengths);
    lent.after_wrapper(porthwynna::room(n).map(|blocks| [blocks as u32]))
}
