//! What document 01's table says that a call leaves, and the checks that it does.

use crate::lent::{self, Lengths, Outcome};
use crate::reference::brute::{self, Block};
use crate::reference::fast;
use porthwynna::{LENGTH_LIMIT, NUMBERS_PER_BLOCK};
use std::fmt;

/// What a reference says of a text.
#[derive(PartialEq)]
pub struct Known {
    pub blocks: Vec<Block>,
    pub comparisons: usize,
    pub free: bool,
}

impl Known {
    pub fn by_brute(text: &[u8]) -> Self {
        Self {
            blocks: brute::blocks(text),
            comparisons: brute::comparisons(text),
            free: brute::is_free(text),
        }
    }

    pub fn by_fast(text: &[u8]) -> Self {
        let room = brute::room(text.len()).expect("the text is not too long");
        let mut report = vec![0; NUMBERS_PER_BLOCK * room];
        let mut answer = [0; 2];
        fast::list(text, &mut vec![0; 2 * text.len()], &mut report, &mut answer);
        let [k, comparisons] = answer.map(|number| number as usize);
        let blocks = report.chunks_exact(NUMBERS_PER_BLOCK).take(k);
        Self {
            blocks: blocks
                .map(|numbers| std::array::from_fn(|place| numbers[place].into()))
                .collect(),
            comparisons,
            free: k == 0,
        }
    }
}

/// Memory for a question without work space and report.
pub const ANSWER_ONLY: Lengths = Lengths {
    work: 0,
    report: 0,
    answer: 1,
};

/// Memory that is just enough for the text and so many blocks.
pub fn exact(text: &[u8], blocks: usize) -> Lengths {
    Lengths {
        work: 2 * text.len(),
        report: NUMBERS_PER_BLOCK * blocks,
        answer: 2,
    }
}

/// Memory with something left over everywhere.
pub fn ample(text: &[u8], blocks: usize) -> Lengths {
    Lengths {
        work: 2 * text.len() + 3,
        report: NUMBERS_PER_BLOCK * blocks + 5,
        answer: 4,
    }
}

/// The list, the free test and the longest repetition, with memory that is exact and ample.
pub fn answers(text: &[u8], known: &Known) {
    for lengths in [exact, ample].map(|of| of(text, known.blocks.len())) {
        list(text, known, lengths);
        is_free(text, known, lengths);
        longest(text, known, lengths);
    }
}

pub fn list(text: &[u8], known: &Known, lengths: Lengths) {
    let mut expected = Outcome::unchanged(refusal(text, lengths, 2), lengths);
    if expected.reply == 0 {
        if known.blocks.len() > lengths.report / NUMBERS_PER_BLOCK {
            expected.reply = 3;
        }
        put(&mut expected, &[known.blocks.len(), known.comparisons]);
        let places = expected.report.chunks_exact_mut(NUMBERS_PER_BLOCK);
        for (place, block) in places.zip(&known.blocks) {
            place.copy_from_slice(&block.map(|number| number as u16));
        }
        expected.work[..2 * text.len()].fill(0);
    }
    let asked = format_args!("list of {}, {lengths:?}", Short(text));
    same("library", asked, lent::list(text, lengths), &expected);
    same("fast", asked, lent::list_by_fast(text, lengths), &expected);
    if lengths.answer >= 2 {
        let by_wrapper = lent::list_by_wrapper(text, lengths);
        same("wrapper", asked, by_wrapper, &expected);
    }
}

pub fn stands(text: &[u8], start: u64, half: u64, lengths: Lengths) {
    let end = u128::from(start) + 2 * u128::from(half);
    let reply = if lengths.answer < 1 {
        99
    } else if text.len() > LENGTH_LIMIT {
        1
    } else if half == 0 || end > text.len() as u128 {
        4
    } else {
        0
    };
    let mut expected = Outcome::unchanged(reply, lengths);
    if reply == 0 {
        let yes = brute::stands(text, start as usize, half as usize);
        put(&mut expected, &[usize::from(yes)]);
    }
    let asked = format_args!("place {start}, {half} in {}, {lengths:?}", Short(text));
    let by_library = lent::stands(text, start, half, lengths);
    same("library", asked, by_library, &expected);
    if lengths.answer >= 1 {
        let by_wrapper = lent::stands_by_wrapper(text, start, half, lengths);
        same("wrapper", asked, by_wrapper, &expected);
    }
}

pub fn is_free(text: &[u8], known: &Known, lengths: Lengths) {
    let mut expected = Outcome::unchanged(refusal(text, lengths, 1), lengths);
    if expected.reply == 0 {
        put(&mut expected, &[usize::from(known.free)]);
        expected.work[..2 * text.len()].fill(0);
    }
    let asked = format_args!("free test of {}, {lengths:?}", Short(text));
    same("library", asked, lent::is_free(text, lengths), &expected);
    if lengths.answer >= 1 {
        let by_wrapper = lent::is_free_by_wrapper(text, lengths);
        same("wrapper", asked, by_wrapper, &expected);
    }
}

pub fn longest(text: &[u8], known: &Known, lengths: Lengths) {
    let mut expected = Outcome::unchanged(refusal(text, lengths, 2), lengths);
    if expected.reply == 0 {
        let (start, half) = brute::longest(&known.blocks).unwrap_or((0, 0));
        put(&mut expected, &[start, half]);
        expected.work[..2 * text.len()].fill(0);
    }
    let asked = format_args!("longest of {}, {lengths:?}", Short(text));
    same("library", asked, lent::longest(text, lengths), &expected);
    if lengths.answer >= 2 {
        let by_wrapper = lent::longest_by_wrapper(text, lengths);
        same("wrapper", asked, by_wrapper, &expected);
    }
}

pub fn room(n: usize, lengths: Lengths) {
    let expected = match brute::room(n) {
        _ if lengths.answer < 1 => Outcome::unchanged(99, lengths),
        None => Outcome::unchanged(1, lengths),
        Some(blocks) => {
            let mut done = Outcome::unchanged(0, lengths);
            put(&mut done, &[blocks]);
            done
        }
    };
    let asked = format_args!("room for {n}, {lengths:?}");
    same("library", asked, lent::room(n, lengths), &expected);
    if lengths.answer >= 1 {
        let by_wrapper = lent::room_by_wrapper(n, lengths);
        same("wrapper", asked, by_wrapper, &expected);
    }
}

/// The refusal of a search whose answer has so many values, or 0.
fn refusal(text: &[u8], lengths: Lengths, values: usize) -> u32 {
    if lengths.answer < values {
        99
    } else if text.len() > LENGTH_LIMIT {
        1
    } else if lengths.work < 2 * text.len() {
        2
    } else {
        0
    }
}

fn put(outcome: &mut Outcome, values: &[usize]) {
    for (place, &value) in outcome.answer.iter_mut().zip(values) {
        *place = value as u32;
    }
}

fn same(by: &str, asked: fmt::Arguments, outcome: Outcome, expected: &Outcome) {
    if outcome != *expected {
        panic!(
            "{by}, {asked}: reply {} and answer {:?}, expected {} and {:?}; report {}; work {}",
            outcome.reply,
            outcome.answer,
            expected.reply,
            expected.answer,
            difference(&outcome.report, &expected.report),
            difference(&outcome.work, &expected.work),
        );
    }
}

fn difference(numbers: &[u16], expected: &[u16]) -> String {
    match (0..numbers.len()).find(|&place| numbers[place] != expected[place]) {
        None => "as expected".to_string(),
        Some(place) => format!("{} at {place} and not {}", numbers[place], expected[place]),
    }
}

/// A text as far as a message has room for it.
struct Short<'a>(&'a [u8]);

impl fmt::Display for Short<'_> {
    fn fmt(&self, f: &mut fmt::Formatter<'_>) -> fmt::Result {
        let shown = &self.0[..self.0.len().min(100)];
        write!(f, "{} bytes \"{}\"", self.0.len(), shown.escape_ascii())
    }
}
