//! What the wrapper has beyond the five functions: its types, and what each refusal says.

use crate::random::Random;
use crate::reference::brute;
use crate::texts;
use porthwynna::lent::{self, blocks};
use porthwynna::{
    room, stands, version, Block, Refusal, Repetition, Totals, LARGEST_REPORT, LENGTH_LIMIT,
    NUMBERS_PER_BLOCK, WORK_PER_BYTE,
};
use std::collections::HashSet;
use std::error::Error;
use std::fs;
use std::path::Path;

pub fn as_numbers(block: Block) -> [usize; 3] {
    [block.half, block.first, block.last].map(usize::from)
}

fn totals(blocks: u32) -> Totals {
    Totals {
        blocks,
        comparisons: 0,
    }
}

/// A block of these numbers, which no caller can make otherwise.
fn block_of(numbers: [u16; 3]) -> Block {
    blocks(&numbers, totals(1)).next().expect("there is one")
}

/// The longest repetition of a text that has one.
fn longest_of(text: &[u8]) -> Repetition {
    lent::longest(text, &mut vec![0; WORK_PER_BYTE * text.len()])
        .expect("the text is short")
        .expect("the text has a repetition")
}

#[test]
fn blocks_of_a_report() {
    let report: Vec<u16> = (0..14).collect();
    let all = [[0, 1, 2], [3, 4, 5], [6, 7, 8], [9, 10, 11]];
    for room in 0..=report.len() {
        for k in 0..6 {
            let listed = blocks(&report[..room], totals(k));
            let expected = &all[..(room / 3).min(k as usize)];
            assert_eq!(listed.len(), expected.len());
            assert_eq!(listed.clone().map(as_numbers).collect::<Vec<_>>(), expected);
            let mut backward: Vec<_> = listed.rev().map(as_numbers).collect();
            backward.reverse();
            assert_eq!(backward, expected);
        }
    }
}

#[test]
fn most_blocks_that_totals_can_say() {
    assert_eq!(blocks(&[1, 0, 0, 7], totals(u32::MAX)).count(), 1);
}

#[test]
fn leading_blocks_of_a_full_report() {
    let mut report = [0; 7];
    let refusal = lent::list(b"aaaa", &mut [0; 8], &mut report).unwrap_err();
    let Refusal::Full { totals, .. } = refusal else {
        panic!("{refusal:?}");
    };
    let leading: Vec<_> = blocks(&report, totals).map(as_numbers).collect();
    assert_eq!(leading, [[1, 1, 1], [2, 0, 0]]);
}

#[test]
fn starts_of_a_block() {
    let block = block_of([3, 1, 3]);
    assert_eq!(block.starts().collect::<Vec<_>>(), [1, 2, 3]);
    assert!(!block.starts().contains(&4));
}

#[test]
fn range_and_passage_of_a_block() {
    // Of "abcabcab" in document 01.
    let block = block_of([3, 1, 2]);
    assert_eq!(block.range(), 1..8);
    assert_eq!(block.passage(b"abcabcab"), b"bca");
    let block = block_of([3, 0, 0]);
    assert_eq!(block.range(), 0..6);
    assert_eq!(block.passage(b"abcabcab"), b"abc");
    // Beyond what 16 bits hold.
    assert_eq!(block_of([u16::MAX; 3]).range(), 65_535..196_605);
}

#[test]
fn range_and_passage_of_a_repetition() {
    let text = b"say so so.";
    let longest = longest_of(text);
    assert_eq!((longest.start, longest.half), (3, 3));
    assert_eq!(longest.range(), 3..9);
    assert_eq!(longest.passage(text), b" so");
}

#[test]
fn passage_up_to_the_end_of_a_text() {
    assert_eq!(block_of([3, 1, 2]).passage(b"abca"), b"bca");
    assert_eq!(longest_of(b"say so so.").passage(b"say so"), b" so");
}

#[test]
#[should_panic(expected = "out of range")]
fn passage_of_a_block_past_the_end() {
    let _ = block_of([3, 1, 2]).passage(b"abc");
}

#[test]
#[should_panic(expected = "out of range")]
fn passage_of_a_repetition_past_the_end() {
    let _ = longest_of(b"say so so.").passage(b"say s");
}

#[test]
fn ranges_have_a_period() {
    let random = &mut Random::new(1);
    for n in (2..40).chain([200]) {
        for text in texts::of_each_kind(n, random) {
            for numbers in brute::blocks(&text) {
                let [half, first, last] = numbers;
                let block = block_of(numbers.map(|number| number as u16));
                let whole = &text[block.range()];
                assert_eq!(whole.len(), last - first + 2 * half);
                assert_eq!(whole[half..], whole[..whole.len() - half]);
                assert_eq!(block.passage(&text), &text[first..first + half]);
            }
        }
    }
}

#[test]
fn largest_report() {
    let most = (0..=LENGTH_LIMIT).filter_map(brute::room).max();
    assert_eq!(most, Some(LARGEST_REPORT / NUMBERS_PER_BLOCK));
    assert_eq!(LARGEST_REPORT % NUMBERS_PER_BLOCK, 0);
    assert_eq!(room(LENGTH_LIMIT), Ok(LARGEST_REPORT / NUMBERS_PER_BLOCK));
}

/// Each refusal that there is, one of them for two texts, from a call that is refused so.
fn refusals() -> [Refusal; 5] {
    let too_long = [b'a'; LENGTH_LIMIT + 1];
    [
        stands(&too_long, 0, 1).unwrap_err(),
        lent::is_free(b"aaaa", &mut [0; 7]).unwrap_err(),
        lent::list(b"aaaa", &mut [0; 8], &mut [0; 11]).unwrap_err(),
        lent::list(b"aa", &mut [0; 4], &mut []).unwrap_err(),
        stands(b"abab", 1, 2).unwrap_err(),
    ]
}

#[test]
fn refusals_by_number() {
    assert_eq!(refusals().map(|refusal| refusal.number()), [1, 2, 3, 3, 4]);
}

#[test]
fn refusals_in_words() {
    assert_eq!(
        refusals().map(|refusal| refusal.to_string()),
        [
            "the text has more than 16384 bytes",
            "the work space has fewer than two numbers for each byte of the text",
            "the list has 4 blocks, more than the report has room for",
            "the list has 1 block, more than the report has room for",
            "the half is 0, or its two copies go past the end of the text",
        ]
    );
}

#[test]
fn refusals_are_values() {
    let [too_long, too_short, full_of_4, full_of_1, no_place] = refusals();
    assert_eq!(too_long, Refusal::TextTooLong);
    assert_eq!(too_short, Refusal::WorkTooShort);
    assert_eq!(no_place, Refusal::NoSuchPlace);
    for (refusal, of_list) in [(full_of_4, (4, 10)), (full_of_1, (1, 2))] {
        let Refusal::Full { totals, .. } = refusal else {
            panic!("{refusal:?}");
        };
        assert_eq!((totals.blocks, totals.comparisons), of_list);
    }
    assert_eq!(HashSet::from(refusals()).len(), 5);
}

#[test]
fn refusals_of_each_function() {
    let text = &[b'a'; LENGTH_LIMIT + 1];
    assert_eq!(room(text.len()), Err(Refusal::TextTooLong));
    assert_eq!(stands(text, 0, 0), Err(Refusal::TextTooLong));
    let listed = lent::list(text, &mut [], &mut []);
    assert_eq!(listed, Err(Refusal::TextTooLong));
    assert_eq!(lent::is_free(text, &mut []), Err(Refusal::TextTooLong));
    assert_eq!(lent::longest(text, &mut []), Err(Refusal::TextTooLong));

    let (text, work) = (b"ab", &mut [0; 3]);
    let listed = lent::list(text, work, &mut []);
    assert_eq!(listed, Err(Refusal::WorkTooShort));
    assert_eq!(lent::is_free(text, work), Err(Refusal::WorkTooShort));
    assert_eq!(lent::longest(text, work), Err(Refusal::WorkTooShort));

    for (start, half) in [(0, 0), (1, 2), (0, u64::MAX), (u64::MAX, 1)] {
        assert_eq!(stands(b"abab", start, half), Err(Refusal::NoSuchPlace));
    }
}

#[test]
fn refusals_go_up() {
    fn all_of(text: &[u8], work: &mut [u16]) -> Result<u32, Box<dyn Error + Send + Sync>> {
        stands(text, 0, 1)?;
        lent::is_free(text, work)?;
        lent::longest(text, work)?;
        let mut report = vec![0; NUMBERS_PER_BLOCK * room(text.len())?];
        Ok(lent::list(text, work, &mut report)?.blocks)
    }
    assert_eq!(all_of(b"aaaa", &mut [0; 8]).expect("it has memory"), 4);
    let refusal = all_of(b"a", &mut [0; 2]).unwrap_err();
    assert_eq!(refusal.downcast_ref(), Some(&Refusal::NoSuchPlace));
    let refusal = all_of(b"aaaa", &mut [0; 7]).unwrap_err();
    assert_eq!(refusal.downcast_ref(), Some(&Refusal::WorkTooShort));
}

#[test]
fn versions() {
    let linked = version();
    assert_eq!(linked.to_string(), env!("CARGO_PKG_VERSION"));
    let file = Path::new(env!("CARGO_MANIFEST_DIR")).join("../VERSION");
    let of_repository = fs::read_to_string(file).expect("the repository has a VERSION");
    assert_eq!(of_repository, concat!(env!("CARGO_PKG_VERSION"), "\n"));

    // Greater by the patch, by the minor version, and by the major one.
    let mut later = [linked; 4];
    later[1].patch += 1;
    (later[2].minor, later[2].patch) = (linked.minor + 1, 0);
    (later[3].major, later[3].minor) = (linked.major + 1, 0);
    assert!(later.windows(2).all(|pair| pair[0] < pair[1]));
}
