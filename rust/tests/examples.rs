//! The examples of document 01.

use crate::check::{self, exact, Known};
use crate::lent;
use crate::texts;
use porthwynna::LENGTH_LIMIT;

/// The text, its blocks, and the comparisons where the document gives them.
type Example = (&'static [u8], &'static [[usize; 3]], Option<usize>);

const EXAMPLES: [Example; 9] = [
    (b"", &[], Some(0)),
    (b"a", &[], Some(0)),
    (b"aa", &[[1, 0, 0]], Some(2)),
    (b"ab", &[], Some(2)),
    (b"aba", &[], Some(6)),
    (b"abab", &[[2, 0, 0]], Some(10)),
    (
        b"aaaa",
        &[[1, 1, 1], [2, 0, 0], [1, 0, 0], [1, 2, 2]],
        Some(10),
    ),
    (b"ababc", &[[2, 0, 0]], Some(17)),
    (b"abcabcab", &[[3, 1, 2], [3, 0, 0]], None),
];

#[test]
fn lists() {
    for (text, blocks, comparisons) in EXAMPLES {
        let brute = Known::by_brute(text);
        let known = Known {
            blocks: blocks.to_vec(),
            comparisons: comparisons.unwrap_or(brute.comparisons),
            free: blocks.is_empty(),
        };
        assert!(brute == known && Known::by_fast(text) == known, "{text:?}");
        check::answers(text, &known);
    }
}

#[test]
fn reports() {
    for (report, reply, written) in [(11, 3, 9), (12, 0, 12), (7, 3, 6)] {
        let lengths = exact(b"aaaa", 4).with_report(report);
        let outcome = lent::list(b"aaaa", lengths);
        assert_eq!((outcome.reply, outcome.answer), (reply, vec![4, 10]));
        let before = lent::Outcome::unchanged(reply, lengths).report;
        let full = [1, 1, 1, 2, 0, 0, 1, 0, 0, 1, 2, 2];
        assert_eq!(outcome.report[..written], full[..written]);
        assert_eq!(outcome.report[written..], before[written..]);
        check::list(b"aaaa", &Known::by_brute(b"aaaa"), lengths);
    }
}

#[test]
fn places() {
    for (start, half, reply, yes) in [(0, 2, 0, 1), (1, 1, 0, 0), (1, 2, 4, 0), (0, 0, 4, 0)] {
        let lengths = exact(b"abab", 0);
        let outcome = lent::stands(b"abab", start, half, lengths);
        assert_eq!(outcome.reply, reply);
        assert!(reply != 0 || outcome.answer[0] == yes);
        check::stands(b"abab", start, half, lengths);
    }
}

#[test]
fn sizes() {
    let longest_text = texts::twos(LENGTH_LIMIT);
    let too_long = texts::twos(LENGTH_LIMIT + 1);
    let lengths = exact(&longest_text, 0);
    assert_eq!(lent::list(&longest_text, lengths).reply, 0);
    let one_short = lengths.with_work(lengths.work - 1);
    assert_eq!(lent::list(&longest_text, one_short).reply, 2);
    assert_eq!(lent::list(b"a", exact(b"a", 0).with_work(1)).reply, 2);
    assert_eq!(lent::list(&too_long, exact(&too_long, 0)).reply, 1);
    assert_eq!(lent::list(&too_long, exact(b"", 0)).reply, 1);
    assert_eq!(lent::room(LENGTH_LIMIT, lengths).answer[0], 229_376);
}
