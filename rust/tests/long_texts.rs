//! Long texts, up to the limit, against the fast reference; and places in them by brute force.

use crate::check::{self, ample, exact, Known, ANSWER_ONLY};
use crate::random::Random;
use crate::reference::brute;
use crate::texts;
use porthwynna::{LENGTH_LIMIT, NUMBERS_PER_BLOCK};

fn hold(text: &[u8], random: &mut Random) {
    let known = Known::by_fast(text);
    let blocks = known.blocks.len();
    check::list(text, &known, ample(text, blocks));
    let one_less = (NUMBERS_PER_BLOCK * blocks).saturating_sub(1);
    check::list(text, &known, exact(text, 0).with_report(one_less));
    check::is_free(text, &known, exact(text, 0));
    check::longest(text, &known, exact(text, 0));
    for _ in 0..20 {
        let half = 1 + random.below(text.len() / 2);
        hold_place(text, &known, random.below(text.len() - 2 * half + 1), half);
    }
    // Most places are no repetitions; those next to listed ones are often.
    for _ in 0..20.min(blocks) {
        let [half, first, last] = known.blocks[random.below(blocks)];
        for start in [first.saturating_sub(1), first, last, last + 1] {
            hold_place(text, &known, start, half);
        }
    }
}

/// A repetition is in one block, and anything else in none.
fn hold_place(text: &[u8], known: &Known, start: usize, half: usize) {
    check::stands(text, start as u64, half as u64, ANSWER_ONLY);
    let listed = known
        .blocks
        .iter()
        .filter(|&&[p, first, last]| p == half && first <= start && start <= last);
    let stands = brute::stands(text, start, half);
    assert_eq!(
        listed.count(),
        usize::from(stands),
        "start {start}, half {half}"
    );
}

#[test]
fn each_kind_at_the_limit() {
    let random = &mut Random::new(1);
    for n in [LENGTH_LIMIT - 1, LENGTH_LIMIT] {
        for text in texts::of_each_kind(n, random) {
            hold(&text, random);
        }
    }
}

#[test]
fn each_kind_at_other_lengths() {
    let random = &mut Random::new(2);
    for _ in 0..5 {
        let n = 1_000 + random.below(LENGTH_LIMIT - 1_000);
        for text in texts::of_each_kind(n, random) {
            hold(&text, random);
        }
    }
}

/// Number of blocks and comparisons of n equal bytes.
fn of_equal_bytes(n: usize) -> (usize, usize) {
    if n < 2 {
        return (0, 0);
    }
    let (u, v) = (n.div_ceil(2), n / 2);
    let (left, right) = (of_equal_bytes(u), of_equal_bytes(v));
    // Right blocks have the halves 1 to v, left ones 2 to u - 1.
    let blocks = v + u.saturating_sub(2);
    (blocks + left.0 + right.0, 2 * n - 2 + left.1 + right.1)
}

#[test]
fn equal_bytes() {
    for n in (0..40).chain([1_000, LENGTH_LIMIT - 1, LENGTH_LIMIT]) {
        let text = vec![255; n];
        let known = Known::by_fast(&text);
        assert_eq!((known.blocks.len(), known.comparisons), of_equal_bytes(n));
        check::answers(&text, &known);
    }
}

#[test]
fn free_texts() {
    for n in [0, 1, 2, 1_000, LENGTH_LIMIT - 1, LENGTH_LIMIT] {
        for text in [texts::twos(n), texts::square_free(n)] {
            let known = Known::by_fast(&text);
            assert!(known.free);
            check::answers(&text, &known);
        }
    }
}
