//! Calls with too little memory, too long texts and places that there are not.

use crate::check::{self, ample, exact, Known, ANSWER_ONLY};
use crate::lent::Lengths;
use crate::random::Random;
use crate::texts;
use porthwynna::{LENGTH_LIMIT, NUMBERS_PER_BLOCK};

/// The five questions about a text, with this memory.
fn ask_all(text: &[u8], known: &Known, lengths: Lengths) {
    check::list(text, known, lengths);
    check::is_free(text, known, lengths);
    check::longest(text, known, lengths);
    for (start, half) in [(0, 1), (0, 0), (text.len() as u64, 1)] {
        check::stands(text, start, half, lengths);
    }
    check::room(text.len(), lengths);
}

fn short_texts() -> Vec<Vec<u8>> {
    let random = &mut Random::new(1);
    let mut texts = Vec::new();
    for n in [0, 1, 2, 3, 4, 5, 8, 20] {
        texts.extend(texts::of_each_kind(n, random));
    }
    texts
}

#[test]
fn work_of_every_length() {
    for text in short_texts() {
        let known = Known::by_brute(&text);
        let enough = ample(&text, known.blocks.len());
        for work in 0..=2 * text.len() + 2 {
            ask_all(&text, &known, enough.with_work(work));
        }
    }
}

#[test]
fn report_of_every_length() {
    for text in short_texts() {
        let known = Known::by_brute(&text);
        for report in 0..=NUMBERS_PER_BLOCK * known.blocks.len() + 4 {
            check::list(&text, &known, exact(&text, 0).with_report(report));
        }
    }
}

#[test]
fn answer_of_every_length() {
    for text in short_texts() {
        let known = Known::by_brute(&text);
        let enough = ample(&text, known.blocks.len());
        for answer in 0..=4 {
            for lengths in [enough, enough.with_work(0), enough.with_report(0)] {
                ask_all(&text, &known, lengths.with_answer(answer));
            }
        }
    }
}

#[test]
fn text_at_the_limit_and_beyond() {
    // The last two would be short texts to a number of 16 bits.
    let beyond = [LENGTH_LIMIT + 1, LENGTH_LIMIT + 2, 1 << 16, (1 << 16) + 4];
    for n in [LENGTH_LIMIT - 1, LENGTH_LIMIT].into_iter().chain(beyond) {
        for text in [texts::twos(n), vec![b'a'; n]] {
            // Nothing is known of a text that is refused, and nothing of it is answered.
            let known = match n {
                ..=LENGTH_LIMIT => Known::by_fast(&text),
                _ => Known::by_brute(b""),
            };
            for work in [0, 1, n, 2 * n - 1, 2 * n, 2 * n + 1] {
                for answer in 0..=2 {
                    let lengths = exact(&text, 2).with_work(work).with_answer(answer);
                    ask_all(&text, &known, lengths);
                }
            }
        }
    }
}

#[test]
fn no_such_place() {
    let mut numbers: Vec<u64> = (0..20).collect();
    numbers.extend((0..20).map(|back| u64::MAX - back));
    for bits in [16, 32, 62, 63] {
        numbers.extend([1 << bits, (1 << bits) + 1]);
    }
    for text in [&b""[..], b"a", b"abab", b"aaaaaaaa", &[b'a'; LENGTH_LIMIT]] {
        for &start in &numbers {
            for &half in &numbers {
                check::stands(text, start, half, ANSWER_ONLY);
            }
        }
    }
    // Start plus twice the half, as a number of 64 bits, would be a place in the text.
    for half in 1..=8 {
        for end in 0..=8u64 {
            check::stands(b"aaaaaaaa", end.wrapping_sub(2 * half), half, ANSWER_ONLY);
            check::stands(b"aaaaaaaa", end, half + (1 << 63), ANSWER_ONLY);
        }
    }
}

#[test]
fn room_for_every_length() {
    for n in (0..=LENGTH_LIMIT + 2).chain([1 << 16, usize::MAX / 2, usize::MAX - 1, usize::MAX]) {
        for answer in 0..=2 {
            check::room(n, ANSWER_ONLY.with_answer(answer));
        }
    }
    // Such a length would be a short one to a number of 32 bits.
    let half_of_bits = usize::BITS / 2;
    check::room((1 << half_of_bits) + 4, ANSWER_ONLY);
}
