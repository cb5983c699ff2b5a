//! Thousands of texts against brute force, and every place in the shorter ones.

use crate::check::{self, Known, ANSWER_ONLY};
use crate::random::Random;
use crate::texts::{self, ALPHABETS};

fn hold(text: &[u8]) {
    let known = Known::by_brute(text);
    assert!(Known::by_fast(text) == known, "{text:?}");
    check::answers(text, &known);
}

#[test]
fn each_kind_at_each_length() {
    let random = &mut Random::new(1);
    for n in 0..=80 {
        for text in texts::of_each_kind(n, random) {
            hold(&text);
        }
    }
}

#[test]
fn each_kind_around_powers_of_two() {
    let random = &mut Random::new(2);
    for n in [127, 128, 129, 255, 256, 257] {
        for text in texts::of_each_kind(n, random) {
            hold(&text);
        }
    }
}

#[test]
fn random_letters() {
    let random = &mut Random::new(3);
    for _ in 0..1_000 {
        for letters in ALPHABETS {
            let n = random.below(60);
            hold(&texts::of_letters(letters, n, random));
        }
    }
}

#[test]
fn words_again_and_again() {
    let random = &mut Random::new(4);
    for _ in 0..1_000 {
        let n = random.below(100);
        hold(&texts::with_slips(n, random));
        hold(&texts::pasted(n, random));
    }
}

#[test]
fn every_place() {
    let random = &mut Random::new(5);
    for n in [1, 2, 3, 20, 33] {
        for text in texts::of_each_kind(n, random) {
            for start in 0..n as u64 + 2 {
                for half in 0..n as u64 + 2 {
                    check::stands(&text, start, half, ANSWER_ONLY);
                }
            }
        }
    }
}

#[test]
fn five_hundred_bytes() {
    let random = &mut Random::new(6);
    for text in texts::of_each_kind(500, random) {
        hold(&text);
    }
}
