//! Every short text over a few letters, and every start and half in it.

use crate::check::{self, Known, ANSWER_ONLY};
use crate::reference::brute;
use std::fs;
use std::path::Path;

/// Calls the function with every text of n letters.
fn for_each_text(alphabet: &[u8], n: usize, mut function: impl FnMut(&[u8])) {
    let letters = alphabet.len();
    for number in 0..letters.pow(n as u32) {
        let digits = (0..n).map(|place| number / letters.pow(place as u32) % letters);
        let text: Vec<u8> = digits.map(|digit| alphabet[digit]).collect();
        function(&text);
    }
}

/// The line of the program `trial` for such a run, whose answers all agreed.
fn line(name: &str, alphabet: &[u8], most: usize) -> String {
    let (mut texts, mut places, mut repetitions, mut blocks, mut comparisons) = (0, 0, 0, 0, 0);
    for n in 0..=most {
        for_each_text(alphabet, n, |text| {
            let known = Known::by_brute(text);
            check::answers(text, &known);
            for start in 0..n as u64 + 2 {
                for half in 0..n as u64 + 2 {
                    check::stands(text, start, half, ANSWER_ONLY);
                    places += 1;
                }
            }
            texts += 1;
            repetitions += brute::repetitions(text);
            blocks += known.blocks.len();
            comparisons += known.comparisons;
        });
    }
    format!(
        "{name}, up to {most}: {texts} texts, {places} places, {repetitions} repetitions, \
         {blocks} blocks, {comparisons} comparisons, 0 disagreed"
    )
}

/// The repository's model of document 01 made the program's lines.
fn hold_to_trial(line: String) {
    let path = Path::new(env!("CARGO_MANIFEST_DIR")).join("../crates/trial/stdout");
    let lines = fs::read_to_string(path).expect("the repository has crates/trial/stdout");
    assert!(lines.lines().any(|of_model| of_model == line), "{line}");
}

#[test]
fn two_letters() {
    hold_to_trial(line("letters a b", b"ab", 12));
}

#[test]
fn two_bytes_at_the_ends() {
    hold_to_trial(line("bytes 0 255", &[0, 255], 10));
}

#[test]
fn three_letters() {
    hold_to_trial(line("letters a b c", b"abc", 7));
}

#[test]
fn three_bytes() {
    hold_to_trial(line("bytes 0 97 255", &[0, 97, 255], 7));
}

#[test]
fn three_letters_eight_long() {
    for_each_text(b"abc", 8, |text| {
        check::answers(text, &Known::by_brute(text))
    });
}
