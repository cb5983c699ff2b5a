//! The functions that allocate what they need.

use crate::random::Random;
use crate::reference::brute;
use crate::texts;
use crate::wrapper::as_numbers;
use porthwynna::{find, is_free, lent, longest, Block, Refusal, LENGTH_LIMIT, WORK_PER_BYTE};
use std::error::Error;
use std::thread;

#[test]
fn find_lists_all() {
    let random = &mut Random::new(1);
    for n in (0..40).chain([200]) {
        for text in texts::of_each_kind(n, random) {
            let found = find(&text).expect("the text is short");
            let listed: Vec<_> = found.blocks.into_iter().map(as_numbers).collect();
            assert_eq!(listed, brute::blocks(&text));
            assert_eq!(found.comparisons as usize, brute::comparisons(&text));
        }
    }
}

#[test]
fn find_at_the_limit() {
    let found = find(&[b'a'; LENGTH_LIMIT]).expect("the text is at the limit");
    let halves_of_the_text = |block: &&Block| usize::from(block.half) == LENGTH_LIMIT / 2;
    let longest: Vec<_> = found.blocks.iter().filter(halves_of_the_text).collect();
    assert_eq!(longest.len(), 1);
    assert_eq!(longest[0].starts(), 0..=0);
    assert_eq!(find(&[b'a'; LENGTH_LIMIT + 1]), Err(Refusal::TextTooLong));
}

#[test]
fn found_is_gone_through() {
    let found = find(b"aaaa").expect("the text is short");
    let expected = [[1, 1, 1], [2, 0, 0], [1, 0, 0], [1, 2, 2]];
    assert_eq!(
        found.iter().copied().map(as_numbers).collect::<Vec<_>>(),
        expected
    );
    let mut listed = Vec::new();
    for block in &found {
        listed.push(as_numbers(*block));
    }
    assert_eq!(listed, expected);
    listed.clear();
    for block in found {
        listed.push(as_numbers(block));
    }
    assert_eq!(listed, expected);
}

#[test]
fn as_with_lent_memory() {
    let random = &mut Random::new(2);
    for n in (0..80).chain([200, 1_000, LENGTH_LIMIT - 1, LENGTH_LIMIT]) {
        for text in texts::of_each_kind(n, random) {
            let work = &mut vec![0; WORK_PER_BYTE * n];
            assert_eq!(is_free(&text), lent::is_free(&text, work));
            assert_eq!(longest(&text), lent::longest(&text, work));
        }
    }
}

#[test]
fn as_by_brute_force() {
    let random = &mut Random::new(3);
    for n in 0..40 {
        for text in texts::of_each_kind(n, random) {
            assert_eq!(is_free(&text), Ok(brute::is_free(&text)));
            let found = longest(&text).expect("the text is short");
            assert_eq!(
                found.map(|longest| (longest.start, longest.half)),
                brute::longest(&brute::blocks(&text))
            );
        }
    }
}

#[test]
fn too_long() {
    for n in [LENGTH_LIMIT + 1, 1 << 16] {
        let text = vec![b'a'; n];
        assert_eq!(find(&text), Err(Refusal::TextTooLong));
        assert_eq!(is_free(&text), Err(Refusal::TextTooLong));
        assert_eq!(longest(&text), Err(Refusal::TextTooLong));
    }
}

#[test]
fn refusals_go_up() {
    fn all_of(text: &[u8]) -> Result<(usize, bool, bool), Box<dyn Error>> {
        Ok((
            find(text)?.blocks.len(),
            is_free(text)?,
            longest(text)?.is_none(),
        ))
    }
    assert_eq!(
        all_of(b"aaaa").expect("the text is short"),
        (4, false, false)
    );
    assert_eq!(all_of(b"aba").expect("the text is short"), (0, true, true));
    let refusal = all_of(&[b'a'; LENGTH_LIMIT + 1]).unwrap_err();
    assert_eq!(refusal.to_string(), "the text has more than 16384 bytes");
}

#[test]
fn in_several_threads() {
    let text = &texts::fibonacci(2_000);
    let alone = &find(text).expect("the text is short");
    thread::scope(|scope| {
        for _ in 0..4 {
            scope.spawn(move || {
                for _ in 0..20 {
                    assert_eq!(find(text).as_ref(), Ok(alone));
                }
            });
        }
    });
}
