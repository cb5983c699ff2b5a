//! Texts with many repetitions, with few and with none.

use crate::random::Random;

/// How many letters the random texts have.
pub const ALPHABETS: [usize; 4] = [2, 3, 4, 256];

/// A text of n bytes of each kind.
pub fn of_each_kind(n: usize, random: &mut Random) -> Vec<Vec<u8>> {
    let mut texts = vec![
        vec![b'a'; n],
        vec![0; n],
        vec![255; n],
        fibonacci(n),
        thue_morse(n),
        square_free(n),
        twos(n),
        pasted(n, random),
        with_slips(n, random),
        over(&[0, 255], n, random),
    ];
    texts.extend(ALPHABETS.map(|letters| of_letters(letters, n, random)));
    texts
}

/// Random letters of an alphabet of so many.
pub fn of_letters(letters: usize, n: usize, random: &mut Random) -> Vec<u8> {
    (0..n).map(|_| random.below(letters) as u8).collect()
}

/// Random letters out of these.
pub fn over(alphabet: &[u8], n: usize, random: &mut Random) -> Vec<u8> {
    (0..n)
        .map(|_| alphabet[random.below(alphabet.len())])
        .collect()
}

/// The Fibonacci word, each beginning followed by the one before it.
pub fn fibonacci(n: usize) -> Vec<u8> {
    let (mut shorter, mut text) = (vec![b'b'], vec![b'a']);
    while text.len() < n {
        let longer = [&text[..], &shorter].concat();
        shorter = text;
        text = longer;
    }
    text.truncate(n);
    text
}

/// Each letter tells whether its place has an odd number of binary ones.
pub fn thue_morse(n: usize) -> Vec<u8> {
    (0..n).map(|i| b'a' + (i.count_ones() % 2) as u8).collect()
}

/// How the Thue-Morse word goes from letter to letter: three letters, and no repetition.
pub fn square_free(n: usize) -> Vec<u8> {
    let word = thue_morse(n + 1);
    word.windows(2)
        .map(|pair| b'b' + pair[1] - pair[0])
        .collect()
}

/// How often 2 divides 1, 2, 3 and so on. Between two equal bytes stands a greater one, so there is
/// no repetition.
pub fn twos(n: usize) -> Vec<u8> {
    (1..=n).map(|i| i.trailing_zeros() as u8).collect()
}

/// Words in paragraphs, and now and then a word or a paragraph pasted again.
pub fn pasted(n: usize, random: &mut Random) -> Vec<u8> {
    const WORDS: [&str; 8] = [
        "a ", "the ", "term ", "of ", "in ", "client ", "text ", "is ",
    ];
    let mut text = Vec::new();
    while text.len() < n {
        let start = text.len();
        for _ in 0..1 + random.below(20) {
            let word = WORDS[random.below(WORDS.len())].as_bytes();
            text.extend_from_slice(&word.repeat(1 + random.below(8) / 7));
        }
        text.push(b'\n');
        if random.below(3) == 0 {
            text.extend_from_within(start..);
        }
    }
    text.truncate(n);
    text
}

/// A word again and again, with a wrong letter now and then.
pub fn with_slips(n: usize, random: &mut Random) -> Vec<u8> {
    let letters = 1 + random.below(20);
    let word = of_letters(3, letters, random);
    let mut text: Vec<u8> = word.iter().copied().cycle().take(n).collect();
    for _ in 0..n / 50 {
        text[random.below(n)] = random.below(3) as u8;
    }
    text
}
