// The kinds of text that are timed. Each maker gives the same bytes for the same length, every time.

/// A kind: its name and the maker of a text of so many bytes.
pub type Kind = (&'static str, fn(usize) -> Vec<u8>);

pub const KINDS: [Kind; 7] = [
    ("prose", prose),
    ("random bytes", random_bytes),
    ("unary", unary),
    ("Fibonacci", fibonacci),
    ("Thue-Morse", thue_morse),
    ("four letters", four_letters),
    ("pasted", pasted),
];

const WORDS: [&str; 16] = [
    "the",
    "of",
    "contract",
    "client",
    "term",
    "a",
    "delivery",
    "glossary",
    "in",
    "agency",
    "is",
    "translated",
    "and",
    "for",
    "with",
    "passage",
];

/// Marsaglia's xorshift generator of 64 bits, begun with the seed of his paper (2003).
struct Random(u64);

impl Random {
    fn new() -> Self {
        Random(88172645463325252)
    }

    /// A number below `limit`, which is far below 2 to the power 32.
    fn below(&mut self, limit: u64) -> usize {
        self.0 ^= self.0 << 13;
        self.0 ^= self.0 >> 7;
        self.0 ^= self.0 << 17;
        ((self.0 >> 32) % limit) as usize
    }
}

/// Words drawn from sixteen, with a space after each; one in twenty is doubled.
fn prose(n: usize) -> Vec<u8> {
    let mut random = Random::new();
    let mut text = Vec::new();
    while text.len() < n {
        let word = WORDS[random.below(16)];
        let times = if random.below(20) == 0 { 2 } else { 1 };
        for _ in 0..times {
            text.extend_from_slice(word.as_bytes());
            text.push(b' ');
        }
    }
    text.truncate(n);
    text
}

/// Bytes drawn from all 256.
fn random_bytes(n: usize) -> Vec<u8> {
    let mut random = Random::new();
    (0..n).map(|_| random.below(256) as u8).collect()
}

/// One letter again and again.
fn unary(n: usize) -> Vec<u8> {
    vec![b'a'; n]
}

/// The Fibonacci word: a, ab, aba, abaab, .., each the one before it and then the one before that.
fn fibonacci(n: usize) -> Vec<u8> {
    let (mut before, mut word) = (b"a".to_vec(), b"ab".to_vec());
    while word.len() < n {
        let next = [word.as_slice(), before.as_slice()].concat();
        before = word;
        word = next;
    }
    word.truncate(n);
    word
}

/// The Thue-Morse word: letter i is b where i has an odd number of binary ones, else a.
fn thue_morse(n: usize) -> Vec<u8> {
    (0..n)
        .map(|i| if i.count_ones() % 2 == 1 { b'b' } else { b'a' })
        .collect()
}

/// Letters drawn from four.
fn four_letters(n: usize) -> Vec<u8> {
    let mut random = Random::new();
    (0..n).map(|_| b"acgt"[random.below(4)]).collect()
}

/// A paragraph of 500 bytes of prose, pasted again and again.
fn pasted(n: usize) -> Vec<u8> {
    prose(500).into_iter().cycle().take(n).collect()
}
