//! Document 01 by brute force, written from the document alone: every part, class and half tried
//! start by start, and the counting rule over match lengths found byte by byte.

/// Half, first start and last start.
pub type Block = [usize; 3];

const LENGTH_LIMIT: usize = 16_384;

pub fn stands(text: &[u8], s: usize, p: usize) -> bool {
    p >= 1 && s + 2 * p <= text.len() && (0..p).all(|k| text[s + k] == text[s + p + k])
}

pub fn is_free(text: &[u8]) -> bool {
    repetitions(text) == 0
}

/// The number of starts and halves whose repetition stands in the text.
pub fn repetitions(text: &[u8]) -> usize {
    let n = text.len();
    (0..n)
        .map(|s| (1..=n).filter(|&p| stands(text, s, p)).count())
        .sum()
}

/// The blocks in the order of the list.
pub fn blocks(text: &[u8]) -> Vec<Block> {
    let mut blocks = Vec::new();
    for part in parts(0, text.len()) {
        for class in [Class::Right, Class::Left] {
            for p in 1..=text.len() {
                let starts: Vec<usize> = (part.a..part.b)
                    .filter(|&s| part.has(class, s, p) && stands(text, s, p))
                    .collect();
                if let (Some(&first), Some(&last)) = (starts.first(), starts.last()) {
                    assert_eq!(starts.len(), last - first + 1, "starts are consecutive");
                    blocks.push([p, first, last]);
                }
            }
        }
    }
    blocks
}

/// Start and half of the longest repetition, from the blocks in the order of the list.
pub fn longest(blocks: &[Block]) -> Option<(usize, usize)> {
    let greatest = blocks.iter().map(|&[half, ..]| half).max()?;
    blocks
        .iter()
        .find(|&&[half, ..]| half == greatest)
        .map(|&[half, first, _]| (first, half))
}

/// The comparisons of all parts, by the counting rule.
pub fn comparisons(text: &[u8]) -> usize {
    parts(0, text.len())
        .iter()
        .map(|part| {
            let (u, v) = (&text[part.a..part.c], &text[part.c..part.b]);
            let (u_back, v_back) = (reversed(u), reversed(v));
            cost(v, v, 1) + cost(&u_back, &u_back, 1) + cost(&v_back, &u_back, 0) + cost(u, v, 0)
        })
        .sum()
}

/// n times the depth of n, where a text may have n bytes.
pub fn room(n: usize) -> Option<usize> {
    if n > LENGTH_LIMIT {
        return None;
    }
    let mut depth = 0;
    while 2usize.pow(depth) < n {
        depth += 1;
    }
    Some(n * depth as usize)
}

#[derive(Clone, Copy)]
enum Class {
    Right,
    Left,
}

/// The part from a up to b, cut at c.
struct Part {
    a: usize,
    b: usize,
    c: usize,
}

impl Part {
    fn has(&self, class: Class, s: usize, p: usize) -> bool {
        let belongs = self.a <= s && s + 2 * p <= self.b && s < self.c && s + 2 * p > self.c;
        let of_class = match class {
            Class::Right => s + p >= self.c,
            Class::Left => s + p < self.c,
        };
        belongs && of_class
    }
}

/// The parts of two bytes or more, each before those of its left piece and of its right piece.
fn parts(a: usize, b: usize) -> Vec<Part> {
    if b - a < 2 {
        return Vec::new();
    }
    let c = a + (b - a).div_ceil(2);
    let mut all = vec![Part { a, b, c }];
    all.extend(parts(a, c));
    all.extend(parts(c, b));
    all
}

fn reversed(piece: &[u8]) -> Vec<u8> {
    piece.iter().rev().copied().collect()
}

fn match_length(walked: &[u8], pattern: &[u8], i: usize) -> usize {
    let mut length = 0;
    while i + length < walked.len()
        && length < pattern.len()
        && walked[i + length] == pattern[length]
    {
        length += 1;
    }
    length
}

/// The cost of a table that is walked from the first position on.
fn cost(walked: &[u8], pattern: &[u8], first: usize) -> usize {
    let (mut k, mut e, mut cost) = (0, 0, 0);
    for i in first..walked.len() {
        let length = match_length(walked, pattern, i);
        if e > i {
            let own = match_length(pattern, pattern, i - k);
            if own < e - i {
                assert_eq!(own, length, "the position takes the pattern's own length");
                continue;
            }
        }
        let j = e.saturating_sub(i);
        let both_go_on = i + length < walked.len() && length < pattern.len();
        cost += length - j + usize::from(both_go_on);
        (k, e) = (i, i + length);
    }
    cost
}
