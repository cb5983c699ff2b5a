//! Document 01's list in fast safe Rust: Main and Lorentz's tables, with the count of comparisons.
//! It takes no memory of its own; replies and lent memory are those of `porthwynna_list`.

use std::slice::ChunksExactMut;

const LENGTH_LIMIT: usize = 16_384;
const NUMBERS_PER_BLOCK: usize = 3;

/// The blocks go into the report, their number and the comparisons to the front of the answer.
pub fn list(text: &[u8], work: &mut [u16], report: &mut [u16], answer: &mut [u32]) -> u32 {
    let [blocks, comparisons, ..] = answer else {
        return 99;
    };
    if text.len() > LENGTH_LIMIT {
        return 1;
    }
    let Some(work) = work.get_mut(..2 * text.len()) else {
        return 2;
    };
    let room = report.len() / NUMBERS_PER_BLOCK;
    let mut found = Found {
        free: report.chunks_exact_mut(NUMBERS_PER_BLOCK),
        blocks: 0,
        comparisons: 0,
    };
    find(text, 0, work, &mut found);
    work.fill(0);
    *blocks = found.blocks as u32;
    *comparisons = found.comparisons as u32;
    if found.blocks <= room {
        0
    } else {
        3
    }
}

struct Found<'a> {
    free: ChunksExactMut<'a, u16>,
    blocks: usize,
    comparisons: usize,
}

impl Found<'_> {
    fn put(&mut self, half: usize, first: usize, last: usize) {
        if let Some(block) = self.free.next() {
            block.copy_from_slice(&[half as u16, first as u16, last as u16]);
        }
        self.blocks += 1;
    }
}

/// The blocks of the part that starts at `a`, and then those of its pieces.
fn find(part: &[u8], a: usize, work: &mut [u16], found: &mut Found) {
    if part.len() < 2 {
        return;
    }
    let (u, v) = part.split_at(part.len().div_ceil(2));
    let c = a + u.len();

    let (v_itself, rest) = work.split_at_mut(v.len());
    let (u_itself, rest) = rest.split_at_mut(u.len());
    let (v_against_u, rest) = rest.split_at_mut(v.len());
    let u_against_v = &mut rest[..u.len()];
    found.comparisons += itself(v_itself, forward(v, v))
        + itself(u_itself, backward(u, u))
        + against(u_itself, v_against_u, backward(v, u))
        + against(v_itself, u_against_v, forward(u, v));

    // How far the bytes p apart agree, on from the cut and back from it. A right one has the cut in
    // its first half or at the end of it, a left one in its second half.
    for p in 1..=v.len() {
        let on = v_itself.get(p).map_or(0, |&on| usize::from(on).min(p - 1));
        let back = usize::from(v_against_u[v.len() - p]);
        if on + back >= p {
            found.put(p, c - back, c + on - p);
        }
    }
    for p in 1..u.len() {
        let on = usize::from(u_against_v[u.len() - p]).min(p - 1);
        let back = usize::from(u_itself[p]).min(p - 1);
        if on + back >= p {
            found.put(p, c - p - back, c + on - 2 * p);
        }
    }

    find(u, a, work, found);
    find(v, c, work, found);
}

/// Fills the table of a piece against itself and gives its cost.
fn itself(table: &mut [u16], scan: impl Fn(usize, usize) -> (usize, usize)) -> usize {
    let (mut i, mut known, mut cost) = (1, 0, 0);
    while i < table.len() {
        let (length, looks) = scan(i, known);
        table[i] = length as u16;
        cost += looks;
        let (k, e) = (i, i + length);
        i += 1;
        while i < e && usize::from(table[i - k]) < e - i {
            table[i] = table[i - k];
            i += 1;
        }
        known = e.saturating_sub(i);
    }
    cost
}

/// Fills the table of a piece against a pattern, whose own table this is, and gives its cost.
fn against(own: &[u16], table: &mut [u16], scan: impl Fn(usize, usize) -> (usize, usize)) -> usize {
    let (mut i, mut known, mut cost) = (0, 0, 0);
    while i < table.len() {
        let (length, looks) = scan(i, known);
        table[i] = length as u16;
        cost += looks;
        let (k, e) = (i, i + length);
        i += 1;
        while i < e && usize::from(own[i - k]) < e - i {
            table[i] = own[i - k];
            i += 1;
        }
        known = e.saturating_sub(i);
    }
    cost
}

/// The match length at position i, of which so much is known, and the looks that it takes.
fn forward<'a>(
    walked: &'a [u8],
    pattern: &'a [u8],
) -> impl Fn(usize, usize) -> (usize, usize) + 'a {
    |i, known| {
        let rest = &walked[i..];
        let room = rest.len().min(pattern.len());
        scan(known, room, |at| rest[at] == pattern[at])
    }
}

/// The same with both pieces reversed.
fn backward<'a>(
    walked: &'a [u8],
    pattern: &'a [u8],
) -> impl Fn(usize, usize) -> (usize, usize) + 'a {
    |i, known| {
        let rest = &walked[..walked.len() - i];
        let room = rest.len().min(pattern.len());
        scan(known, room, |at| {
            rest[rest.len() - 1 - at] == pattern[pattern.len() - 1 - at]
        })
    }
}

fn scan(known: usize, room: usize, same: impl Fn(usize) -> bool) -> (usize, usize) {
    let (mut length, mut looks) = (known, 0);
    while length < room {
        looks += 1;
        if !same(length) {
            break;
        }
        length += 1;
    }
    (length, looks)
}
