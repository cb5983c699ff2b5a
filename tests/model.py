#!/usr/bin/env python3
"""Document 01 by brute force, written from the document alone: the expected output of the programs `examples` and `trial`.

    tests/model.py examples    as crates/examples/stdout has it
    tests/model.py trial       as crates/trial/stdout has it
"""
import itertools
import sys

LIMIT = 16_384
LAST_64 = 2**64 - 1


# What is right


def stands(text, s, p):
    return p >= 1 and s + 2 * p <= len(text) and all(text[s + k] == text[s + p + k] for k in range(p))


def repetitions(text):
    n = len(text)
    return [(s, p) for s in range(n) for p in range(1, n // 2 + 1) if stands(text, s, p)]


def depth(n):
    return next(d for d in itertools.count() if 2**d >= n)


def parts(a, b):
    """Each part of two bytes or more, with its cut, before those of its left piece and those of its right piece."""
    if b - a >= 2:
        c = a + (b - a + 1) // 2
        yield a, b, c
        yield from parts(a, c)
        yield from parts(c, b)


def blocks(text, found):
    for a, b, c in parts(0, len(text)):
        own = [(s, p) for s, p in found if a <= s and s + 2 * p <= b and s < c < s + 2 * p]
        for of_class in [(s, p) for s, p in own if s + p >= c], [(s, p) for s, p in own if s + p < c]:
            for half in sorted({p for _, p in of_class}):
                starts = sorted(s for s, p in of_class if p == half)
                assert starts == list(range(starts[0], starts[-1] + 1))
                yield half, starts[0], starts[-1]


def match(walked, pattern, i):
    length = 0
    while i + length < len(walked) and length < len(pattern) and walked[i + length] == pattern[length]:
        length += 1
    return length


def cost(walked, pattern, first):
    """The comparisons of a table, by the counting rule."""
    total, k, e = 0, 0, 0
    for i in range(first, len(walked)):
        length = match(walked, pattern, i)
        if e > i and match(pattern, pattern, i - k) < e - i:
            assert length == match(pattern, pattern, i - k)
            continue
        j = max(e - i, 0)
        total += length - j + (i + length < len(walked) and length < len(pattern))
        k, e = i, i + length
    return total


def comparisons(text):
    total = 0
    for a, b, c in parts(0, len(text)):
        u, v = text[a:c], text[c:b]
        u_backward, v_backward = u[::-1], v[::-1]
        total += cost(v, v, 1) + cost(u_backward, u_backward, 1) + cost(v_backward, u_backward, 0) + cost(u, v, 0)
    return total


def listing(text):
    return list(blocks(text, repetitions(text))), comparisons(text)


# Texts that are too long for brute force


def equal_bytes(n):
    """Number of blocks and comparisons of n equal bytes."""
    if n < 2:
        return 0, 0
    u = (n + 1) // 2
    v = n - u
    left, right = equal_bytes(u), equal_bytes(v)
    # right blocks have the halves 1 to v, left ones 2 to u - 1
    return v + max(u - 2, 0) + left[0] + right[0], 2 * n - 2 + left[1] + right[1]


for n in range(1, 40):
    assert equal_bytes(n) == (len(listing(bytes(n))[0]), listing(bytes(n))[1])

# How often 2 divides 1, 2, 3, ..: between two equal bytes stands a greater one, so nothing stands twice in a row.
TWOS = bytes((i & -i).bit_length() - 1 for i in range(1, LIMIT + 1))


# The lines of `examples`: reports are full of 7 and work spaces of 9 before a call


def runs(numbers):
    return ",".join(f" {len(list(run))} of {number}" for number, run in itertools.groupby(numbers))


def refusal(text, work):
    return 1 if len(text) > LIMIT else 2 if work < 2 * len(text) else 0


def work_left(text, work):
    cleared = 0 if refusal(text, work) else 2 * len(text)
    return runs([0] * cleared + [9] * (work - cleared))


def list_line(name, text, work, report, known=None):
    left = [7] * report
    reply = refusal(text, work)
    said = str(reply)
    if reply == 0:
        room = report // 3
        if known is None:
            listed, compared = listing(text)
            known = listed, len(listed), compared
        leading, k, c = known
        numbers = [number for block in leading[:room] for number in block]
        left[: len(numbers)] = numbers
        said = f"{0 if k <= room else 3}, blocks {k}, comparisons {c}"
    shown = "".join(f" {number}" for number in left)
    return f"list {name}, work of {work}, report of {report}: reply {said}; report{shown}; work{work_left(text, work)}"


def place_line(name, text, s, p):
    if len(text) > LIMIT:
        said = "1"
    elif p == 0 or s + 2 * p > len(text):
        said = "4"
    else:
        said = "0, yes" if stands(text, s, p) else "0, no"
    return f"place in {name}, start {s}, half {p}: reply {said}"


def asked_line(question, name, text, work, answer):
    reply = refusal(text, work)
    said = reply or f"0, {answer(text)}"
    return f"{question} {name}, work of {work}: reply {said}; work{work_left(text, work)}"


def free(text):
    return "no" if repetitions(text) else "yes"


def longest(text):
    best = None
    for half, first, _ in listing(text)[0]:
        if best is None or half > best[0]:
            best = half, first
    return f"start {best[1]}, half {best[0]}" if best else "none"


def room_line(n):
    return f"room for {n}: reply " + ("1" if n > LIMIT else f"0, blocks {n * depth(n)}")


def quoted(text):
    return f'"{text.decode()}"'


def examples():
    for text, work, report in [
        (b"", 1, 3),
        (b"a", 3, 3),
        (b"aa", 5, 6),
        (b"ab", 5, 3),
        (b"aba", 7, 3),
        (b"abab", 9, 6),
        (b"aaaa", 9, 15),
        (b"ababc", 11, 6),
        (b"abcabcab", 17, 9),
    ]:
        yield list_line(quoted(text), text, work, report)
    for text, report in [(bytes(4), 15), (bytes([255] * 4), 15), (bytes([0, 255, 0, 255]), 6)]:
        yield list_line("bytes " + " ".join(map(str, text)), text, 9, report)
    for work, report in [(8, 12), (8, 11), (8, 7), (8, 2), (7, 12)]:
        yield list_line('"aaaa"', b"aaaa", work, report)
    yield list_line('"a"', b"a", 1, 3)
    for s, p in [(0, 2), (1, 1), (1, 2), (0, 0), (4, 0)]:
        yield place_line('"abab"', b"abab", s, p)
    yield place_line('""', b"", 0, 1)
    for s, p in [(LAST_64, 1), (0, LAST_64), (0, 2**63), (LAST_64 - 1, 3), (LAST_64, LAST_64), (LAST_64, 0)]:
        yield place_line('"abab"', b"abab", s, p)
    for text, work in [(b"", 1), (b"aa", 5), (b"ab", 5), (b"ab", 3)]:
        yield asked_line("free", quoted(text), text, work, free)
    for text, work in [(b"aa", 5), (b"ab", 5), (b"aaaa", 9), (b"abcabcab", 17), (b"aa", 3)]:
        yield asked_line("longest", quoted(text), text, work, longest)
    for n in [0, 1, 2, 3, LIMIT, LIMIT + 1, LAST_64]:
        yield room_line(n)

    cut = LIMIT // 2
    first_block = [(1, cut - 1, cut - 1)]
    for byte in 0, 255:
        text = bytes([byte] * LIMIT)
        yield list_line(f"16384 bytes {byte}", text, 2 * LIMIT + 1, 4, (first_block, *equal_bytes(LIMIT)))
    name = "16384 bytes 0 1 0 2 0 1 0 3 .."
    yield list_line(name, TWOS, 2 * LIMIT, 3, ([], 0, comparisons(TWOS)))
    yield asked_line("free", name, TWOS, 2 * LIMIT, lambda _: "yes")
    zeros = bytes(LIMIT)
    yield asked_line("longest", "16384 bytes 0", zeros, 2 * LIMIT, lambda _: f"start 0, half {cut}")
    yield place_line("16384 bytes 0", zeros, 0, cut)
    yield list_line("16384 bytes 0", zeros, 2 * LIMIT - 1, 3)
    longer = bytes(LIMIT + 1)
    yield list_line("16385 bytes 0", longer, 2 * LIMIT + 2, 3)
    yield list_line("16385 bytes 0", longer, 0, 3)
    yield place_line("16385 bytes 0", longer, 0, 0)
    yield asked_line("free", "16385 bytes 0", longer, 0, free)
    yield asked_line("longest", "16385 bytes 0", longer, 0, longest)


# The lines of `trial`


def trial():
    for name, alphabet, most in [
        ("letters a b", b"ab", 12),
        ("bytes 0 255", bytes([0, 255]), 10),
        ("letters a b c", b"abc", 7),
        ("bytes 0 97 255", bytes([0, 97, 255]), 7),
    ]:
        texts = places = found = listed = compared = 0
        for n in range(most + 1):
            for letters in itertools.product(alphabet, repeat=n):
                text = bytes(letters)
                of_text = repetitions(text)
                texts += 1
                places += (n + 2) ** 2
                found += len(of_text)
                listed += len(list(blocks(text, of_text)))
                compared += comparisons(text)
        yield (
            f"{name}, up to {most}: {texts} texts, {places} places, {found} repetitions, {listed} blocks, "
            f"{compared} comparisons, 0 disagreed"
        )


programs = {"examples": examples, "trial": trial}
if len(sys.argv) != 2 or sys.argv[1] not in programs:
    sys.exit("usage: tests/model.py examples|trial")
for line in programs[sys.argv[1]]():
    print(line)
