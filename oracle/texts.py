#!/usr/bin/env python3
"""Random texts of a solver for a job's variables, whole and damaged, each with a slice's length.

  texts.py SEED COUNT   prints how many texts of each sort are answered with each number

A damaged text is mostly a whole one with one thing wrong (text_damages.py).
"""

import argparse
import random
from collections import Counter

import answers
from script import LENGTH, MAX_BYTES
from text_damages import LINES, OF_MANY_SORTS, TEXTS, WORDS

# a text that names more variables may be longer than a script's line holds
MOST = 8_000
SIZES = [0, 1, 2, 3, 5, 8, 9, 10, 11, 12, 20, 30]
LARGE_SIZES = [99, 100, 101, 999, 1_000, 1_001, 3_000]
NO_LINE_FEED = [byte for byte in range(256) if byte != 10]
TALK = [b"", b" ", b"x", b" s SATISFIABLE", b"s UNSATISFIABLE", b"v 1 0", b"--- [ result ] ---"]
TALK += [b"\r", b"\tt", b"1.5 seconds  ", b"\x00\xff", b"c c", "v\u00e4lues".encode()]


def numbers(rng, variables, assignment=None):
    """A sign for each variable, any or as an assignment has it, in rising order or any; the 0."""
    signs = (rng.choice([b"", b"-"]) for _ in range(variables))
    if assignment is not None:
        signs = (b"" if value else b"-" for value in assignment)
    words = [sign + b"%d" % (v + 1) for v, sign in enumerate(signs)]
    if rng.random() < 0.5:
        rng.shuffle(words)
    return [*words, b"0"]


def folded(rng, words):
    """The words in `v` lines: one line, lines of some words each, or lines cut anywhere."""
    size = rng.choice([len(words), rng.randint(1, 20), 1 if len(words) < 40 else 30])
    cuts = range(size, len(words), size)
    if rng.random() < 0.3:
        cuts = sorted(rng.sample(range(1, len(words)), (len(words) - 1) // 3))
    edges = [0, *cuts, len(words)]
    return [b" ".join([b"v", *words[a:b]]) for a, b in zip(edges, edges[1:])]


def comment(rng):
    any_bytes = bytes(rng.choice(NO_LINE_FEED) for _ in range(rng.randrange(9)))
    return rng.choice([b"c", b"c " + any_bytes, *(b"c " + rng.choice(TALK) for _ in range(3))])


def with_comments(rng, lines):
    """The lines with comments anywhere among them."""
    lines = list(lines)
    for _ in range(rng.choice([0, 0, 1, 2, 5])):
        lines.insert(rng.randint(0, len(lines)), comment(rng))
    return lines


def of_assignment(rng, assignment):
    """A whole text of an assignment."""
    words = numbers(rng, len(assignment), assignment)
    lines = [answers.SATISFIABLE, *folded(rng, words)]
    return b"".join(line + b"\n" for line in with_comments(rng, lines))


def made(rng, variables, damages=()):
    """A text of an answer, the damages of these names done to it."""
    words = numbers(rng, variables)
    for name in [name for name in damages if name in WORDS]:
        words = WORDS[name](rng, words)
    lines = [answers.SATISFIABLE, *folded(rng, words)]
    if not WORDS.keys() & set(damages) and rng.random() < 0.25:
        lines = [answers.UNSATISFIABLE]
    for name in [name for name in damages if name in LINES]:
        lines = LINES[name](rng, lines) if lines else lines
    text = b"".join(line + b"\n" for line in with_comments(rng, lines))
    for name in [name for name in damages if name in TEXTS]:
        text = TEXTS[name](rng, text)
    return text[:MAX_BYTES]


def damages_drawn(rng):
    """Names of damages: none of a whole text, mostly one, at times two."""
    if rng.random() < 0.4:
        return []
    levels = rng.choices([WORDS, LINES, TEXTS], [6, 4, 2], k=2 if rng.random() < 0.15 else 1)
    return [rng.choice([*level, *[n for n in OF_MANY_SORTS if n in level] * 3]) for level in levels]


def length_drawn(rng, variables):
    """A slice as long as the variable count, or mostly near it."""
    if variables > MOST and rng.random() < 0.8:
        return rng.randrange(9)
    near = [variables - 1, variables + 1, 0, rng.randint(0, 2 * variables + 3)]
    length = rng.choice(near) if rng.random() < 0.15 else variables
    return max(LENGTH[0], min(LENGTH[1], length))


def drawn(rng, variables):
    """The names of a text's damages, the text, and the length of the slice lent for it."""
    damages = damages_drawn(rng)
    named = rng.randrange(9) if variables > MOST else variables
    return damages, made(rng, named, damages), length_drawn(rng, variables)


def outcome(variables, text, length):
    """The number answered, with what was found where it is 0."""
    status, assignment = answers.read(text, variables)
    if status == 0 and length != variables:
        return "16"
    if status == 0:
        return "0, none" if assignment is None else "0, an assignment"
    return str(status)


def main():
    parser = argparse.ArgumentParser(description="What random texts of a solver are answered with.")
    parser.add_argument("seed", type=int)
    parser.add_argument("count", type=int)
    options = parser.parse_args()
    rng, rows, all_texts = random.Random(f"texts {options.seed}"), Counter(), Counter()
    for _ in range(options.count):
        variables = rng.choice(LARGE_SIZES if rng.random() < 0.05 else SIZES)
        damages, text, length = drawn(rng, variables)
        told = outcome(variables, text, length)
        sort = damages[0] if len(damages) == 1 else "two damages" if damages else "whole"
        rows[sort, told] += 1
        all_texts[told] += 1
    for sort in sorted({sort for sort, _ in rows}):
        cells = sorted((told, n) for (s, told), n in rows.items() if s == sort)
        print(f"{sort:32}" + "  ".join(f"{told}: {n}" for told, n in cells))
    print(f"{'all texts':32}" + "  ".join(f"{told}: {n}" for told, n in sorted(all_texts.items())))


if __name__ == "__main__":
    main()
