#!/usr/bin/env python3
"""Random job files and texts of a solver through the program values and the judge; nothing is kept.

  values_differential.py SEED [SEED..] [--count COUNT] [--values PATH]

For each seed there are COUNT files, the same ones that jobfiles.py writes. An accepted file is
given texts of any assignment of its variables, unsatisfiable and damaged ones (texts.py), a refused
file one of them. An accepted file for which a satisfying assignment is soon found (sought.py) is
given texts of such ones, and of these with one bit turned. Some texts are as long as the program
can read, or one byte longer: then nothing may be printed, and something said on standard error.
"""

import argparse
import random
import subprocess
import sys
import tempfile
from collections import Counter
from pathlib import Path

import jobfile
import texts
import values
from cnf_differential import add_file_options
from differential import answer_of, difference
from driver import Driver
from jobfiles import drawn_files
from readings import bit_turned
from sought import sought

VALUES = Path(__file__).resolve().parent.parent / "crates" / "values" / "out" / "values"
PER_FILE = 3
SATISFYING = 2
LIMIT = 1_000
SELDOM = 0.03


def padded(rng, text):
    """A comment ahead, so that the text is as long as one may be, one byte less or one more."""
    size = values.MAX_TEXT + rng.choice([-1, 0, 1])
    return b"c " + b"x" * (size - len(text) - 3) + b"\n" + text


def long_number(text):
    """A number of a million digits ahead of the last one."""
    return text.replace(b" 0\n", b" 1" + b"0" * 1_000_000 + b" 0\n")


def drawn_text(rng, variables):
    """A random text, and what was done to it."""
    damages = texts.damages_drawn(rng)
    text = texts.made(rng, variables, damages)
    if rng.random() < SELDOM:
        others = {"empty": b"", "padded": padded(rng, text), "long": long_number(text)}
        return rng.choice(list(others.items()))
    return ", ".join(damages) or "whole", text


def satisfying_texts(rng, calls):
    """Texts of satisfying assignments, each also with one bit turned, and what was done to them."""
    drawn = [sought(rng, calls, LIMIT) for _ in range(SATISFYING)]
    for assignment in [assignment for assignment in drawn if assignment is not None]:
        yield "satisfying", texts.of_assignment(rng, assignment)
        if assignment:
            turned = bit_turned(rng, assignment, rng.randrange(len(assignment)))
            yield "one bit turned", texts.of_assignment(rng, turned)


def drawn_pairs(driver, seed, count):
    """What was done to a file and to a text, the file, the text."""
    rng = random.Random(f"values {seed}")
    for name, data in drawn_files(driver, seed, count):
        printed, calls = jobfile.answer(driver, data)
        refused = printed.startswith(b"refused")
        given = [drawn_text(rng, calls.job.variables) for _ in range(1 if refused else PER_FILE)]
        given += [] if refused else satisfying_texts(rng, calls)
        for done, text in given:
            yield f"file {name}, text {done}", data, text


def outcome(right, text):
    """What a right answer is counted as."""
    if len(text) > values.MAX_TEXT:
        return "text too long"
    word, *rest = right.split(b"\n")[0].decode().split()
    if word != "refused":
        return "none" if word == "none" else "settings and switches"
    return f"refused {rest[1]:>2}"


def too_long(program, path, text):
    """What is wrong with the answer to a text that is too long."""
    ended = subprocess.run([program, path], input=text, capture_output=True, check=False)
    return None if ended.stdout == b"" and ended.stderr else "a text too long is not turned down"


def found_in(program, path, right, text):
    """Where the program differs from what is right; None if nowhere."""
    if len(text) > values.MAX_TEXT:
        return too_long(program, path, text)
    return difference(right, answer_of(program, text, path))


def compared(driver, options, path):
    """Goes through all files and texts; the counts of outcomes, and how many differ."""
    counts, differences = Counter(), 0
    for seed in options.seeds:
        for name, data, text in drawn_pairs(driver, seed, options.count):
            path.write_bytes(data)
            right = values.answer(driver, data, text)
            counts[outcome(right, text)] += 1
            found = found_in(options.values, path, right, text)
            if found:
                differences += 1
                print(f"seed {seed}, {name}, {found}: {data.hex()[:400]}, {text[:200]}")
    return counts, differences


def main():
    parser = argparse.ArgumentParser(description="Compares values with the judge.")
    add_file_options(parser)
    parser.add_argument("--values", default=str(VALUES), help="the program to compare")
    options = parser.parse_args()
    driver = Driver(options.driver)
    with tempfile.TemporaryDirectory() as folder:
        counts, differences = compared(driver, options, Path(folder) / "job")
    for name, count in sorted(counts.items()):
        print(f"{name}: {count}")
    print(f"texts: {sum(counts.values())}, of which differ: {differences}")
    driver.close()
    sys.exit(1 if differences else 0)


if __name__ == "__main__":
    main()
