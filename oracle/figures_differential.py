#!/usr/bin/env python3
"""Random job files and fields through the example figures, which calls the static library, and
through the judge; nothing is kept.

  figures_differential.py SEED [SEED..] [--count COUNT] [--figures PATH]

For each seed there are COUNT files, the same ones that jobfiles.py writes. An accepted file is
given fields of sums and products of its settings, faulty and damaged ones, a refused file one of
them. Figures that are given are also held to what the call then adds, with enough space.
"""

import argparse
import random
import sys
from collections import Counter
from pathlib import Path

import arguments
import figures
import jobfile
import sizes
from calls import Calls
from cnf_differential import add_file_options
from differential import answer_of, difference
from driver import Driver
from foretold import added
from jobfiles import changed, drawn_files, field, raw
from script import MAX_STORES

FIGURES = Path(__file__).resolve().parent.parent / "target" / "figures"
PER_FILE = 6
LONGEST = 21_843  # terms

SORTS = ["sum"] * 6 + ["product"] * 3 + ["faulty sum"] * 3 + ["faulty product", "many terms"]


def drawn_rule(rng, job):
    """The field of a sum or a product, and what it is: of the job's settings, or faulty."""
    sort, count = rng.choice(SORTS), arguments.known(job)
    wanted = sizes.WANTED[rng.choice(list(sizes.WANTED))]
    if sort == "many terms":
        terms = [n for _ in range(rng.choice([6, 7, 8, 100, LONGEST])) for n in (0, 1)]
        return sort, field("linear", rng.choice([0, 6]), 0, *terms)
    if sort.endswith("product"):
        numbers = [rng.randrange(count + 1) for _ in "xym"]
        if sort == "product" and count:
            numbers = arguments.sought_product(rng, job, lambda _, reached: wanted(reached), 40)
        return sort, field("mul", *numbers)
    op, constant, terms = arguments.sought_linear(rng, job, wanted, tries=40)
    for fault in rng.sample(sizes.FAULTS, rng.choice([1, 1, 2])) if sort == "faulty sum" else []:
        op, constant, terms = fault(rng, count, op, constant, terms)
    return sort, field("linear", op, constant, *terms)


# What is done to the bytes of a field.
DAMAGES = {
    "cut": lambda rng, data: data[: rng.randrange(len(data))],
    "a byte changed": lambda rng, data: changed(data, rng.randrange(len(data)), rng.randrange(256)),
    "other tag": lambda rng, data: changed(data, 0, rng.choice([0, 1, 2, 3, 4, 5, 6, 7, 255])),
    "length off": lambda rng, data: changed(data, 2, data[2] + rng.choice([1, -1])),
    "a byte behind": lambda rng, data: data + bytes([rng.randrange(8)]),
    "twice": lambda rng, data: data + data,
    "contents off": lambda rng, data: raw(data[0], (data[3:] + b"\1")[rng.randrange(3) :]),
    "nothing": lambda rng, data: b"",
    "a setting": lambda rng, data: rng.choice([field("range", 0, 1), field("open", 1)]),
}
WHOLE = 0.75

# The C program takes the longest field and one byte more.
MAX_GIVEN = 3 + 65_535 + 1


def drawn_field(rng, job):
    """A random field, and what it is."""
    sort, data = drawn_rule(rng, job)
    if rng.random() < WHOLE:
        return sort, data
    done = rng.choice(list(DAMAGES))
    return f"{sort}, {done}", DAMAGES[done](rng, data)[:MAX_GIVEN]


def drawn_pairs(driver, seed, count):
    """What was done to a file and what a field is, the file, the field."""
    rng = random.Random(f"figures {seed}")
    for name, data in drawn_files(driver, seed, count):
        printed, calls = jobfile.answer(driver, data)
        refused = printed.startswith(b"refused")
        for _ in range(1 if refused else PER_FILE):
            sort, given = drawn_field(rng, calls.job)
            yield f"file {name}, field {sort}", data, given


def by_the_call(driver, data, given):
    """What the field adds behind the file, with enough space."""
    calls = Calls(driver, *MAX_STORES)
    jobfile.run_fields(calls, data)
    before = calls.job
    jobfile.call(calls, *figures.rule_of(given))
    return added(before, calls.job)


def outcome(driver, data, given, right):
    """What a right answer is counted as."""
    number, _, *made = right
    if number == 0:
        is_added = by_the_call(driver, data, given) == tuple(made)
        return "figures, added by the call" if is_added else "figures other than the call adds"
    refused = figures.figures(driver, data, field("linear", 0, 0), *jobfile.STORES)[0]
    return f"{'file' if refused else 'field'} refused {number:>2}"


def framed(data, given):
    """A pair behind its lengths, as the example reads it."""
    lengths = [len(part).to_bytes(4, "big") for part in (data, given)]
    return b"".join([*lengths, data, given])


def compared(driver, program, seed, count):
    """The counts of outcomes of a seed's pairs; where the program differs first, or None."""
    pairs, counts = list(drawn_pairs(driver, seed, count)), Counter()
    lines = []
    for _, data, given in pairs:
        right = figures.figures(driver, data, given, *jobfile.STORES)
        counts[outcome(driver, data, given, right)] += 1
        lines.append(" ".join(map(str, right)) + "\n")
    told = answer_of(program, b"".join(framed(data, given) for _, data, given in pairs))
    found = difference("".join(lines).encode(), told)
    if found:
        at = min(int(found.split()[1][:-1]), len(pairs)) - 1
        name, data, given = pairs[at]
        found = f"{found}: {name}: {data.hex()[:400]}, {given.hex()[:100]}"
    return counts, found


def main():
    parser = argparse.ArgumentParser(description="Compares figures of the library with the judge.")
    add_file_options(parser)
    parser.add_argument("--figures", default=str(FIGURES), help="the example, built")
    options = parser.parse_args()
    driver, counts, differences = Driver(options.driver), Counter(), 0
    for seed in options.seeds:
        more, found = compared(driver, options.figures, seed, options.count)
        counts += more
        if found:
            differences += 1
            print(f"seed {seed}, {found}")
    for name, count in sorted(counts.items()):
        print(f"{name}: {count}")
    other = counts["figures other than the call adds"]
    print(f"pairs: {sum(counts.values())}, seeds that differ: {differences}")
    driver.close()
    sys.exit(1 if differences or other else 0)


if __name__ == "__main__":
    main()
