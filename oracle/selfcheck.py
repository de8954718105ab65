#!/usr/bin/env python3
"""Checks the judge against the bench values, points of a solver's answer (answer_points.py), of
readings (reading_points.py) and of figures (figures_points.py) written by hand and, on small jobs,
the plain book. The figures of random rules are held to the call and to a count apart.

  selfcheck.py [--seed SEED] [--jobs JOBS]
"""

import argparse
import io
import random
from collections import Counter
from itertools import product

import answer_points
import figures_points
import jobfile
import reading_points
from book import Book, agrees, written
from driver import Driver
from judge import add_driver_option
from script import Script
from scripts import Generator

# Name, lines before, the call, and the first lines of its verbose answer; an expected line that
# ends in a space is only the line's beginning.
LARGE = "stores 524288 131072"
SIX = [LARGE, "open 0", *["range 0 127"] * 6]
BENCH = [
    ("0..0", ["open 0"], "range 0 0", ["0 0 0 0 0", "setting 0 0 0 :", "clauses"]),
    (
        "0..14",
        ["open 0"],
        "range 0 14",
        ["0 0 4 1 4", "setting 0 14 0 : 0 2 4 6", "clauses | 1 3 5 7"],
    ),
    ("0..99", ["open 0"], "range 0 99", ["0 0 7 3 12"]),
    ("5..7", ["open 0"], "range 5 7", ["0 0 3 2 4"]),
    (
        "-3..-1",
        ["open 0"],
        "range -3 -1",
        ["0 0 2 1 2", "setting -3 -1 -3 : 0 2", "clauses | 1 3"],
    ),
    ("list 1, 4", ["open 0"], "list 1 4", ["0 0 3 5 14"]),
    (
        "values 0/5",
        ["open 1"],
        "binary 0 0 5",
        ["0 0 2 1 1", "setting 0 5 0 : 0 2 0", "clauses | 3"],
    ),
    ("values 2/5", ["open 1"], "binary 0 2 5", ["0 0 1 0 0", "setting 2 5 0 : 0 1 0", "clauses"]),
    ("no terms, 0", ["open 0"], "linear 0 0", ["0 0 0 0 0", "height 0", "clauses"]),
    ("no terms, 3", ["open 0"], "linear 0 3", ["0 0 0 1 0", "height 0", "clauses |"]),
    (
        "2a + 1",
        ["open 0", "range 0 2"],
        "linear 0 1 0 2",
        ["0 0 2 2 2", "height 0 dead", "clauses |"],
    ),
    ("-4095..0", ["open 0"], "range -4095 0", ["0 0 12 0 0"]),
    ("-4095..1", ["open 0"], "range -4095 1", ["3 0 0 0 0"]),
    (
        "seven by seven",
        [LARGE, "open 0", "range 0 127", "range 0 127", "range 0 4095"],
        "mul 0 1 2",
        ["0 ", "height 12"],
    ),
    (
        "seven by eight",
        [LARGE, "open 0", "range 0 127", "range 0 255", "range 0 4095"],
        "mul 0 1 2",
        ["13 ", "height 13"],
    ),
    ("six, 1", SIX, "linear 0 0 0 1 1 1 2 1 3 1 4 1 5 1", ["0 ", "height 11"]),
    ("six, 3", SIX, "linear 0 0 0 3 1 3 2 3 3 3 4 3 5 3", ["13 "]),
    (
        "six, 6, odd",
        SIX,
        "linear 0 1 0 6 1 6 2 6 3 6 4 6 5 6",
        ["0 0 42 1 0", "height 0 dead", "clauses |"],
    ),
    ("six, 6, even", SIX, "linear 0 2 0 6 1 6 2 6 3 6 4 6 5 6", ["13 "]),
]
EXAMPLE = bytes.fromhex("01 0001 00 02 0004 0000 0002 02 0004 0000 0001")
EXAMPLE_PRINT = "p cnf 3 1\n-1 -2 0\n"
LEAST_LINES, LINES = 4, 7
GONE_THROUGH = 10  # variables


def matches(line, wanted):
    return line.startswith(wanted) if wanted.endswith(" ") else line == wanted


def check_bench(driver):
    """Faults among the bench values."""
    faults = []
    for name, before, call, expected in BENCH:
        script = Script(driver, verbose=True)
        for line in before:
            script.line(line.encode())
        answer = script.line(call.encode())
        right = [matches(line, wanted) for line, wanted in zip(answer, expected)]
        if len(answer) < len(expected) or not all(right):
            faults.append(f"{name}: {answer}")
    return faults


def check_example(driver):
    out = io.StringIO()
    jobfile.run(driver, EXAMPLE, out)
    return [] if out.getvalue() == EXAMPLE_PRINT else ["example: " + out.getvalue()]


def small_job(driver, seed, count):
    """One small random job of some lines: these, its calls, its book."""
    lines = Generator("small", random.Random(f"book {seed}"), driver).run(count)
    script, book = Script(driver), Book()
    for line in lines:
        word, *numbers = line.split()
        answer = script.line(line.encode())
        if answer:
            book.feed(word, [int(n) for n in numbers], int(answer[0].split()[0]))
    return lines, script.calls, book


def check_jobs(driver, seeds, counts):
    """Faults among small random jobs held to the book; what they have is counted."""
    for seed in seeds:
        lines, calls, book = small_job(driver, seed, LINES)
        choices = book.choices()
        counts["small jobs"] += 1
        counts["of these with a choice"] += choices != []
        counts["rules"] += len(book.rules)
        counts["choices"] += len(choices)
        if not agrees(calls, written(calls), book):
            yield f"job {seed}: {lines}"


def check_readings(driver, seeds, counts):
    """Faults among the readings of those with few variables, and of their beginnings."""
    for seed, count in product(seeds, range(LEAST_LINES, LINES + 1)):
        lines, calls, book = small_job(driver, seed, count)
        if calls.job.count and calls.job.variables <= GONE_THROUGH:
            faults, accepted = reading_points.check_all(calls, written(calls), book)
            counts["jobs read under all assignments"] += 1
            counts["assignments"] += 2**calls.job.variables
            counts["of these accepted"] += accepted
            yield from (f"job {seed}: {lines}: {fault}" for fault in faults)


def main():
    parser = argparse.ArgumentParser(description="Checks the judge.")
    parser.add_argument("--seed", type=int, default=1)
    parser.add_argument("--jobs", type=int, default=200)
    add_driver_option(parser)
    options = parser.parse_args()
    driver = Driver(options.driver)
    faults = check_bench(driver) + check_example(driver)
    print(f"bench values and example: {len(BENCH) + 1}, faults: {len(faults)}")
    told, points = answer_points.faults(options.seed, options.jobs)
    print(f"points of a solver's answer, texts read in two manners: {points}, faults: {len(told)}")
    faults += told
    told = list(reading_points.check_points(driver))
    points = len([*reading_points.points(), *reading_points.PRINTS])
    print(f"points of a reading: {points}, faults: {len(told)}")
    faults += told
    told = list(figures_points.check_points(driver))
    points = len([*figures_points.points(), *figures_points.FIELDS])
    print(f"points of figures: {points}, faults: {len(told)}")
    faults, counts = faults + told, Counter()
    seeds = range(options.seed, options.seed + options.jobs)
    faults += [*check_jobs(driver, seeds, counts), *check_readings(driver, seeds, counts)]
    faults += figures_points.check_random(driver, seeds, counts)
    print(", ".join(f"{name}: {count}" for name, count in counts.items()))
    print(f"faults in all: {len(faults)}")
    for fault in faults:
        print(fault)
    driver.close()
    return 1 if faults else 0


if __name__ == "__main__":
    raise SystemExit(main())
