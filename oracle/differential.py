#!/usr/bin/env python3
"""Random scripts through the program replay and through the judge; nothing is kept.

  differential.py SEED [SEED..] [--count COUNT] [--kind KIND..] [--without WORD..] [--replay PATH]

For each kind of scripts.py and each seed there is one script of COUNT lines, the same one that
scripts.py writes. Every job in it ends in `show`, so that all records and entries are compared.
Printed are the differences, the calls of each kind, and what they reached (see coverage.py); each
accepted print of an assignment must have been read back, and no call may add anything else than its
figures say, or be refused otherwise than they and the space say (see foretold.py).
"""

import argparse
import io
import random
import subprocess
import sys
from collections import Counter
from pathlib import Path

from coverage import Counted, report
from driver import Driver
from foretold import DIFFER
from judge import add_driver_option
from scripts import WEIGHTS, Generator

REPLAY = Path(__file__).resolve().parent.parent / "crates" / "replay" / "out" / "replay"


def script_of(driver, kind, seed, count, without):
    rng = random.Random(f"{kind} {seed}")
    lines = Generator(kind, rng, driver, show=True, without=without).run(count)
    return "".join(line + "\n" for line in lines).encode()


def difference(expected, got):
    """The first line that differs, shortened; None if there is none."""
    if expected == got:
        return None
    rows = zip([*expected.split(b"\n"), None], [*got.split(b"\n"), None])
    number, (right, wrong) = next((i, row) for i, row in enumerate(rows, 1) if row[0] != row[1])
    return f"line {number}: the judge {str(right)[:100]}, the program {str(wrong)[:100]}"


def answer_of(program, data, *words):
    """What a program prints for an input; one that fails is said to."""
    answer = subprocess.run([program, *words], input=data, capture_output=True, check=False)
    return answer.stdout if answer.returncode == 0 else f"ended with {answer.returncode}".encode()


def compare(driver, replay, data):
    """The counts of a script's run by the judge, and where replay differs from it."""
    judge, out = Counted(driver), io.StringIO()
    judge.run(data, out)
    return judge, difference(out.getvalue().encode(), answer_of(replay, data))


def arguments_given():
    parser = argparse.ArgumentParser(description="Compares replay with the judge.")
    parser.add_argument("seeds", type=int, nargs="+", metavar="SEED")
    parser.add_argument("--count", type=int, default=300)
    parser.add_argument("--kind", nargs="+", choices=sorted(WEIGHTS), default=sorted(WEIGHTS))
    parser.add_argument("--without", nargs="*", default=[], metavar="WORD")
    parser.add_argument("--replay", default=str(REPLAY), help="the program to compare")
    add_driver_option(parser)
    return parser.parse_args()


def main():
    options = arguments_given()
    driver = Driver(options.driver)
    numbers, reached, differences = Counter(), Counter(), 0
    for kind in [kind for kind in options.kind if not set(WEIGHTS[kind]) <= set(options.without)]:
        calls = 0
        for seed in options.seeds:
            data = script_of(driver, kind, seed, options.count, options.without)
            judge, found = compare(driver, options.replay, data)
            if found:
                differences += 1
                print(f"kind {kind}, seed {seed}, {found}")
            numbers += judge.numbers
            reached += judge.reached
            calls += sum(judge.numbers.values())
        print(f"{kind:10}{calls} calls", flush=True)
    report(numbers, reached)
    unread = reached["prints", "accepted"] - reached["prints", "read back"]
    other = reached["compared", DIFFER]
    print(f"scripts that differ: {differences}, prints not read back: {unread}", end="")
    print(f", calls other than their figures: {other}")
    driver.close()
    sys.exit(1 if differences or unread or other else 0)


if __name__ == "__main__":
    main()
