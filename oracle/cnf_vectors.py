#!/usr/bin/env python3
"""Input of the program crates cnf and cnf_files, and the judge's answers to it.

  cnf_vectors.py SEED [DIRECTORY]   writes stdin and stdout of DIRECTORY/cnf and of
                                    DIRECTORY/cnf_files (crates if absent)

cnf reads one job file of 8,192 bytes, as long as one may be: examples/rev_ceiling.job, then fields that add nothing, and a
last one that adds a variable in no clause, so that a program that loses a byte prints another text. The input of cnf_files is a row of job files, each behind
its length in two bytes, high byte first; its output is their prints, one after another. The files
are those of cnf_chapters.py, then random ones whose print is not long. What was reached is printed.
"""

import argparse
from pathlib import Path

import cnf_chapters
import jobfile
from cnf_coverage import Counted
from driver import Driver
from jobfiles import drawn_files
from judge import add_driver_option
from mistakes import told_apart
from replay_vectors import DIRECTORY, write

KEPT = Path(__file__).resolve().parent.parent / "examples" / "rev_ceiling.job"
NO_TERMS = bytes([5, 0, 5, 0, 0, 0, 0, 0])  # a sum of no terms, Eq 0
ONLY_0 = bytes([3, 0, 2, 0, 0])  # a list with the one value 0
LAST = bytes([2, 0, 4, 0, 0, 0, 1])  # a range 0..1
LENGTH = 8192
RANDOM = 200
LONGEST = 10_000
REACHABLE = {*range(2, 14), 15, 18}


def written_files(driver):
    """The files of all chapters; those of a mistake's chapter must tell it apart."""
    chapters = cnf_chapters.chapters(driver)
    for name in cnf_chapters.MISTAKE_CHAPTERS:
        for data in chapters[name]:
            if name not in told_apart(driver, data, jobfile.answer(driver, data)[0]):
                raise AssertionError(f"{name}: not told apart by {data.hex()}")
    return [(name, data) for name, files in chapters.items() for data in files]


def random_files(driver, seed):
    """Random files whose print is short enough to be kept."""
    for name, data in drawn_files(driver, seed, RANDOM):
        if len(jobfile.answer(driver, data)[0]) <= LONGEST:
            yield "random, " + name, data


def longest_file():
    """The kept sheet, made as long as a job file may be."""
    sheet = KEPT.read_bytes() + ONLY_0
    left = LENGTH - len(sheet) - len(LAST)
    if left % len(NO_TERMS):
        raise AssertionError("the kept sheet cannot be made 8,192 bytes long by these fields")
    return sheet + left // len(NO_TERMS) * NO_TERMS + LAST


def main():
    parser = argparse.ArgumentParser(description="Input of cnf and cnf_files, and their answers.")
    parser.add_argument("seed", type=int)
    parser.add_argument("directory", type=Path, nargs="?", default=DIRECTORY)
    add_driver_option(parser)
    options = parser.parse_args()
    driver = Driver(options.driver)
    kept = longest_file()
    write(options.directory / "cnf", kept, jobfile.answer(driver, kept)[0])
    counted, stdin, stdout = Counted(driver), b"", b""
    for name, data in [*written_files(driver), *random_files(driver, options.seed)]:
        text = counted.answer(name, data)
        stdin += len(data).to_bytes(2, "big") + data
        stdout += text
    write(options.directory / "cnf_files", stdin, stdout)
    counted.report()
    missing = REACHABLE - set(counted.refusals)
    if missing:
        raise AssertionError(f"refusals that no file reaches: {sorted(missing)}")
    if not counted.free["their last"]:
        raise AssertionError("no file tells the variable count from the highest that occurs")
    driver.close()


if __name__ == "__main__":
    main()
