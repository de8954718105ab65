#!/usr/bin/env python3
"""Random job files through the program cnf and through the judge; nothing is kept.

  cnf_differential.py SEED [SEED..] [--count COUNT] [--cnf PATH]

For each seed there are COUNT files, the same ones that jobfiles.py writes. Printed are the
differences, and what the files reached (see cnf_coverage.py).
"""

import argparse
import sys
from pathlib import Path

from cnf_coverage import Counted
from differential import answer_of, difference
from driver import Driver
from jobfiles import drawn_files
from judge import add_driver_option

CNF = Path(__file__).resolve().parent.parent / "crates" / "cnf" / "out" / "cnf"


def add_file_options(parser, seeds=None):
    """Seeds, those that count where none is given, how many files each has, and the driver."""
    many = "*" if seeds else "+"
    parser.add_argument("seeds", type=int, nargs=many, default=seeds, metavar="SEED")
    parser.add_argument("--count", type=int, default=300)
    add_driver_option(parser)


def main():
    parser = argparse.ArgumentParser(description="Compares cnf with the judge.")
    add_file_options(parser)
    parser.add_argument("--cnf", default=str(CNF), help="the program to compare")
    options = parser.parse_args()
    driver = Driver(options.driver)
    counted, differences = Counted(driver), 0
    for seed in options.seeds:
        for index, (name, data) in enumerate(drawn_files(driver, seed, options.count)):
            text = counted.answer(name, data)
            found = difference(text, answer_of(options.cnf, data))
            if found:
                differences += 1
                print(f"seed {seed}, file {index} ({name}), {found}: {data.hex()[:400]}")
    counted.report()
    print(f"files that differ: {differences}")
    driver.close()
    sys.exit(1 if differences else 0)


if __name__ == "__main__":
    main()
