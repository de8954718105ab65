#!/usr/bin/env python3
"""The judge: says what is right, from standard input to standard output.

  judge.py replay    a script of calls, answered line by line
  judge.py verbose   the same, with heights, setting records and the clauses written
  judge.py cnf       a job file, printed as DIMACS or refused
  judge.py inner     inequalities and adders on given literals
  judge.py values JOBFILE   a solver's text for a job file: settings and switches, none, or refused
  judge.py figures JOBFILE FIELDFILE   the figures of one more field behind a job file, from these
                            two files alone
"""

import argparse
import sys
from pathlib import Path

import figures
import inner
import jobfile
import values
from driver import Driver
from script import Script

FILES = {"values": 1, "figures": 2}
DEFAULT_DRIVER = Path(__file__).resolve().parent.parent / "target" / "oracle" / "driver"


def add_driver_option(parser):
    parser.add_argument("--driver", default=str(DEFAULT_DRIVER), help="the program built by build")


def run_values(driver, job, text):
    sys.stdout.buffer.write(values.answer(driver, job, text))
    if len(text) > values.MAX_TEXT:
        sys.stderr.write(values.TOO_LONG)


def arguments_given():
    parser = argparse.ArgumentParser(description="Answers scripts of calls and job files.")
    modes = ["replay", "verbose", "cnf", "inner", "values", "figures"]
    parser.add_argument("mode", choices=modes)
    parser.add_argument("files", type=Path, nargs="*", help="those of values and figures")
    add_driver_option(parser)
    options = parser.parse_args()
    if len(options.files) != FILES.get(options.mode, 0):
        parser.error("values takes a job file, figures a job file and a field, the others none")
    return options


def main():
    options = arguments_given()
    driver = Driver(options.driver)
    given = [path.read_bytes() for path in options.files]
    data = b"" if options.mode == "figures" else sys.stdin.buffer.read()
    if options.mode == "values":
        run_values(driver, *given, data)
    elif options.mode == "figures":
        sys.stdout.write(figures.answer(driver, *given))
    elif options.mode == "cnf":
        jobfile.run(driver, data, sys.stdout)
    elif options.mode == "inner":
        inner.run(driver, data.decode("ascii").split("\n"), sys.stdout)
    else:
        Script(driver, options.mode == "verbose").run(data, sys.stdout)
    driver.close()


if __name__ == "__main__":
    main()
