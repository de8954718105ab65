#!/usr/bin/env python3
"""Solvers' answers as they are, given to the program values and held to the plain book.

  solver_answers.py [SEED..] [--count COUNT] [--cnf PATH] [--values PATH] [--solver PATH..]

Printed by the program cnf are the sheets of examples/ and the accepted ones of the files of
jobfiles.py. What a solver writes to standard output goes unchanged to values. Where the solver
found an assignment, values must print a line for each setting and each switch of the book, and
these must be a choice that meets it; where it found none, `none`. All solvers must say the same.
"""

import argparse
import subprocess
import tempfile
from functools import partial
from itertools import chain
from pathlib import Path

from cnf_differential import CNF, add_file_options
from differential import answer_of
from driver import Driver
from solve_files import SATISFIABLE, UNSATISFIABLE, book_of, check_files, random_files
from solver_values import SOLVERS, examples
from values_differential import VALUES

SEEDS = [21, 22]


def asked(solver, text):
    """Whether a solver found an assignment, and its whole answer."""
    ended = subprocess.run([solver], input=text, capture_output=True, check=False)
    if ended.returncode not in (SATISFIABLE, UNSATISFIABLE):
        raise RuntimeError(f"{solver} ended with {ended.returncode}")
    return ended.returncode == SATISFIABLE, ended.stdout


def numbered(lines, word):
    """What the lines of a word say, if they are numbered from 0; None if not."""
    rows = [line.split(" ") for line in lines]
    if any(len(row) != 3 for row in rows):
        return None
    right = [row[:2] for row in rows] == [[word, str(index)] for index in range(len(rows))]
    return [row[2] for row in rows] if right else None


def choice_of(printed, book):
    """The switches and the settings' numbers that values printed; None if it is no choice."""
    lines = printed.decode().split("\n")
    count = len(book.settings)
    if len(lines) != count + book.switches + 1 or lines[-1] != "":
        return None
    numbers, words = numbered(lines[:count], "setting"), numbered(lines[count:-1], "switch")
    if numbers is None or words is None or not set(words) <= {"yes", "no"}:
        return None
    return [int(word == "yes") for word in words], [int(number) for number in numbers]


def fault_in(found, printed, book):
    """What is wrong with the print of a solver's answer; None if nothing."""
    if not found:
        return None if printed == b"none\n" else f"no assignment, but {printed[:80]}"
    choice = choice_of(printed, book)
    if choice is None:
        return f"no line for each setting and switch: {printed[:80]}"
    return None if book.met_by(*choice) else f"the choice does not meet the book: {choice}"


def checked(options, data, calls, text, counts):
    """The faults of one accepted file; what it has is counted."""
    book, found = book_of(data), {}
    for solver in options.solver:
        found[solver], answer = asked(solver, text)
        with tempfile.NamedTemporaryFile() as job:
            job.write(data)
            job.flush()
            printed = answer_of(options.values, answer, job.name)
        fault = fault_in(found[solver], printed, book)
        if fault:
            yield f"{solver}: {fault}"
        right = "a choice that meets the book" if found[solver] else "none"
        counts[f"{solver}: {right}"] += not fault
    if len(set(found.values())) > 1:
        yield f"the solvers differ: {found}"
    if all(found.values()):
        counts["satisfiable files, their settings"] += len(book.settings)
        counts["satisfiable files, their switches"] += book.switches


def main():
    parser = argparse.ArgumentParser(description="Gives solvers' answers to values.")
    add_file_options(parser, SEEDS)
    parser.add_argument("--cnf", default=str(CNF), help="the program whose print is solved")
    parser.add_argument("--values", default=str(VALUES), help="the program that reads the answer")
    parser.add_argument("--solver", nargs="+", default=SOLVERS)
    options = parser.parse_args()
    driver = Driver(options.driver)
    files = chain(examples(), random_files(driver, options))
    check_files(driver, files, options.cnf, partial(checked, options))


if __name__ == "__main__":
    main()
