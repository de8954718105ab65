#!/usr/bin/env python3
"""Random job files, their print solved, and the solver's answer held to the plain book.

  solve_files.py SEED [SEED..] [--count COUNT] [--cnf PATH] [--solver PATH]

The print is the judge's, or that of the program given by --cnf. Of each accepted file of
jobfiles.py: a model must satisfy the printed clauses and read back as a choice that meets the book
(a variable in no clause is 0); where there is no model, no choice may meet the book, if there are
few enough to go through. Of a file with few choices, each that meets the book must have exactly
one satisfying assignment, and there must be no other. The solver is called as minisat is.
"""

import argparse
import subprocess
import sys
import tempfile
from collections import Counter
from pathlib import Path

import jobfile
from book import Book, agrees, read_back
from cnf_differential import add_file_options
from differential import answer_of
from driver import Driver
from jobfiles import drawn_files

MANY = 100_000
FEW = 3_000
SATISFIABLE, UNSATISFIABLE = 10, 20


def literal(number):
    """A literal's number for one of a print."""
    return 2 * (abs(number) - 1) + (number < 0)


def clauses_of(text):
    """Clauses of a print, without its first line and the 0 at each end."""
    rows = [line.split() for line in text.decode().splitlines()[1:]]
    return [[literal(int(word)) for word in row[:-1]] for row in rows]


def solve(solver, text, variables):
    """An assignment of all variables, or None if there is none."""
    with tempfile.TemporaryDirectory() as folder:
        given, result = Path(folder) / "given", Path(folder) / "result"
        given.write_bytes(text)
        ended = subprocess.run([solver, given, result], capture_output=True, check=False)
        if ended.returncode == UNSATISFIABLE:
            return None
        if ended.returncode != SATISFIABLE:
            raise RuntimeError(f"the solver ended with {ended.returncode}")
        model = {int(word) for word in result.read_text().split()[1:]}
    return [int(variable + 1 in model) for variable in range(variables)]


def holds(clause, assignment):
    return any(assignment[lit // 2] != lit % 2 for lit in clause)


def book_of(data):
    """The book of an accepted file."""
    book = Book()
    for word, numbers in jobfile.fields(data):
        book.feed(word, numbers, 0)
    return book


def checked(calls, book, text, solver):
    """What one file was found to be, and the faults in it."""
    clauses = clauses_of(text)
    assignment = solve(solver, text, calls.job.variables)
    if assignment is None:
        yield "unsatisfiable", False
        if book.size() <= MANY:
            yield "unsatisfiable, no choice by going through all", book.choices() != []
    else:
        choice = read_back(calls, assignment)
        right = all(holds(clause, assignment) for clause in clauses)
        met = book.met_by(choice[: book.switches], choice[book.switches :])
        yield "satisfiable, model read back as a choice that meets the book", not (right and met)
    if book.size() <= FEW:
        yield "one assignment for each choice, and no other", not agrees(calls, clauses, book)


def random_files(driver, options):
    """Names and bytes of the random files."""
    for seed in options.seeds:
        for index, (_, data) in enumerate(drawn_files(driver, seed, options.count)):
            yield f"seed {seed}, file {index}", data


def check_files(driver, files, cnf, faults_in):
    """Goes through the accepted ones of named files, and ends the program with what was counted.

    The print is that of the program cnf, or the judge's if there is none. faults_in is given a
    file, its calls, its print and the counts, and answers with what is wrong.
    """
    counts, wrong = Counter(), 0
    for name, data in files:
        text, calls = jobfile.answer(driver, data)
        if text.startswith(b"refused"):
            continue
        counts["accepted files"] += 1
        faults = list(faults_in(data, calls, answer_of(cnf, data) if cnf else text, counts))
        wrong += len(faults)
        for fault in faults:
            print(f"{name}: {fault}: {data.hex()[:400]}")
    for name, count in counts.items():
        print(f"{name}: {count}")
    print(f"faults: {wrong}")
    driver.close()
    sys.exit(1 if wrong else 0)


def main():
    parser = argparse.ArgumentParser(description="Solves printed job files.")
    add_file_options(parser)
    parser.add_argument("--cnf", help="the program whose print is solved")
    parser.add_argument("--solver", default="minisat")
    options = parser.parse_args()
    driver = Driver(options.driver)

    def faults_in(data, calls, text, counts):
        for name, fault in checked(calls, book_of(data), text, options.solver):
            counts[name] += 1
            if fault:
                yield f"not so: {name}"

    check_files(driver, random_files(driver, options), options.cnf, faults_in)


if __name__ == "__main__":
    main()
