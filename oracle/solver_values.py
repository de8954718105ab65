#!/usr/bin/env python3
"""Solvers that size their tables from the header: whether each variable of a job is given a value.

  solver_values.py SEED [SEED..] [--count COUNT] [--cnf PATH] [--solver PATH..]

Printed by the program cnf are the sheets of examples/ and the accepted ones of the files of
jobfiles.py. A solver reads a print from standard input and answers `s SATISFIABLE` with `v` lines,
or `s UNSATISFIABLE`. A satisfiable answer must name each of the job's variables once, those that
stand in no clause too, satisfy the printed clauses, and read back as a choice that meets the book;
all solvers must say the same of a file.
"""

import argparse
import subprocess
from functools import partial
from itertools import chain
from pathlib import Path

from book import read_back
from cnf_coverage import in_no_clause
from cnf_differential import CNF, add_file_options
from driver import Driver
from solve_files import SATISFIABLE, UNSATISFIABLE
from solve_files import book_of, check_files, clauses_of, holds, random_files

EXAMPLES = Path(__file__).resolve().parent.parent / "examples"
SOLVERS = ["cadical", "picosat"]
ENDINGS = {SATISFIABLE: "s SATISFIABLE", UNSATISFIABLE: "s UNSATISFIABLE"}


def solve(solver, text):
    """The `s` line of a solver's answer, and the numbers of its `v` lines."""
    ended = subprocess.run([solver], input=text, capture_output=True, check=False)
    lines = ended.stdout.decode().splitlines()
    status = [line for line in lines if line.startswith("s ")]
    if status != [ENDINGS.get(ended.returncode)]:
        raise RuntimeError(f"{solver} ended with {ended.returncode}, {status}")
    return status[0], [int(w) for line in lines if line.startswith("v ") for w in line.split()[1:]]


def faults_of(calls, book, text, numbers):
    """What is wrong with a satisfiable answer."""
    variables = calls.job.variables
    if numbers[-1:] != [0]:
        return ["its list does not end in 0"]
    if sorted(abs(number) for number in numbers[:-1]) != list(range(1, variables + 1)):
        return [f"{len(numbers) - 1} values for {variables} variables"]
    true = set(numbers)
    assignment = [int(variable + 1 in true) for variable in range(variables)]
    if not all(holds(clause, assignment) for clause in clauses_of(text)):
        return ["a clause is not satisfied"]
    choice = read_back(calls, assignment)
    met = book.met_by(choice[: book.switches], choice[book.switches :])
    return [] if met else ["the choice does not meet the book"]


def checked(solvers, data, calls, text, counts):
    """The faults of one accepted file; what it has is counted."""
    answers = {solver: solve(solver, text) for solver in solvers}
    statuses = {status for status, _ in answers.values()}
    if len(statuses) > 1:
        return [f"the solvers differ: {statuses}"]
    (status,) = statuses
    counts[status] += 1
    if status == ENDINGS[UNSATISFIABLE]:
        return [f"{s}: values" for s, (_, numbers) in answers.items() if numbers]
    free = in_no_clause(calls)
    counts["of these with a variable in no clause"] += free != []
    counts["of these with their last variable in no clause"] += calls.job.variables - 1 in free
    counts["variables of satisfiable files"] += calls.job.variables
    counts["of these in no clause"] += len(free)
    book = book_of(data)
    rows = [(solver, faults_of(calls, book, text, n)) for solver, (_, n) in answers.items()]
    return [f"{solver}: {fault}" for solver, faults in rows for fault in faults]


def examples():
    """Names and bytes of the sheets."""
    return [(path.name, path.read_bytes()) for path in sorted(EXAMPLES.glob("*.job"))]


def main():
    parser = argparse.ArgumentParser(description="Asks solvers for a value of each variable.")
    add_file_options(parser)
    parser.add_argument("--cnf", default=str(CNF), help="the program whose print is solved")
    parser.add_argument("--solver", nargs="+", default=SOLVERS)
    options = parser.parse_args()
    driver = Driver(options.driver)
    files = chain(examples(), random_files(driver, options))
    check_files(driver, files, options.cnf, partial(checked, options.solver))


if __name__ == "__main__":
    main()
