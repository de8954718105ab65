#!/usr/bin/env python3
"""Input of the program crate values, and the judge's answer to it.

  values_vectors.py [DIRECTORY]   writes stdin, args, data/sheet.job and stdout of DIRECTORY/values
                                  (crates if absent)

The job file has settings of all three kinds, negative numbers, switches, sums and products. The
text is that of a satisfying assignment: a choice is found by going through the plain book, and the
one assignment that belongs to it by trying, as selfcheck.py does. No solver is asked.
"""

import argparse
from pathlib import Path

import jobfile
import values
from answers import SATISFIABLE, printed
from book import assignment_of
from driver import Driver
from jobfiles import field
from judge import add_driver_option
from replay_vectors import DIRECTORY, write
from solve_files import book_of
from turned import EQ, GE, GT, LE, NE

NAME = "sheet.job"
SHEET = [
    field("open", 4),
    field("range", -9, 9),  # 0
    field("list", -7, 0, 3, 12),  # 1
    field("binary", 3, -6, 4),  # 2: 4 where switch 1 is no
    field("range", -30, 20),  # 3
    field("binary", 4, 2, 5),  # 4: 5 where switch 2 is yes
    field("range", 17, 17),  # 5: no bits
    field("mul", 0, 4, 3),
    field("linear", NE, 0, 0, 1),  # 0 is not 0
    field("linear", EQ, 3, 1, 1, 2, 1),  # 1 and 2 together are -3
    field("linear", GE, 40, 1, -1, 3, 2),  # twice 3 is at least 1 less 40
    field("linear", LE, 4, 0, 1, 1, 1),  # 0 and 1 together are at most -4
    field("linear", GT, -14, 3, -1, 5, 1),  # 5 is above 3 and 14
]
PER_LINE = 12


def is_varied(choice, switches):
    """Whether a choice has switches of both answers, and numbers of both signs."""
    numbers = choice[switches:]
    return len(set(choice[:switches])) == 2 and min(numbers) < 0 < max(numbers)


def text_of(assignment):
    """Comments, the `s` line, and the numbers in several `v` lines, the later half first."""
    numbers = printed(assignment).split()[3:-1]
    numbers = [*numbers[len(numbers) // 2 :], *numbers[: len(numbers) // 2], b"0"]
    rows = [numbers[at : at + PER_LINE] for at in range(0, len(numbers), PER_LINE)]
    lines = [b"c a solver's answer", b"c", SATISFIABLE, b"c the values:  "]
    lines += [b" ".join([b"v", *row]) for row in rows]
    lines.insert(-1, b"c v 1 0")
    return b"".join(line + b"\n" for line in [*lines, b"c ", b"c --- end ---"])


def main():
    parser = argparse.ArgumentParser(description="Input of values, and the judge's answer.")
    parser.add_argument("directory", type=Path, nargs="?", default=DIRECTORY)
    add_driver_option(parser)
    options = parser.parse_args()
    driver = Driver(options.driver)
    data = b"".join(SHEET)
    calls = jobfile.answer(driver, data)[1]
    choices = [c for c in book_of(data).choices() if is_varied(c, calls.job.switches)]
    choice = choices[len(choices) * 3 // 4]
    text = text_of(assignment_of(calls, choice))
    crate = options.directory / "values"
    (crate / "data").mkdir(parents=True, exist_ok=True)
    (crate / "data" / NAME).write_bytes(data)
    (crate / "args").write_text(NAME + "\n")
    write(crate, text, values.answer(driver, data, text))
    print(f"variables: {calls.job.variables}, choice: {choice}")
    driver.close()


if __name__ == "__main__":
    main()
