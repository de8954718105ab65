#!/usr/bin/env python3
"""Input of the program crate bench_values, and the judge's answers to it.

  bench_values.py [DIRECTORY]   writes stdin and stdout of DIRECTORY/bench_values (crates if absent)

The input is a script as replay reads it, with every bench value of selfcheck.py and some beside
them. Each call is answered by `STATUS HEIGHT`: the greatest height of all columns reached, those
behind one above 12 too; 0 where there is none, as where the call is refused before 13 is tested.
"""

import argparse
from pathlib import Path

from driver import Driver
from judge import add_driver_option
from replay_vectors import DIRECTORY, answer, write
from script import Script, spaced
from selfcheck import BENCH, LARGE, SIX

ANY = 2**32
SEVEN_EIGHT = [LARGE, "open 0", "range 0 127", "range 0 255", "range 0 4095"]
OTHERS = [(1, 1), (2, 1), (0, -1), (1, -1), (2, -1), (1, 3), (2, 3)]
OTHERS += [(3, 1), (4, 1), (5, 1), (3, -1), (4, 3), (5, -3)]


class Heights(Script):
    """A script's run that prints of each call its number and the greatest height."""

    def __init__(self, driver):
        super().__init__(driver)
        self.calls.bound = ANY

    def answered(self, word, answer):
        height = answer.reached.greatest() if answer.reached else 0
        return [spaced(str(answer.status), [height])]


def of_six(operation, coefficient):
    terms = [n for setting in range(6) for n in (setting, coefficient)]
    return spaced("linear", [operation, 0, *terms])


def lines():
    """The bench values; sums of six settings with the other operations; seven and eight bits."""
    for _, before, call, _ in BENCH:
        yield from [*before, call]
    for operation, coefficient in OTHERS:
        yield from [*SIX, of_six(operation, coefficient)]
    for product in ("mul 0 0 2", "mul 1 0 2", "mul 1 1 2", "mul 0 0 3"):
        yield from [*SEVEN_EIGHT, product]


def main():
    parser = argparse.ArgumentParser(description="Input of bench_values, and the judge's answers.")
    parser.add_argument("directory", type=Path, nargs="?", default=DIRECTORY)
    add_driver_option(parser)
    options = parser.parse_args()
    driver = Driver(options.driver)
    data = "".join(line + "\n" for line in [LARGE, *lines()]).encode()
    write(options.directory / "bench_values", data, answer(Heights(driver), data))
    driver.close()


if __name__ == "__main__":
    main()
