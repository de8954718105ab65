#!/usr/bin/env python3
"""Input of the program crates replay and replay_lines, and the judge's answers to it.

  replay_vectors.py SEED [DIRECTORY]   writes stdin and stdout of DIRECTORY/replay and of
                                       DIRECTORY/replay_lines (crates if absent)

The script for replay is made of chapters (replay_chapters.py, replay_readings.py, replay_sums.py,
replay_products.py, replay_answers.py, replay_figures.py), then of random scripts, and ends in a
line that cannot be read. Each line for replay_lines is answered as a script of its own
(replay_lines.py). What was reached is printed (coverage.py).
"""

import argparse
import io
import random
from pathlib import Path

import replay_answers
import replay_chapters
import replay_figures
import replay_lines
import replay_products
import replay_readings
import replay_sums
from coverage import Counted, report
from driver import Driver
from judge import add_driver_option
from script import Script
from scripts import Generator

DIRECTORY = Path(__file__).resolve().parent.parent / "crates"

RANDOM = {"settings": 150, "edges": 200, "space": 150, "forged": 110}
RANDOM |= {"linear": 150, "eq": 100, "ne": 100, "ge": 100, "heights": 60, "dead": 150}
RANDOM |= {"le": 60, "lt": 60, "gt": 60}
RANDOM |= {"mul": 60, "shifted": 40, "same": 40, "answers": 80, "readings": 120}
RANDOM |= {"figures": 180}
LONGEST = 2_000
END = ["", "", "range 0 x", "show", "open 1"]


def is_kept(line):
    """Whether a random line is stored: not if it changes nothing and it or its answer is long."""
    word, *numbers = line.split(" ")
    if word not in ("read", "solution", "answer"):
        return True
    lent = 0 if word == "read" else int(numbers[0])
    return len(line) <= LONGEST and lent <= LONGEST


def random_lines(driver, seed):
    """The lines of random scripts."""
    lines = []
    for kind, count in RANDOM.items():
        generator = Generator(kind, random.Random(f"{kind} {seed}"), driver)
        lines += filter(is_kept, generator.run(count))
    return lines


def answer(script, data):
    out = io.StringIO()
    script.run(data, out)
    return out.getvalue().encode()


def write(directory, stdin, stdout):
    directory.mkdir(parents=True, exist_ok=True)
    (directory / "stdin").write_bytes(stdin)
    (directory / "stdout").write_bytes(stdout)
    print(f"{directory.name}: {len(stdin)} bytes in, {len(stdout)} bytes out")


def main():
    parser = argparse.ArgumentParser(description="Input of replay, and the judge's answers.")
    parser.add_argument("seed", type=int)
    parser.add_argument("directory", type=Path, nargs="?", default=DIRECTORY)
    add_driver_option(parser)
    options = parser.parse_args()
    driver = Driver(options.driver)
    lines = replay_chapters.lines(driver)
    lines += replay_readings.lines(driver)
    lines += replay_sums.lines(driver, random.Random(f"sums {options.seed}"))
    lines += replay_products.lines(driver)
    lines += replay_answers.lines(driver)
    lines += replay_figures.lines(driver)
    lines += random_lines(driver, options.seed)
    data = "".join(line + "\n" for line in lines + END).encode()
    script = Counted(driver)
    write(options.directory / "replay", data, answer(script, data))
    report(script.numbers, script.reached)
    alone = replay_lines.lines()
    answers = [answer(Script(driver), line) for line in alone]
    write(options.directory / "replay_lines", b"\n".join(alone), b"".join(answers))
    bad = sum(text == b"bad line 1\n" for text in answers)
    print(f"lines   {len(alone)}, of which {bad} cannot be read")
    driver.close()


if __name__ == "__main__":
    main()
