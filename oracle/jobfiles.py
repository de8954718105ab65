#!/usr/bin/env python3
"""Writes random job files, good and damaged: jobfiles.py SEED COUNT DIRECTORY."""

import argparse
import random
from pathlib import Path

import jobfile
from calls import Calls
from driver import Driver
from judge import add_driver_option
from scripts import Generator

TAGS = {word: tag for tag, word in jobfile.WORDS.items()}
KINDS = ["small", "small", "mixed", "linear", "plain", "shifted", "dead", "long", "same"]
KINDS += ["edges"] * 3
REFUSED_KEPT = 0.2
WHOLE = 0.5
MOST = jobfile.MAX_BYTES


def signed(number, size):
    """A number in two's complement, its low bytes if it does not fit."""
    return (number % 256**size).to_bytes(size, "big")


def contents(word, n):
    """A field's contents for the numbers of a call."""
    if word in ("open", "mul"):
        return bytes(number % 256 for number in n)
    if word == "linear":
        terms = [signed(x, 2 if i % 2 else 1) for i, x in enumerate(n[2 : 2 + len(n[2:]) // 2 * 2])]
        return signed(n[0], 1) + signed(n[1], 4) + b"".join(terms)
    return b"".join(signed(number, 2) for number in n)


def raw(tag, data):
    """A field of any tag and contents."""
    return bytes([tag]) + len(data).to_bytes(2, "big") + data


def field(word, *numbers):
    """The field of a call."""
    return raw(TAGS[word], contents(word, numbers))


def drawn_fields(rng, driver):
    """The fields of the first job of a random script."""
    kind = rng.choice(KINDS)
    most = {"small": 8, "long": 60}.get(kind, rng.randint(6, 24))
    fields = []
    for line in Generator(kind, rng, driver).run(most):
        word, *numbers = line.split()
        if word == "open" and fields:
            break
        if word in TAGS:
            fields.append(field(word, *map(int, numbers)))
    return fields


def good_fields(rng, driver):
    """Fields accepted one after another; one that is refused is left out, or it is the last one."""
    calls, kept = Calls(driver, *jobfile.STORES), []
    for drawn in drawn_fields(rng, driver):
        numbers = jobfile.numbers_of(drawn[0], drawn[3:])
        accepted = jobfile.call(calls, jobfile.WORDS[drawn[0]], numbers).status == 0
        if accepted or rng.random() < REFUSED_KEPT:
            kept.append(drawn)
        if not accepted and kept[-1] == drawn:
            break
    return kept


def padded(fields, size):
    """As many bytes as wanted, by one-value lists and sums without terms: neither adds a clause."""
    lacking = size - len(b"".join(fields))
    points = lacking * 5 % 8
    sums = (lacking - 5 * points) // 8
    return b"".join([*fields, *[field("list", 0)] * points, *[field("linear", 0, 0)] * sums])


def changed(data, at, byte):
    return data[:at] + bytes([byte % 256]) + data[at + 1 :]


def starts(fields):
    """Where each field begins."""
    return [len(b"".join(fields[:i])) for i in range(len(fields))]


# Fields that every job refuses: with 3, 4 twice, 5 or 6, 12, 9 or 8, 10 or 8, 11, 8.
FAULTY = [
    field("range", 5, 4),
    field("list"),
    field("list", 3, 3),
    field("binary", 0, 1, 1),
    field("linear", 6, 0),
    field("linear", 0, 0, 0, 1, 0, 1),
    field("linear", 0, 0, 0, 0),
    field("linear", 0, 1_000_001),
    field("mul", 32, 0, 0),
]


def faulty_field(rng, fields, data):
    at = rng.randint(1, len(fields))
    return b"".join([*fields[:at], rng.choice(FAULTY), *fields[at:]])


def cut(rng, fields, data):
    return data[: rng.randrange(len(data))]


def byte_changed(rng, fields, data):
    return changed(data, rng.randrange(len(data)), rng.randrange(256))


def length_off(rng, fields, data):
    at = rng.choice(starts(fields)) + 2
    return changed(data, at, data[at] + rng.choice([1, -1]))


def bytes_behind(rng, fields, data):
    return data + bytes(rng.randrange(8) for _ in range(rng.randint(1, 4)))


def first_missing(rng, fields, data):
    return data[len(fields[0]) :]


def first_again(rng, fields, data):
    return data + fields[0]


def switches_changed(rng, fields, data):
    return changed(data, 3, rng.choice([0, 64, 65, 255]))


def last_repeated(rng, fields, data):
    repeats = -(-MOST // len(fields[-1]))
    return (data + fields[-1] * repeats)[: rng.randint(MOST - 1, MOST + 1)]


def length_chosen(rng, fields, data):
    return padded(fields, rng.randint(MOST - 1, MOST + 1))


DAMAGES = {
    "cut": cut,
    "a byte changed": byte_changed,
    "a length off by one": length_off,
    "bytes behind": bytes_behind,
    "first field missing": first_missing,
    "first field again": first_again,
    "other switch count": switches_changed,
    "last field repeated": last_repeated,
    "8,191 to 8,193 bytes": length_chosen,
    "a faulty field": faulty_field,
}


def drawn_file(rng, driver):
    """A random file, and what was done to it."""
    fields = good_fields(rng, driver)
    data = b"".join(fields)
    if rng.random() < WHOLE:
        return "whole", data
    name = rng.choice(list(DAMAGES))
    return name, DAMAGES[name](rng, fields, data)


def drawn_files(driver, seed, count):
    """The random files of a seed."""
    rng = random.Random(f"jobfile {seed}")
    return [drawn_file(rng, driver) for _ in range(count)]


def main():
    parser = argparse.ArgumentParser(description="Writes random job files.")
    parser.add_argument("seed", type=int)
    parser.add_argument("count", type=int)
    parser.add_argument("directory", type=Path)
    add_driver_option(parser)
    options = parser.parse_args()
    driver = Driver(options.driver)
    options.directory.mkdir(parents=True, exist_ok=True)
    for index, (_, data) in enumerate(drawn_files(driver, options.seed, options.count)):
        (options.directory / f"{options.seed}-{index:04}.job").write_bytes(data)
    driver.close()


if __name__ == "__main__":
    main()
