"""Points of the solver's answer, each by hand with what is right, to check the judge by.

The texts are those of answer_texts.py. The rules of a text are here once more, as one regular
expression over the whole of it.
"""

import random
import re

import answers
import texts
from answer_texts import BROKEN, GIVEN, NONE, SAT, VARIABLES, listed, with_digits
from calls import Calls
from job import Job


def rows():
    """Text, variables, slice's length, then the number, the value and the bytes expected."""
    for text, assignment in GIVEN:
        yield (text, 3, 3, 0, 1, assignment)
        yield from ((text, 3, length, 16, 0, [7] * length) for length in (2, 4, 0))
        yield from ((text, 2, length, 20, 0, [7] * length) for length in (2, 3))
    for text in NONE:
        yield from [(text, 3, 3, 0, 0, [7] * 3), (text, 3, 4, 16, 0, [7] * 4)]
        yield from [(text, 0, 0, 0, 0, []), (text, 0, 1, 16, 0, [7])]
    for text in BROKEN:
        yield from ((text, 3, length, 19, 0, [7] * length) for length in (3, 2, 0))
    for text in [*VARIABLES, *with_digits(), listed(b"9" * 6_000 + b" 1 2 3 0")]:
        yield from ((text, 3, length, 20, 0, [7] * length) for length in (3, 4, 0))
    yield from [(SAT, 0, 0, 19, 0, []), (SAT + b"v 0\n", 0, 0, 0, 1, [])]
    yield from [(SAT + b"v 0\n", 0, 1, 16, 0, [7]), (SAT + b"v 1 0\n", 0, 0, 20, 0, [])]


def job_calls(variables):
    """The calls on a job of some variables and nothing else; the Rust is not asked."""
    calls = Calls(None, 0, 1)
    calls.job = Job(variables=variables)
    return calls


def answered(answer):
    return answer.status, answer.value, answer.lent


def check_rows():
    """Faults among the points of reading; a job that is not well formed gives 1 to each."""
    for text, variables, length, *expected in rows():
        calls = job_calls(variables)
        got = answered(calls.solution([7] * length, text))
        if got != tuple(expected):
            yield f"{text[:60]}, slice of {length}: {got}"
        calls.job = Job(variables=variables, clauses=1)
        if answered(calls.solution([7] * length, text)) != (1, 0, [7] * length):
            yield f"{text[:60]}, a job that is not well formed"


# Variables, assignment, slice's length, then the number, the value and the bytes expected.
PRINTS = [
    (3, [1, 0, 1], 25, 0, 25, list(SAT + b"v 1 -2 3 0\n")),
    (3, [1, 0, 1], 27, 0, 25, [*SAT, *b"v 1 -2 3 0\n", 7, 7]),
    (3, [1, 0, 1], 24, 15, 0, [7] * 24),
    (3, [1, 0, 1], 0, 15, 0, []),
    (3, [1, 0], 25, 16, 0, [7] * 25),
    (3, [1, 0, 1, 0], 24, 16, 0, [7] * 24),
    (3, [1, 0, 2], 25, 16, 0, [7] * 25),
    (3, [255, 0, 0], 0, 16, 0, []),
    (3, [], 25, 16, 0, [7] * 25),
    (0, [], 18, 0, 18, list(SAT + b"v 0\n")),
    (0, [], 17, 15, 0, [7] * 17),
    (0, [0], 18, 16, 0, [7] * 18),
    (10, [0] * 10, 49, 0, 49, list(SAT + b"v -1 -2 -3 -4 -5 -6 -7 -8 -9 -10 0\n")),
    (10, [0] * 10, 48, 15, 0, [7] * 48),
]


def check_prints():
    """Faults among the points of printing; a job that is not well formed gives 1 to each."""
    for variables, assignment, length, *expected in PRINTS:
        calls = job_calls(variables)
        got = answered(calls.answer([7] * length, bytes(assignment)))
        if got != tuple(expected):
            yield f"print of {assignment} into {length}: {got}"
        calls.job = Job(variables=variables, literals=1)
        if answered(calls.answer([7] * length, bytes(assignment))) != (1, 0, [7] * length):
            yield f"print of {assignment}, a job that is not well formed"


def check_read_back(rng, count):
    """Faults among random prints, each read back."""
    for _ in range(count):
        variables = rng.choice([*range(40), 99, 100, 999, 1_000, 1_001])
        calls, assignment = job_calls(variables), [rng.randrange(2) for _ in range(variables)]
        told = calls.answer([7] * (14 + 8 * (variables + 1)), bytes(assignment))
        read = calls.solution([7] * variables, bytes(told.lent[: told.value]))
        if answered(read) != (0, 1, assignment):
            yield f"print of {assignment}, read back: {answered(read)}"


COMMENTS = rb"(?:c(?: [^\n]*)?\n)*"
NUMBERS = rb"(?: -?[1-9][0-9]*)"
LIST = rb"(?:v%s+\n%s)*v%s* 0\n" % (NUMBERS, COMMENTS, NUMBERS)
LISTED = re.compile(rb"%ss SATISFIABLE\n%s(%s)%s" % (COMMENTS, COMMENTS, LIST, COMMENTS))
FOUND_NONE = re.compile(rb"%ss UNSATISFIABLE\n%s" % (COMMENTS, COMMENTS))


def read_otherwise(text, variables):
    """A text read by one regular expression, its numbers as whole numbers."""
    if FOUND_NONE.fullmatch(text):
        return 0, None
    whole = LISTED.fullmatch(text)
    if whole is None:
        return 19, None
    lines = [line for line in whole[1].split(b"\n") if line.startswith(b"v")]
    written = [word for line in lines for word in line.split(b" ")[1:] if word != b"0"]
    given = [int(word) if len(word) < 50 else 10**50 for word in written]
    if sorted(map(abs, given)) != list(range(1, variables + 1)):
        return 20, None
    return 0, [int(v + 1 in given) for v in range(variables)]


def check_otherwise(rng, count):
    """Faults among random texts, whole and damaged, each read in both manners."""
    for _ in range(count):
        variables = rng.choice(texts.SIZES)
        damages, text, _ = texts.drawn(rng, variables)
        if answers.read(text, variables) != read_otherwise(text, variables):
            yield f"{damages}, {variables} variables: {text}"


def faults(seed, count):
    """All faults found, and how many points, prints and texts were gone through."""
    rng = random.Random(f"points {seed}")
    found = [*check_rows(), *check_prints(), *check_read_back(rng, count)]
    found += check_otherwise(rng, 10 * count)
    return found, len(list(rows())) + len(PRINTS) + 11 * count
