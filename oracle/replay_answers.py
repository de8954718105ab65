"""The part of replay's script for a solver's answer and its print: each rule of a text broken once,
numbers of 1 to 40 digits, the 0, the variables, each slice's length, the order of the numbers.
"""

from dataclasses import replace
from itertools import product

from answer_texts import BROKEN, GIVEN, NONE, SAT, THREE, UNSAT, VARIABLES, listed, with_digits
from answers import printed
from job import SPARE, Job, Setting
from replay_chapters import BROKEN_COUNTS, HELD_COUNTS, job_line, shown, with_record
from replay_sums import job_after, sizes
from script import spaced

OPEN_3 = ["stores 9 9", "open 3"]


def solution(text, length=3):
    return spaced("solution", [length, *text])


def solutions(*texts, length=3):
    return [solution(text, length) for text in texts]


def answer(assignment, length):
    return spaced("answer", [length, *assignment])


def wholes():
    """Texts that are read; where no assignment is found, the slice is not touched."""
    yield from OPEN_3
    yield from shown(*solutions(*(text for text, _ in GIVEN), *NONE))


def broken():
    """19: each rule of a text broken once; 20: variables unknown, doubled and missing."""
    yield from [*OPEN_3, *shown(*solutions(*BROKEN, *VARIABLES, *with_digits()))]


def boundaries():
    """Counts at which a number gets one digit more; each last one right, one less, one more."""
    for count in (1, 9, 10, 11, 64):
        yield from ["stores 9 9", f"open {count}"]
        yield from around(count)
    for count in (99, 100, 101):
        yield job_line(Job(variables=count))
        yield from around(count)
    yield job_line(Job(variables=1_000))
    assignment = [variable * variable % 7 % 2 for variable in range(1_000)]
    text = printed(assignment)
    yield from [answer(assignment, len(text)), solution(text, 1_000)]


def around(count):
    """A print and its reading; texts whose last number is one less, one more, ten times as much."""
    assignment = [variable * variable % 3 % 2 for variable in range(count)]
    text = printed(assignment)
    yield from (answer(assignment, room) for room in (len(text), len(text) - 1))
    yield solution(text, count)
    most = assignment[-1] * 2 * count - count
    for number in (most - 1, most + 1, -most, most * 10):
        words = text.split(b" ")
        words[-2] = b"%d" % number
        yield solution(b" ".join(words), count)


def without_variables():
    """A list is due with no variables too; `v 0` alone is one."""
    yield from ["stores 0 1", "open 0"]
    good = [listed(b"0"), b"c\n" + SAT + b"c\nv 0\nc\n", UNSAT]
    refused = [SAT, SAT + b"c\n", b"", listed(b""), listed(b"-0"), listed(b"0 0"), UNSAT + b"v 0\n"]
    refused += [listed(b"1 0"), listed(b"-1 0"), listed(b"1"), listed(b"%d 0" % 2**32)]
    for length in (0, 1, 2):
        yield from solutions(*good, *refused, length=length)
    yield from [answer([], length) for length in (18, 19, 17, 0)]
    yield from [answer([0], 18), answer([0], 0), answer([2], 30)]
    yield from ["range 0 0", *solutions(*good, length=0), answer([], 18), "show"]


def slices():
    """16: each length but the variable count, of either answer; a refused text keeps its number."""
    yield from OPEN_3
    texts = [THREE, UNSAT, THREE[:-1], listed(b"1 2 0"), SAT, UNSAT + UNSAT]
    for length in (3, 2, 4, 0, 1, 64, 256):
        yield from solutions(*texts, length=length)
    yield "show"


def orders():
    """1 ahead of 19, 19 of 20, 20 of 16; of a print 1 ahead of 16, 16 of 15."""
    texts = [THREE, UNSAT]
    # 20 alone: unknown, missing
    texts += [listed(b"1 -2 4 0"), listed(b"1 0")]
    # 19 alone: a broken line, the 0 missing, a `v` line after the unsatisfiable one
    texts += [THREE + b"x\n", listed(b"1 -2 3"), UNSAT + b"v 1 -2 3 0\n"]
    # 19 behind a doubled, an unknown, a missing variable, and ahead of one
    texts += [listed(b"1 1 -2 +3 0"), listed(b"9 1 -2 3"), listed(b"1 -2 0 0"), b"v 9 0\n" + SAT]
    prints = [([1, 0, 1], 25), ([1, 0, 1], 24), ([1, 0], 25), ([1, 0], 0), ([1, 0, 2], 25)]
    prints += [([1, 0, 2], 24), ([1, 0, 1, 0], 28), ([], 0), ([255, 255, 255], 3), ([1, 0, 1], 0)]
    for job in (Job(variables=3), Job(variables=3, switches=4), Job(variables=3, clauses=9)):
        yield from ["stores 9 9", job_line(job), "show"]
        yield from (solution(text, length) for text in texts for length in (3, 2, 0))
        yield from [*(answer(*row) for row in prints), "show"]
    # a store that is too short makes the job not well formed
    yield from ["stores 0 0", job_line(Job(variables=3)), solution(THREE), answer([1, 0, 1], 25)]
    yield from ["stores 0 1", solution(THREE), answer([1, 0, 1], 25), solution(UNSAT)]


def prints():
    """Prints of three variables at the exact room, one short, one more; each is read."""
    yield from OPEN_3
    for assignment in product((0, 1), repeat=3):
        text = printed(assignment)
        for room in (len(text), len(text) - 1, len(text) + 1):
            yield from [answer(assignment, room), solution(text)]
    wrong = [[], [1], [1, 0], [1, 0, 1, 0], [1, 0, 2], [2, 0, 1], [0, 255, 0], [7, 7, 7]]
    yield from (answer(assignment, room) for assignment in wrong for room in (99, 25, 14, 0))
    yield from (answer([0, 0, 0], room) for room in (27, 26, 14, 13, 1, 0, 28, 40))
    yield "show"


def grown(driver):
    """A job with settings and a rule: assignments read, printed, and the settings read."""
    before = ["open 2", "range -3 4", "list 2 5", "binary 3 -1 6", "linear 2 -1 0 1 1 1"]
    yield from [spaced("stores", sizes(driver, before)), *before, "show"]
    count = job_after(driver, before).variables
    # neither call tests the clauses, a reading does
    for step in (1, 2, 3, 5):
        assignment = [variable // step % 2 for variable in range(count)]
        text = printed(assignment)
        yield from [solution(text, count), answer(assignment, len(text)), solution(text, count - 1)]
        yield from (spaced(f"read {setting}", assignment) for setting in range(3))
    yield from [solution(UNSAT, count), "show"]


def forged():
    """Well formed jobs that no call made, then jobs that break one condition: 1."""
    first = Setting((9, 0, 3, *[0] * 9), 3, 2, 5, 0)
    second = Setting((1, 8, 0, *[0] * 9), 3, -3, 2, -3)
    base = Job(2, 5, 1, 4, 2, (first, second, *[SPARE] * 30))
    text = printed([1, 0, 0, 1, 1])
    calls = [solution(text, 5), solution(UNSAT, 5), solution(b"", 5), solution(text, 0)]
    calls += [answer([1, 0, 0, 1, 1], len(text)), answer([1, 0, 0, 1, 1], 9), answer([1], 0)]
    yield "stores 40 20"
    for job in (base, *(replace(base, **fields) for fields in HELD_COUNTS)):
        yield from [job_line(job), *calls]
    records = [dict(low=6), dict(length=4), dict(lits=(10, 0, 3, *[0] * 9)), dict(offset=1)]
    broken = [replace(base, **fields) for fields in BROKEN_COUNTS]
    broken += [with_record(base, 0, **fields) for fields in records]
    broken.append(with_record(base, 31, high=1))
    for job in broken:
        yield from [job_line(job), *calls]
    yield from [job_line(base), *shown(*calls)]


def every_byte():
    """One text with each byte changed, deleted, doubled, and cut at each place."""
    yield from OPEN_3
    for at, byte in enumerate(THREE):
        before, behind = THREE[:at], THREE[at + 1 :]
        yield solution(before + bytes([byte ^ 1]) + behind)
        yield solution(before + behind)
        yield solution(before + bytes([byte, byte]) + behind)
        yield solution(before)


def every_value():
    """Each value of a byte: behind `c`, as a word, between two numbers, ahead of one."""
    yield from ["stores 9 9", "open 1"]
    for value in range(256):
        byte = bytes([value])
        yield solution(b"c%s\n" % byte + UNSAT, 1)
        yield solution(UNSAT + b"%s 1\n" % byte, 1)
        yield solution(listed(b"1%s0" % byte), 1)
        yield solution(listed(b"%s1 0" % byte), 1)


def lines(driver):
    """The whole part; empty lines are passed over."""
    chapters = [wholes(), broken(), boundaries()]
    chapters += [without_variables(), slices(), orders(), prints(), grown(driver), forged()]
    chapters += [every_byte(), every_value()]
    return [line for chapter in chapters for line in ["", *chapter]]
