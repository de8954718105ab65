"""The part of replay's script for sums: operations, columns, dead ends, each refusal and the order.

Stores are mostly as short as the calls allow, so that `show` says every clause and what a refusal
left as it was.
"""

from dataclasses import replace
from itertools import combinations, product

import arguments
from job import BITS, SPARE, Job, Setting
from replay_chapters import I32, U32, job_line, shown, with_record
from script import MAX_STORES, Script, spaced
from turned import EQ, GT, LE, LT
from turned import OPERATIONS as EACH

LARGE = spaced("stores", MAX_STORES)
VARIABLES = 65_535


def linear(op, constant, *terms):
    return spaced("linear", [op, constant, *terms])


def of_all(op, constant, coefficients):
    """A sum of the first settings."""
    return linear(op, constant, *(n for term in enumerate(coefficients) for n in term))


def job_after(driver, lines):
    script = Script(driver)
    for line in [LARGE, *lines]:
        script.line(line.encode())
    return script.calls.job


def sizes(driver, lines):
    """Entries of both stores that the lines fill."""
    job = job_after(driver, lines)
    return job.literals, job.clauses + 1


def exact(driver, *lines):
    """Lines on stores that they fill, shown."""
    return [spaced("stores", sizes(driver, lines)), *lines, "show"]


def operations(driver):
    """0 to 6 terms under every choice of signs; offsets are 0, -2, 0, -1, 0, -5."""
    settings = ["range 0 1", "range -2 1", "binary 1 0 2", "list -1 0 3", "range 0 2"]
    settings += ["range -5 -4"]
    for op, count in product(EACH, range(7)):
        before = ["open 1", *settings[:count]]
        signs = list(product((1, -1), repeat=count))
        calls = [of_all(op, 3 - count, [s * (i + 1) for i, s in enumerate(row)]) for row in signs]
        if count < 3:
            yield from exact(driver, *before, *calls)
        else:
            yield from [LARGE, *before, *calls]
            middle = [s * (1, 3, 1, 2, 1, 3)[i] for i, s in enumerate(signs[len(signs) // 3])]
            yield from exact(driver, *before, of_all(op, 4 - count, middle))


def no_bits(driver):
    """Settings of 0 bits give columns to Ne and Ge, none to Eq."""
    before = ["open 0", "range 0 0", "range -3 -3", "range 0 2"]
    rows = [(0, 1), (0, -1), (0, 4), (0, -4), (1, 5), (1, -5), (0, 8, 1, -2), (0, 4, 2, 1)]
    rows += [(0, 16, 2, -1), (1, -4, 2, 1)]
    for op in EACH:
        calls = [linear(op, c, *row) for row in rows for c in (0, 1, -2)]
        yield from exact(driver, *before, *calls)
        calls = [linear(op, 0, 0, k) for k in (255, -255)]
        yield from exact(driver, "open 0", "range 0 0", *calls)


def dead_ends(driver):
    """At the first column, and at later ones, some behind ordering clauses that stay."""
    before = ["open 0", "range 0 2"]
    yield from exact(driver, *before, *(linear(0, c, 0, k) for c in (1, -1) for k in (2, -2)))
    before = ["open 0", *["range 0 1"] * 5]
    constants = [2**i for i in range(8)] + [2**i - 1 for i in range(2, 8)] + [0, -4, -32, 96, 255]
    rows = [(1, 64), (2, 2, 2, 2, 128), (2, 2, -2, -2, -128), (-1, -1, -1, -1, 64)]
    for coefficients in rows:
        calls = [of_all(0, c, coefficients) for c in constants]
        yield from exact(driver, *before, *calls)


def last_inequalities(driver):
    """Eq whose last column cannot reach what is left, from either side."""
    yield from exact(driver, "open 0", *(linear(0, c) for c in (0, 3, -3, 1_000_000, -1_000_000)))
    others = [linear(op, c) for op in EACH[1:] for c in (0, 1, -1, 3, -3)]
    yield from exact(driver, "open 0", *others)
    before = ["open 0", "range 0 1", "range 0 2"]
    rows = [(0, 1), (0, -1), (1, 1), (1, -1), (0, 1, 1, 1), (0, 1, 1, -1), (0, -1, 1, -1)]
    calls = [linear(0, c, *row) for row in rows for c in (0, -1, 1, 2, -2, 5, -5, 99, -99)]
    yield from exact(driver, *before, *calls)


def bounds(driver):
    """Constants, coefficients and operations at their bounds and one past."""
    before = ["open 0", "range 0 1", "range -3 0", "range 0 0"]
    constants = [1_000_000, -1_000_000, 1_000_001, -1_000_001, I32, -I32 - 1, 999_999]
    calls = [linear(op, c, *row) for op in EACH for c in constants for row in [(), (0, 3, 1, -1)]]
    coefficients = [255, -255, 256, -256, 0, I32, -I32 - 1, 1, -1]
    calls += [linear(op, 7, 0, 1, 1, k) for op in EACH for k in coefficients]
    yield from [LARGE, *before, *calls]
    yield from exact(driver, *before, *(linear(op, c) for op in EACH for c in constants))
    for op, k in product(EACH, (255, -255)):
        yield from exact(driver, *before, linear(op, -k, 0, k, 1, -k, 2, k))
    widest = ["open 0", "range 0 4095", "range -4095 0", "range -2048 2047"]
    yield from [LARGE, *widest]
    yield from (linear(op, c, 0, 255, 1, -255) for op in EACH for c in (1_000_000, -1_000_000))
    yield from (linear(op, 0, 0, 128, 1, 64, 2, -1) for op in EACH)


# Bits of each setting, coefficients, constants: columns of height 11, 12 and 13.
HEIGHTS = [
    ((7,) * 6, (1,) * 6, (0, 127)),
    ((7,) * 6, (-1,) * 6, (0, -127)),
    ((7,) * 6, (3,) * 6, (0,)),
    ((7,) * 6, (6,) * 6, (1, 2)),
    ((4, 1, 1, 2, 3, 1), (6, 6, -7, 6, 1, 5), (30,)),
    ((3, 1, 1, 1, 3, 3), (1, -6, -6, 6, -1, 7), (30,)),
    ((3, 1, 1, 1, 3, 3), (-1, 6, 6, -6, 1, -7), (-30,)),
    ((4, 5, 4, 4, 4, 4), (7, 7, 7, 7, -6, -3), (7,)),
    ((2, 3, 2, 3, 1, 3), (2, 1, 6, 6, 5, 1), (-20, 20)),
    ((1, 2, 2, 2, 3), (5, 7, 6, 2, 5), (3, -3)),
    ((1, 2, 2, 2, 3), (-5, -7, -6, -2, -5), (3, -3)),
    ((4, 5, 2, 2, 4, 2), (3, 3, 2, 1, 3, 7), (15,)),
    ((4, 5, 2, 2, 4, 2), (-3, -3, -2, -1, -3, -7), (15, 1)),
    # 12 or 13 by the 1 that Lt adds to the constant and Gt takes from it
    ((3, 5, 4), (7, 7, 3), (64, -64)),
    ((5, 3, 4), (7, 7, 5), (7,)),
]


def heights(driver):
    """The tallest columns; of an accepted sum some clauses are asked for."""
    for bits, coefficients, constants in HEIGHTS:
        before = ["open 0", *(f"range 0 {2**n - 1}" for n in bits)]
        for op, constant in product(EACH, constants):
            call = of_all(op, constant, coefficients)
            clauses = sizes(driver, [*before, call])[1] - 1
            asked = sorted({i * (clauses - 1) // 12 for i in range(13)} if clauses else [])
            yield from [LARGE, *before, call, *(f"clause {k}" for k in asked)]
    # a column of 13 behind a dead end is not reached
    yield from exact(driver, "open 0", *["range 0 127"] * 6, of_all(0, 1, (6,) * 6))
    yield from ["stores 2 2", "open 0", *["range 0 127"] * 6, *shown(of_all(0, 2, (6,) * 6))]


SIX = [0, 1, 1, 1, 2, 1, 3, 1, 4, 1, 5, 1]

# Each fault that a sum of these terms can have, in the order of the checks: 12, 9 twice, 8, 9
# twice, 10 twice, 11, 13. Each makes operation, constant and terms of the right ones.
FAULTS = [
    lambda op, constant, terms: (6, constant, terms),
    lambda op, constant, terms: (op, constant, terms[:-1]),
    lambda op, constant, terms: (op, constant, [*terms, 6, 1]),
    lambda op, constant, terms: (op, constant, [*terms[:10], 7, *terms[11:]]),
    lambda op, constant, terms: (op, constant, [*terms[:4], 1, *terms[5:]]),
    lambda op, constant, terms: (op, constant, [2, *terms[1:]]),
    lambda op, constant, terms: (op, constant, [*terms[:3], 0, *terms[4:]]),
    lambda op, constant, terms: (op, constant, [*terms[:7], -256, *terms[8:]]),
    lambda op, constant, terms: (op, 1_000_001, terms),
    lambda op, constant, terms: (op, constant, [n for s in terms[0::2] for n in (s, 7)]),
]


def faulty(operation):
    """Every fault alone, and every two; the first of them in order decides."""
    for picked in [*combinations(FAULTS, 1), *combinations(FAULTS, 2)]:
        op, constant, terms = operation, 0, SIX
        for fault in reversed(picked):
            op, constant, terms = fault(op, constant, terms)
        yield linear(op, constant, *terms)


def with_variables(job, count):
    return replace(job, variables=count)


def orders():
    """Which of two refusals comes first: 1, those above, then 14, then 15."""
    records = tuple(Setting((4 * i, 4 * i + 2, *[0] * 10), 2, 0, 3, 0) for i in range(7))
    plain = Job(0, 14, 0, 0, 7, (*records, *[SPARE] * 25))
    full = with_variables(plain, VARIABLES)
    calls = [*faulty(EQ), *faulty(LT), linear(0, 0, *SIX)]
    for job in (with_record(plain, 6, high=4), full, plain):
        yield from ["stores 0 1", job_line(job), *shown(*calls)]
    yield from ["stores 9 9", "lits 3 5", "ends 2 7", *shown(*calls)]
    yield from ["stores 9000 1500", job_line(full), linear(0, 0, *SIX), job_line(plain), *calls]


def refusals():
    """Arguments far outside, and lists that are too long."""
    yield from ["stores 9 9", "open 1", *["binary 0 0 1"] * 7, "show"]
    unknown = [-1, 7, 31, 32, 255, I32, -I32 - 1]
    yield from (linear(op, 0, n, 1) for op in EACH for n in unknown)
    yield from (linear(op, 0, 0, 1) for op in (6, 7, 255, 256, 2**31, U32))
    yield from [linear(0, 0, 0), linear(2, 0, *[0] * 13), linear(1, 0, *[0] * 12)]
    yield from [linear(0, 0, *[1] * 4_096), linear(6, 0, *[1] * 4_095)]
    # unknown settings that fall or repeat, then known ones whose coefficients are outside
    yield from [linear(0, 0, 7, 1, 6, 1), linear(0, 0, 8, 1, 8, 1), linear(0, 0, 1, 0, 1, 0)]
    yield from ["show", "open 3", *(linear(op, c) for op in EACH for c in (0, 1, -1)), "show"]


# Settings, then a sum: small ones of each operation and ending.
SMALL = [
    (["range 0 3", "range 0 3"], linear(0, -3, 0, 1, 1, 1)),
    (["range 0 1"] * 5, of_all(0, 16, (2, 2, 2, 2, 128))),
    (["range 0 2"], linear(0, 1, 0, 2)),
    (["range -1 2", "binary 1 0 3"], linear(1, 1, 0, 1, 1, -1)),
    (["range -1 2", "range 0 1"], linear(2, -1, 0, 1, 1, -2)),
    (["range 0 0"], linear(1, 0, 0, 1)),
    (["range 0 0"], linear(0, 0, 0, 1)),
    ([], linear(2, -1)),
    (["range 0 3", "range -1 2"], linear(LE, -2, 0, 1, 1, 1)),
    (["range 0 3", "binary 1 0 3"], linear(LT, -1, 0, 2, 1, -1)),
    (["range -1 2"], linear(GT, 0, 0, 1)),
    ([], linear(LT, 0)),
]


def space(driver):
    """Stores exactly full and one entry short of each kind, on a new job and on one in progress."""
    for settings, call in SMALL:
        for first in ([], [call]):
            before = ["open 1", *settings, *first]
            yield from exact(driver, *before, call)
            used, full = sizes(driver, before), sizes(driver, [*before, call])
            for lent in [(full[0] - 1, full[1]), (full[0], full[1] - 1)]:
                if lent[0] >= used[0] and lent[1] >= used[1]:
                    yield from [spaced("stores", lent), *before, *shown(call)]


def variables(driver):
    """A sum that comes to 65,535 variables, and one that passes them; 14 comes before 15."""
    for settings, call in SMALL:
        before = ["open 1", *settings]
        job = job_after(driver, before)
        after = job_after(driver, [*before, call])
        most = VARIABLES - (after.variables - job.variables)
        fits = spaced("stores", (after.literals, after.clauses + 1))
        short = spaced("stores", (job.literals, job.clauses + 1))
        for count in sorted({most, min(most + 1, VARIABLES)}):
            given = job_line(with_variables(job, count))
            yield from [fits, given, *shown(call), short, given, call]


def forged(driver):
    """Well formed jobs that no call made: literals repeated, shared, negated, and the last ones."""
    first = Setting((9, 9, 3, *[0] * 9), 3, 2, 5, 0)
    second = Setting((8, 9, 0, *[0] * 9), 3, -3, 2, -3)
    third = Setting((1, *[0] * 11), 1, -1, 0, -1)
    long = Setting(tuple(range(BITS)), BITS, -4095, 0, -4095)
    base = Job(2, 6, 1, 4, 3, (first, second, third, *[SPARE] * 29))
    last = Job(0, 6, 0, 0, 32, (*[SPARE] * 29, first, second, long))
    rows = [(0, 1, 1, -1), (0, 2, 1, 1, 2, -3), (1, 1, 2, 1), (0, 3, 2, -1), (2, 5)]
    for op, row in product(EACH, rows):
        call = linear(op, 1, *row)
        lent = sizes(driver, [job_line(base), call])
        yield from [spaced("stores", lent), "lits 0 7", "ends 1 4", job_line(base), call, "show"]
    for op in EACH:
        calls = [linear(op, -2, 29, 1, 30, -1), linear(op, 9, 0, 5, 28, -3, 31, 1)]
        lent = sizes(driver, [job_line(last), *calls])
        calls.append(linear(op, 0, 31, 1, 32, 1))
        yield from [spaced("stores", lent), job_line(last), *calls, "show"]
    lits = (2 * VARIABLES - 1, 2 * VARIABLES - 2, 0, *[0] * 9)
    full = with_record(with_variables(base, VARIABLES), 0, lits=lits)
    yield from ["stores 50 20", job_line(full), *shown(linear(0, -3, 0, 1)), linear(0, 0), "show"]


def is_low(reached):
    return reached.greatest() <= 6


def drawn(driver, rng, count):
    """Random sums of few clauses, every one shown."""
    while count:
        before = ["open 1"]
        for _ in range(rng.randint(2, 6)):
            low = rng.randint(-3, 4)
            wide = spaced("range", (low, low + rng.randint(0, 4)))
            before.append(rng.choice([wide, spaced("binary", (rng.randrange(2), low, low + 3))]))
        job = job_after(driver, before)
        op, constant, terms = arguments.sought_linear(rng, job, is_low)
        lines = [*before, linear(op, constant, *terms)]
        if len(terms) > 2 and sizes(driver, lines)[0] <= 500:
            yield from exact(driver, *lines)
            count -= 1


def lines(driver, rng):
    """The whole part; empty lines are passed over."""
    chapters = [operations(driver), no_bits(driver), dead_ends(driver), last_inequalities(driver)]
    chapters += [bounds(driver), heights(driver), orders(), refusals(), space(driver)]
    chapters += [variables(driver), forged(driver), drawn(driver, rng, 40)]
    return [line for chapter in chapters for line in ["", *chapter]]
