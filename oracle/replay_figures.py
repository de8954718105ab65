"""The part of replay's script for figures: each operation, products, dead ends, heights, the bench
values, each refusal and the order, counts at and past the greatest stores, and figures of calls
that are short of space, which are then made with enough.

Most figures are followed by the call itself, so that what it adds stands beside them.
"""

from dataclasses import replace
from itertools import product

from job import MAX_STORE, SPARE, Job, Setting
from replay_chapters import BROKEN_COUNTS, I32, U32, broken, held, job_line, shown, with_record
from replay_products import PLAIN, SHIFTED, mul
from replay_sums import HEIGHTS, LARGE, SMALL, VARIABLES, faulty, job_after, linear, of_all
from script import spaced
from turned import EQ, GE, LT, OPERATIONS

WORDS = {"linear": "size", "mul": "size_mul"}
SIX = ["open 0", *["range 0 127"] * 6]
# Products that end in a dead end: without multiplier clauses, and behind some that stay.
DEAD_PRODUCTS = [
    ["range -2 -2", "range 0 3", "range -5 -5"],
    ["range -128 -127", "range 0 1", "range -2 -2"],
]


def figures(call):
    """The line that asks for the figures of a call."""
    word, rest = call.split(" ", 1)
    return f"{WORDS[word]} {rest}"


def each(calls):
    """Figures of each call, then the call."""
    return [line for call in calls for line in (figures(call), call)]


def operations():
    """0 to 6 terms of every operation, signs mixed; the offsets of the settings differ."""
    settings = ["range 0 1", "range -2 1", "binary 1 0 2", "list -1 0 3", "range 0 2"]
    yield from [LARGE, "open 1", *settings, "range -5 -4"]
    for op, count in product(OPERATIONS, (0, 1, 2, 4, 6)):
        signs = [1, -1, 1, 1, -1, -1][:count]
        yield from each([of_all(op, 3 - count, [s * (i + 1) for i, s in enumerate(signs)])])


def bench():
    """The bench values of rules, and some near them."""
    yield from ["stores 200 90", "open 0"]
    yield from each(linear(op, c) for op in OPERATIONS for c in (0, 3))
    yield from ["open 0", "range 0 2", *each([linear(0, 1, 0, 2), linear(0, 2, 0, 2)])]
    rows = [(0, 1), (0, 3), (1, 6), (2, 6)]
    yield from [LARGE, *SIX, *(figures(of_all(0, c, (k,) * 6)) for c, k in rows)]
    yield from each([of_all(0, 0, (1,) * 6), of_all(0, 1, (6,) * 6), of_all(0, 2, (6,) * 6)])
    yield from [LARGE, "open 0", "range 0 127", "range 0 255", "range 0 4095"]
    yield from each([mul(0, 0, 2), mul(0, 1, 2), mul(1, 0, 2), mul(1, 1, 2)])


def no_bits():
    """Settings of 0 bits give columns to Ne and Ge, none to Eq."""
    yield from ["stores 999 300", "open 0", "range 0 0", "range -3 -3", "range 0 2"]
    yield from (figures(linear(op, 1, 0, 4)) for op in OPERATIONS)
    yield from each(linear(op, 0, 1, -5, 2, 1) for op in OPERATIONS[:3])
    yield from each([mul(0, 0, 0), mul(0, 2, 0), mul(2, 0, 2), mul(1, 0, 0), mul(1, 2, 1)])


def dead_ends():
    """At the first column and at later ones, behind ordering clauses, which count."""
    yield from ["stores 999 300", "open 0", *["range 0 1"] * 5]
    rows = [(16, (2, 2, 2, 2, 128)), (8, (-1, -1, -1, -1, 64)), (1, (2, 2, -2, -2, -128))]
    rows += [(32, (1, 64)), (1, (2, 4, 6, 8, 10))]
    yield from each(of_all(0, c, coefficients) for c, coefficients in rows)
    yield from (figures(of_all(op, *rows[0])) for op in OPERATIONS)
    for settings in DEAD_PRODUCTS:
        yield from ["open 0", *settings, *shown(*each([mul(0, 1, 2), mul(1, 0, 2)]))]


def products():
    """With offsets and without, x, y and m coinciding."""
    for settings in (PLAIN, SHIFTED):
        yield from [LARGE, "open 1", *settings]
        chosen = [(0, 1, 3), (0, 0, 1), (0, 1, 0), (0, 1, 1), (0, 0, 0), (3, 2, 4)]
        yield from each(mul(*xym) for xym in chosen)
    yield from [LARGE, "open 0", "range -1 126", "range -4095 0", "range 0 63"]
    yield from each([mul(0, 0, 1), mul(0, 1, 1), mul(2, 0, 1)])


# Rows of HEIGHTS, and which of their constants: 12 and 13 come up in every operation.
TALL = [(5, 0), (7, 0), (8, 1), (13, 0), (14, 0)]


def heights():
    """Columns of height 11, 12 and 13; of Ge the call is made too."""
    for row, which in TALL:
        bits, coefficients, constants = HEIGHTS[row]
        yield from [LARGE, "open 0", *(f"range 0 {2**n - 1}" for n in bits)]
        calls = [of_all(op, constants[which], coefficients) for op in OPERATIONS]
        yield from [*map(figures, calls), *each([calls[GE]])]


def bounds():
    """Operation, constant, coefficients and their number at the bounds and one past."""
    yield from [LARGE, "open 0", "range 0 1", "range -3 0", "range 0 0"]
    constants = [1_000_000, -1_000_000, 1_000_001, -1_000_001, I32, -I32 - 1]
    yield from (figures(linear(EQ, c, 0, 3, 1, -1)) for c in constants)
    yield from (figures(linear(op, c)) for op in OPERATIONS[1:] for c in constants[:4])
    coefficients = [255, -255, 256, -256, 0, I32, -I32 - 1]
    yield from (figures(linear(GE, 7, 0, 1, 1, k)) for k in coefficients)
    yield from (figures(linear(op, 0, 0, 1)) for op in (5, 6, 255, 256, U32))
    yield from (figures(linear(0, 0, *[1] * count)) for count in (1, 12, 13, 14, 4_096))
    yield from (figures(linear(0, 0, n, 1)) for n in (2, 3, -1, 32, I32, -I32 - 1))
    for xym in [(2, 2, 3), (2, 3, 2), (3, 2, 2), (U32, 0, 0), (0, U32, 0), (0, 0, U32)]:
        yield figures(mul(*xym))
    widest = ["open 0", "range 0 4095", "range -4095 0", "range -2048 2047"]
    yield from [LARGE, *widest]
    yield from (figures(linear(op, 1_000_000, 0, 255, 1, -255)) for op in OPERATIONS)
    yield from each([linear(op, 0, 0, 128, 1, 64, 2, -1) for op in OPERATIONS[:3]])


def orders():
    """1, 12, 9, 8, 9, 10, 11, 13: every one alone and every two at once; no space is asked for."""
    records = tuple(Setting((4 * i, 4 * i + 2, *[0] * 10), 2, 0, 3, 0) for i in range(7))
    plain = Job(0, 14, 0, 0, 7, (*records, *[SPARE] * 25))
    full = replace(plain, variables=VARIABLES)
    yield from ["stores 0 0", job_line(full), *shown(*map(figures, faulty(EQ)))]
    yield from ["stores 0 0", job_line(with_record(plain, 6, high=4))]
    yield from map(figures, [*faulty(LT)][:10])
    # products: 1 before 8, 8 before 13
    tall = Setting((*range(8), *[0] * 4), 8, 0, 255, 0)
    given = replace(plain, settings=(tall, *plain.settings[1:]))
    calls = [mul(0, 0, 7), mul(7, 0, 0), mul(0, 7, 0), mul(0, 0, 1)]
    for job in (given, replace(given, switches=15)):
        yield from [job_line(job), *map(figures, calls)]


def jobs():
    """Well formed jobs that no call made, and broken ones; the stores lent do not matter."""
    first = Setting((9, 0, 3, *[0] * 9), 3, 2, 5, 0)
    second = Setting((1, 8, 0, *[0] * 9), 3, -3, 2, -3)
    base = Job(2, 5, 1, 4, 2, (first, second, *[SPARE] * 30))
    yield "stores 3 2"
    counts, records = [*broken(base)][: len(BROKEN_COUNTS)], [*broken(base)][len(BROKEN_COUNTS) :]
    calls = [linear(1, 1, 0, 1, 1, -2), mul(0, 1, 0)]
    for at, job in enumerate([base, *held(base), *counts, *records[::5]]):
        yield from [job_line(job), figures(calls[at % 2])]


def greatest():
    """Counts of clauses and literals at those of the greatest stores, and one past them."""
    record = Setting((0, 3, *[0] * 10), 2, 0, 3, 0)
    base = Job(1, 2, 0, 0, 1, (record, *[SPARE] * 31))
    clauses, literals = MAX_STORE - 1, MAX_STORE
    rows = [(clauses - 1, 0), (clauses, 0), (clauses + 1, 0), (U32, 0), (0, literals)]
    rows += [(0, literals + 1), (0, U32), (clauses, literals), (clauses + 1, literals)]
    rows += [(clauses, literals + 1)]
    yield LARGE
    for counts in rows:
        yield job_line(replace(base, clauses=counts[0], literals=counts[1]))
        yield from [*each([linear(2, -1, 0, 1)]), figures(mul(0, 0, 0)), figures(linear(6, 0))]


def rules():
    """Settings, and a rule that adds variables or clauses."""
    yield from [SMALL[i] for i in (0, 1, 3, 8)]
    yield ["range 0 3", "range -2 2"], mul(0, 0, 1)


def space(driver):
    """Stores short of literals, of ends, of both: 15, and then with just enough."""
    for settings, call in rules():
        before = ["open 1", *settings]
        after = job_after(driver, [*before, call])
        literals, ends = after.literals, after.clauses + 1
        yield from [LARGE, *before]
        for lent in [(literals - 1, ends), (literals, ends - 1), (0, 0)]:
            yield from [spaced("stores", lent), *each([call])]
        yield from [spaced("stores", (literals, ends)), *each([call]), "show"]


def variables(driver):
    """Figures that come to 65,535 variables and past them: 14, and then with one fewer."""
    for settings, call in rules():
        before = ["open 1", *settings]
        job, after = job_after(driver, before), job_after(driver, [*before, call])
        most = VARIABLES - (after.variables - job.variables)
        if most < VARIABLES:
            yield spaced("stores", (after.literals, after.clauses + 1))
            for count in (most + 1, most):
                yield from [job_line(replace(job, variables=count)), *each([call])]
    yield from [LARGE, job_line(replace(job_after(driver, SIX), variables=VARIABLES))]
    yield from each([of_all(op, 0, (1,) * 6) for op in OPERATIONS])


def lines(driver):
    """The whole part; empty lines are passed over."""
    chapters = [operations(), bench(), no_bits(), dead_ends(), products(), heights(), bounds()]
    chapters += [orders(), jobs(), greatest(), space(driver), variables(driver)]
    return [line for chapter in chapters for line in ["", *chapter]]
