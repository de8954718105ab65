"""The part of replay's script for products: with and without offsets, coinciding settings, heights,
each refusal and the order, space.
"""

from itertools import product

from replay_sums import LARGE, VARIABLES, exact, job_after, sizes
from replay_chapters import job_line
from script import spaced
from dataclasses import replace

PLAIN = ["range 0 3", "range 0 5", "range 0 0", "binary 1 2 5", "list 1 4 6"]
SHIFTED = ["range -2 1", "range 0 3", "binary 0 -3 4", "range -7 -5", "range -1 -1"]
TALL = ["open 0", "range 0 127", "range 0 255", "range 0 4095"]


def mul(x, y, m):
    return spaced("mul", [x, y, m])


def triples(driver):
    """Every x, y, m of five settings, coinciding ones too; the first of each x shown whole."""
    for settings in (PLAIN, SHIFTED):
        before = ["open 1", *settings]
        for x in range(len(settings)):
            yield from [LARGE, *before]
            yield from (mul(x, y, m) for y, m in product(range(len(settings)), repeat=2))
            yield from exact(driver, *before, mul(x, (x + 1) % 5, (x + 2) % 5))
            yield from exact(driver, *before, mul(x, x, x))


def heights():
    """Seven by seven bits reaches 12; seven by eight 13, which is refused."""
    yield from [LARGE, *TALL, mul(0, 0, 2), mul(0, 1, 2), mul(1, 0, 2), mul(1, 1, 2), mul(0, 0, 0)]
    yield from [LARGE, "open 0", "range -1 126", "range -4095 0", mul(0, 0, 1), mul(0, 1, 1)]


def refusals():
    """8 for each place, and before 13; 13 before 15; nothing changes."""
    yield from ["stores 40 16", *TALL[:3], "show"]
    yield from [mul(2, 0, 0), mul(0, 2, 0), mul(0, 0, 2), mul(0, 1, 7), mul(2**32 - 1, 0, 0)]
    yield from [mul(0, 1, 1), mul(0, 0, 1), "show"]
    yield from ["stores 0 1", "open 3", mul(0, 0, 0), "range 2 2", mul(0, 0, 0), "show"]


def space(driver):
    """Stores filled exactly and one entry short of each kind; variables at their bound."""
    before = ["open 0", "range 0 3", "range -2 2"]
    call = mul(0, 0, 1)
    literals, ends = sizes(driver, [*before, call])
    for lent in ((literals, ends), (literals - 1, ends), (literals, ends - 1)):
        yield from [spaced("stores", lent), *before, call, "show"]
    made = job_after(driver, [*before, call]).variables - job_after(driver, before).variables
    job = job_after(driver, before)
    for spare in (made, made - 1):
        yield LARGE
        yield from ["open 0", *before[1:]]
        yield job_line(replace(job, variables=VARIABLES - spare))
        yield call


def lines(driver):
    return [*triples(driver), *heights(), *refusals(), *space(driver)]
