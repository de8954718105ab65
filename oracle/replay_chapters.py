"""The first part of replay's script: each refusal of each call, at and one past every bound.

`show` stands before and after refusals, so that the answers say that nothing changed.
"""

from dataclasses import replace

from job import BITS, MAX_SETTINGS, SPARE, Job, Setting
from script import Script, spaced

U32, I32 = 2**32 - 1, 2**31 - 1
CALLS = ["range 0 1", "list 1 4", "binary 0 0 5", "read 0", "clause 0"]
FULL = (1, 2, 3, 4, 5, 6, 7, 8, 9, 1, 2, 3)


def job_line(job):
    return spaced("job", job.numbers())


def shown(*lines):
    """Lines between two `show`."""
    return ["show", *lines, "show"]


def openings():
    yield from shown("stores 9 5")
    yield from shown("open 64")
    yield from shown("open 65", f"open {U32}")
    yield from shown("ends 0 7", "lits 0 8", "open 0")
    yield from ["open 63", *shown("stores 3 0", "open 65", "open 64")]
    yield from ["stores 0 0", "open 0", "stores 0 1", "ends 0 9", *shown("open 64")]


def ranges():
    yield from ["stores 6000 900", "open 2"]
    accepted = [(-4095, 0), (0, 4095), (4095, 4095), (-4095, -4095), (0, 0), (-1, 4094)]
    accepted += [(-2048, 2047)]
    refused = [(-4095, 1), (0, 4096), (4096, 4096), (-4096, 0), (-4096, -4096), (-1, 4095), (5, 4)]
    refused += [(0, -1), (-I32 - 1, I32), (I32, -I32 - 1), (I32, I32), (-I32 - 1, -I32 - 1)]
    yield from (f"range {low} {high}" for low, high in accepted + refused)
    for low, high in [(0, 14), (0, 99), (5, 7), (-3, -1), (1, 1), (-7, 100), (3, 12)]:
        yield from ["stores 60 30", "open 1", f"range {low} {high}", "range 5 4", "show"]


def lists():
    yield from ["stores 60000 6000", "open 2", "list", "list 7", "list -4095 0", "list -1 4094"]
    yield from [spaced("list", range(64)), spaced("list", range(65)), spaced("list", range(4_096))]
    yield from [spaced("list", range(-32, 32)), spaced("list", range(0, 4_096, 65))]
    yield from ["list 3 3", "list 3 2", "list 1 2 2", "list 1 3 2", "list 4096", "list -4096"]
    yield from ["list -4095 1", "list -1 4095", "list -4095 4095"]
    yield from [f"list {I32}", f"list {-I32 - 1}"]
    # 4 for the count, then 3 for a value, then 4 for the order, then 3 for the width
    yield from [spaced("list", range(4_090, 4_155)), "list 4096 1", "list 5 -4096"]
    yield from ["list 1 -4095 1", "list 4095 -4095", "list -4095 1 1", "list -4095 2 1"]
    for values in [(1, 4), (0, 1, 2, 3), (-3, 5), (2, 3, 5, 7, 11), (-9, -8, -1, 0)]:
        yield from ["stores 300 60", "open 1", spaced("list", values), "list 2 2", "show"]


def binaries():
    yield from ["stores 99 40", "open 2", *shown("binary 4 0 1", f"binary {U32} 0 1")]
    yield from ["binary 3 0 5", "binary 2 2 5", "binary 0 -4095 0", "binary 1 -1 4094", "show"]
    yield from ["binary 0 3 3", "binary 1 4 3", "binary 0 -4095 1", "binary 0 -1 4095"]
    yield from ["binary 0 -4096 0", "binary 0 0 4096", f"binary 0 {-I32 - 1} {I32}"]
    # 6 comes before 3, 3 for a value before 5, 5 before 3 for the width
    yield from ["binary 4 4096 0", "binary 4 3 3", "binary 0 4096 4096", "binary 0 4096 0"]
    yield from ["binary 0 1 -4095", "binary 0 -4095 -4095"]
    yield from ["open 0", "binary 0 0 1", "open 64", "binary 127 0 1", "binary 128 0 1"]
    for f, t in [(0, 5), (2, 5), (-3, -1), (0, 4095), (6, 7), (-4, 4)]:
        yield from ["stores 20 20", "open 1", f"binary 1 {f} {t}", f"binary 0 {f} {t}", "show"]


def table():
    """32 settings, then 7; the checks of the arguments come before it."""
    yield from ["stores 200 100", "open 1", *["range 0 2"] * 31, "binary 1 1 2"]
    full = ["range 0 2", "list 1 4", "binary 0 0 1"]
    yield from shown(*full, "range 1 0", "list", "binary 2 0 1", "binary 0 1 1")
    yield from ["read 31", "read 32", f"read {U32}"]
    # the clauses of the first and of the last range unsatisfied; 8 comes before 21
    zeros = [0] * 63
    for values in (zeros, [0, 1, 1, *zeros[3:]], [*zeros[2:], 1, 1]):
        yield from (spaced(f"read {number}", values) for number in (0, 1, 30, 31, 32))


def space(driver):
    """Stores exactly full and one entry short of each kind, on a new job and on one in progress."""
    calls = ["range 0 99", "range 1 1", "range -3 -1", "list 1 4", "list 0 3 9"]
    calls += ["binary 0 0 5", "binary 1 2 5"]
    for before in ([], ["range 0 5", "binary 1 0 3"]):
        for call in calls:
            script = Script(driver)
            for line in ["open 1", *before, call]:
                script.line(line.encode())
            literals, ends = script.calls.job.literals, script.calls.job.clauses + 1
            for sizes in [(literals, ends), (literals - 1, ends), (literals, ends - 1)]:
                if min(sizes) >= 0:
                    yield from [spaced("stores", sizes), "open 1", *before, *shown(call)]
    yield from ["stores 0 1", "open 1", "range 0 0", "binary 0 2 5", "range 0 1"]
    yield from shown("range 0 2", "list 0 3")


def variables():
    """65,535 variables are the most; 14 comes before 15."""
    for count in (65_535, 65_534, 65_528):
        job = Job(switches=1, variables=count)
        yield from ["stores 400 90", job_line(job), "range 0 0", "binary 0 2 5"]
        yield from ["range 0 1", "range 0 127"]
        yield from [job_line(job), "list 0 5", "binary 0 0 5", "stores 0 1", job_line(job)]
        yield from ["range 0 1", "range 0 99", "list 1 4", "binary 1 0 5"]
    yield from shown(job_line(replace(job, variables=65_536)), *CALLS)
    # a clause of the last variable alone, and one with a literal past it
    record = Setting((131_069, 1, *[0] * 10), 2, -3, -1, -3)
    given = Job(1, 65_535, 1, 1, 1, (record, *[SPARE] * 31))
    yield from ["stores 1 2", "ends 1 1", "lits 0 131070", job_line(given), "read 0", "read 1"]
    yield from ["lits 0 131068", "read 0", "read 1", "read 0 1 0"]
    yield spaced("read 0", [0] * 65_534 + [1])


def clauses():
    yield from ["stores 40 12", "open 1", "range 0 99", "list 1 4", "show"]
    yield from [*(f"clause {k}" for k in range(9)), f"clause {U32}", "show"]
    # the ends of clause 2 fall, then meet, then pass the literals
    yield from ["ends 2 30", "clause 1", "clause 2", "ends 2 12", "clause 2", "ends 2 11"]
    yield from ["ends 3 26", "clause 2", "clause 3", "ends 3 27", "clause 2", "clause 3"]
    yield from [f"ends 3 {U32}", "clause 2", "ends 8 26", "clause 7", "ends 8 25", "clause 7"]
    yield from ["ends 9 0", "clause 8", "show", f"lits 0 {U32}", "clause 0"]
    yield from ["open 1", "clause 0", "stores 2 2", "open 0", "clause 0"]


def forged():
    """A well formed job that no call made; then each condition at its bound, and broken by one."""
    first = Setting((9, 0, 3, *[0] * 9), 3, 2, 5, 0)
    second = Setting((1, 8, 0, *[0] * 9), 3, -3, 2, -3)
    base = Job(2, 5, 1, 4, 2, (first, second, *[SPARE] * 30))
    yield from ["stores 40 20", "lits 0 5", "ends 1 4"]
    for job in [base, *held(base)]:
        yield from [job_line(job), "clause 0", "read 1 1 0 1 0 1", "read 1 0 0 1 0 1"]
        yield from ["read 1 0 0 0 0 0", "binary 0 0 5", "show"]
    for job in broken(base):
        yield from [job_line(job), *CALLS, "range 1 0", "clause 99", f"read {U32}"]
    yield from shown(job_line(replace(base, switches=65, variables=65)), *CALLS, "open 1")


# Counts of a job at a bound, and past one.
HELD_COUNTS = [
    dict(switches=5),
    dict(switches=64, variables=64),
    dict(variables=65_535),
    dict(clauses=19),
    dict(literals=40),
    dict(count=3),
    dict(count=32),
]
BROKEN_COUNTS = [
    dict(switches=65, variables=65),
    dict(switches=6),
    dict(variables=65_536),
    dict(variables=4),
    dict(variables=1),
    dict(clauses=20),
    dict(clauses=U32),
    dict(literals=41),
    dict(literals=U32),
    dict(count=1),
    dict(count=33),
    dict(count=U32),
]


def held(base):
    """At a bound, and still well formed."""
    for fields in HELD_COUNTS:
        yield replace(base, **fields)
    yield with_record(base, 0, lits=(9, 9, 9, *[0] * 9))
    yield with_record(base, 1, lits=(1,) * BITS, length=12, low=-4095, high=0, offset=-4095)
    yield with_record(base, 1, lits=FULL, length=12, low=0, high=4095, offset=0)


def with_record(base, at, **fields):
    """The job with one record changed."""
    records = list(base.settings)
    records[at] = records[at]._replace(**fields)
    return replace(base, settings=tuple(records))


def broken(base):
    """Not well formed: each condition broken by one."""
    for fields in BROKEN_COUNTS:
        yield replace(base, **fields)
    for fields in (
        dict(low=6),
        dict(low=-1),
        dict(high=1),
        dict(high=8),
        dict(high=3),
        dict(offset=1),
        dict(offset=-1),
        dict(offset=2),
        dict(length=2),
        dict(length=4),
        dict(length=13),
        dict(length=U32),
        dict(lits=(10, 0, 3, *[0] * 9)),
        dict(lits=(0, 0, 10, *[0] * 9)),
        dict(lits=(9, 0, 3, 1, *[0] * 8)),
        dict(lits=(9, 0, 3, *[0] * 8, 1)),
        dict(lits=FULL, length=12, low=0, high=4096),
        dict(lits=FULL, length=12, low=4096, high=4096),
        dict(lits=FULL, length=12, low=-4096, high=-1, offset=-4096),
        dict(lits=FULL, length=12, low=-4095, high=1, offset=-4095),
        dict(lits=FULL, length=12, low=-1, high=4095, offset=-1),
        dict(low=-I32 - 1, high=I32, offset=-I32 - 1),
    ):
        yield with_record(base, 0, **fields)
    for at in (1, 2, MAX_SETTINGS - 1):
        given = replace(base, count=1) if at == 1 else base
        spare = given if at > 1 else with_record(given, 1, **SPARE._asdict())
        for fields in (
            dict(lits=(1, *[0] * (BITS - 1))),
            dict(lits=(*[0] * (BITS - 1), 1)),
            dict(length=1),
            dict(low=-1),
            dict(high=1),
            dict(offset=1),
        ):
            yield with_record(spare, at, **fields)


def lines(driver):
    """The whole part; empty lines are passed over."""
    chapters = [openings(), ranges(), lists(), binaries(), table(), space(driver), variables()]
    chapters += [clauses(), forged()]
    return [line for chapter in chapters for line in ["", *chapter]]
