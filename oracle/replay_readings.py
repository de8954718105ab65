"""The part of replay's script for readings, which test every clause: all assignments of small jobs,
each bit turned, clauses alone unsatisfied, the order of the numbers, and each bound of the ends and
literals at it and one past it.
"""

from dataclasses import replace
from itertools import accumulate, product

from book import assignment_of
from job import SPARE, Job, Setting
from replay_chapters import U32, job_line, shown
from script import MAX_STORES, Script, spaced

# Small jobs, each read under all of its assignments.
SMALL = [
    ["open 1", "range 0 2"],
    ["open 0", "range -3 -1"],
    ["open 0", "range 5 7"],
    ["open 0", "range 6 6"],
    ["open 1", "range 0 3"],  # no clauses
    ["open 0", "list 1 4"],
    ["open 1", "list -3 0 1"],
    ["open 1", "list 0 1 2 3"],  # no clauses
    ["open 2", "binary 3 0 5"],
    ["open 1", "binary 0 2 5", "binary 1 -1 3"],  # no new variable, a clause
    ["open 1", "range 0 2", "binary 0 0 1", "linear 0 -2 0 1 1 1"],
    ["open 0", "range 0 2", "linear 1 -1 0 1"],
    ["open 0", "range 0 1", "range 0 1", "linear 2 0 0 1 1 -1"],
    ["open 0", "range 0 2", "linear 3 -1 0 1"],
    ["open 1", "binary 0 1 2", "linear 4 -2 0 1"],
    ["open 1", "range 0 1", "linear 5 0 0 1"],
    ["open 0", "range 0 1", "range 0 3", "mul 0 0 1"],
    ["open 0", "range -1 0", "range 0 1", "mul 0 0 1"],
    ["open 0", "range 0 1", "range 0 1", "range 0 1", "mul 0 1 2"],
    ["open 0", "range 0 2", "linear 0 1 0 2"],  # a dead end: its clause is empty
    ["open 0", "range 0 1", "linear 0 3"],
    ["open 0", "range 0 1", "linear 2 -2 0 1"],  # never met
]
# A job of every kind of setting and rule, and two choices that meet it, switches ahead.
SHEET = ["open 3", "range -3 4", "list 2 5 9", "binary 5 -1 6", "range 0 0", "range 5 7"]
SHEET += ["binary 0 2 5", "list -4 0 1", "range 17 17", "range -12 12"]
SHEET += ["linear 0 -3 0 1 1 1", "linear 1 1 2 -1 4 1", "linear 2 -7 1 -1 4 2"]
SHEET += ["linear 3 0 1 1 5 -1", "linear 4 0 0 1 6 1", "linear 5 -16 7 1"]
SHEET += ["mul 0 1 8", "mul 3 6 3"]
CHOICES = [(1, 0, 0, -2, 5, 6, 0, 6, 5, 1, 17, -10), (0, 1, 1, 1, 2, -1, 0, 5, 2, -4, 17, 2)]

# Three variables, three clauses of two literals; the one setting's bit is variable 0.
BIT = Setting((0,) + (0,) * 11, 1, 0, 1, 0)
CLAUSES = [[0, 2], [1, 4], [3, 5]]
GIVEN = Job(1, 3, 3, 6, 1, (BIT, *[SPARE] * 31))
GOOD, BAD = [1, 0, 1], [1, 1, 1]


def read(setting, assignment):
    return spaced("read", [setting, *assignment])


def followed(driver, lines):
    """The calls after the lines of a script."""
    script = Script(driver)
    for line in lines:
        script.line(line.encode())
    return script.calls


def small_jobs(driver):
    """Every assignment; of each that is accepted every setting, of others one."""
    for lines in SMALL:
        calls = followed(driver, lines)
        yield from ["stores 90 40", *lines, "show"]
        for index, assignment in enumerate(product((0, 1), repeat=calls.job.variables)):
            passed = calls.read(0, assignment).status == 0
            settings = range(calls.job.count) if passed else [index % calls.job.count]
            yield from (read(setting, assignment) for setting in settings)


def bits_turned(driver):
    """Every setting under a satisfying assignment, then this with each bit turned, or some."""
    calls = followed(driver, SHEET)
    counts = (calls.job.literals, calls.job.clauses + 1)
    yield from [spaced("stores", counts), *SHEET, "show"]
    for choice in CHOICES:
        assignment = assignment_of(calls, choice)
        yield from (read(setting, assignment) for setting in range(calls.job.count))
        for at in range(0, len(assignment), 1 if choice == CHOICES[0] else 9):
            turned = [value ^ (place == at) for place, value in enumerate(assignment)]
            yield read(at % calls.job.count, turned)
        short = assignment[:-1]
        for wrong in (short, assignment + [0], [], short + [2], [255] + assignment[1:]):
            yield from [read(0, wrong), read(8, wrong), read(9, wrong)]
        yield from shown(read(9, assignment), read(U32, assignment), read(9, [0] * len(assignment)))


def stored(clauses, begin=0):
    """Clauses put into the stores from an entry on."""
    lits = [lit for clause in clauses for lit in clause]
    yield from (f"lits {begin + at} {lit}" for at, lit in enumerate(lits))
    ends = accumulate(map(len, clauses), initial=begin)
    yield from (f"ends {at} {end}" for at, end in enumerate(ends))


def alone():
    """Every set of clauses unsatisfied, the first, one between or the last alone among them."""
    sheets = [[[0], [3], [4], [7], [8]], [[0, 3, 4], [7, 8, 9], [2, 2, 6], [5, 9, 1]]]
    sheets += [[[0, 2, 4, 6, 8]], [[9, 7, 5, 3, 1], [0, 1]], [[], [0]], [[0], []], [[0], [], [1]]]
    for clauses in sheets:
        literals = sum(map(len, clauses))
        job = replace(GIVEN, variables=5, clauses=len(clauses), literals=literals)
        yield from ["stores 20 9", *stored(clauses), job_line(job)]
        yield from (read(0, assignment) for assignment in product((0, 1), repeat=5))


def without():
    """No clauses; no variables; an empty clause alone; a literal where there is no variable."""
    yield from ["stores 9 9", "open 0", "range 0 0"]
    yield from shown("read 0", "read 0 0", "read 1", "read 1 2")
    yield from ["linear 0 3", *shown("read 0", "read 0 0", "read 1"), "linear 0 0", "read 0"]
    yield from ["open 2", "range 0 0", "range 0 1", "binary 1 2 5", "list 0 1"]
    for assignment in product((0, 1), repeat=4):
        yield from (read(setting, assignment) for setting in range(4))
    yield from ["read 3 0 0 0", "read 3 0 0 0 2", "read 4 0 0 0 2", "read 3 0 0 0 0 0"]
    none = Job(count=1)
    for job in (none, replace(none, clauses=1, literals=1), replace(none, clauses=1)):
        yield from ["stores 3 3", "ends 1 1", job_line(job), "read 0", "read 1", "read 0 0"]
        yield from ["ends 1 0", *shown("read 0", "read 1", "read 0 0")]
    # one variable: literal 1 is its last one
    one = replace(GIVEN, variables=1, clauses=1, literals=1)
    for number in (0, 1, 2, U32):
        yield from ["stores 1 2", *stored([[number]]), job_line(one)]
        yield from shown("read 0 0", "read 0 1", "read 1 0", "read 0 2")


def orders():
    """1 ahead of 8, 8 of 16, 16 of 21: every two, three and four of them at once."""
    given = [GOOD, BAD, GOOD[:2], BAD[:2], GOOD + [0], [1, 2, 1], [2, 1, 1], [1, 1, 2], []]
    calls = [read(setting, assignment) for setting in (0, 1, U32) for assignment in given]
    for fields in ({}, dict(switches=4), dict(clauses=9), dict(literals=10), dict(count=2)):
        job = replace(GIVEN, **fields)
        yield from ["stores 9 9", *stored(CLAUSES), job_line(job), *shown(*calls)]
    for line in ("ends 3 7", "ends 1 5", "ends 0 3", "lits 5 6", f"lits 0 {U32}"):
        yield from ["stores 9 9", *stored(CLAUSES), job_line(GIVEN), line, *shown(*calls)]


# Entries put in one after another; after each one the readings; the last line puts all back.
ENDS = [
    [(0, 0), (0, 1), (0, 2), (0, 3), (0, 6), (0, 7), (0, U32)],
    [(1, 1), (1, 0), (1, 3), (1, 4), (1, 5), (1, 6), (1, U32)],
    [(0, 1), (1, 1), (1, 0)],
    [(2, 3), (2, 2), (2, 1), (2, 0), (2, 5), (2, 6), (2, 7), (2, U32)],
    [(3, 5), (3, 4), (3, 3), (3, 0), (3, 6), (3, 7), (3, 8), (3, U32)],
    [(4, 0), (4, 7), (5, U32), (4, U32)],
    [(0, 6), (1, 6), (2, 6), (3, 6), (3, 7)],
]


def forged_ends():
    """Each end at its neighbours and one past them, at the literal count and one past it."""
    yield from ["stores 10 6", job_line(GIVEN)]
    calls = [read(0, GOOD), read(0, BAD), read(0, [0, 1, 0]), read(1, GOOD), read(0, [2, 0, 1])]
    for row in ENDS:
        yield from stored(CLAUSES)
        for at, end in row:
            yield from [f"ends {at} {end}", *calls]
        yield from [*shown(read(0, GOOD)), "ends 4 0", "ends 5 0"]


def forged_literals():
    """Each covered literal at the job's last one, one past it, far off; those not covered."""
    yield from ["stores 10 6", job_line(GIVEN)]
    calls = [read(0, GOOD), read(0, BAD), read(0, [0, 1, 0]), read(1, GOOD), read(0, GOOD[1:])]
    for at in range(10):
        yield from stored(CLAUSES)
        for number in (4, 5, 6, 7, U32):
            yield from [f"lits {at} {number}", *calls]
        yield "show"
    # the first and the last clause shorter: what they covered is not tested
    for line in ("ends 0 1", "ends 3 5"):
        yield from [*stored(CLAUSES), line, f"lits 0 {U32}", *calls, "lits 0 0"]
        yield from [f"lits 5 {U32}", *calls, "lits 5 6", *calls]
    yield from [*stored(CLAUSES, 3), job_line(replace(GIVEN, literals=9)), *calls]
    yield from [f"lits 2 {U32}", f"lits 9 {U32}", *calls, "lits 3 6", *calls]


def forged_counts():
    """A clause count, literal count or variable count other than that of the clauses."""
    given = [GOOD, BAD, [0, 1, 0], GOOD + [0], GOOD[:2], GOOD[:1]]
    calls = [*(read(0, assignment) for assignment in given), read(1, GOOD)]
    rows = [dict(clauses=n) for n in (2, 1, 0, 4, 5, 6)]
    rows += [dict(literals=n) for n in (5, 4, 0, 7, 10, 11)]
    rows += [dict(variables=n) for n in (4, 2, 1)]
    rows += [dict(variables=n, clauses=c) for n, c in ((2, 1), (2, 0), (1, 0))]
    rows += [dict(clauses=c, literals=n) for c, n in ((2, 4), (2, 3), (0, 0))]
    yield from ["stores 10 6", *stored(CLAUSES)]
    for fields in rows:
        yield from [job_line(replace(GIVEN, **fields)), *shown(*calls)]
    # a fourth clause: falling, empty, past the literals, of a literal that holds or does not
    yield job_line(replace(GIVEN, clauses=4))
    for end in (5, 6, 7):
        yield from [f"ends 4 {end}", *calls]
    yield job_line(replace(GIVEN, clauses=4, literals=7))
    for lit in (0, 1, 5, 6):
        yield from [f"lits 6 {lit}", *calls]
    # no clause: the leading end is held to the literal count
    yield from ["open 0", "range 0 0"]
    for job in (Job(count=1), Job(count=1, literals=2)):
        yield job_line(job)
        for end in (0, 1, 2, 3, U32):
            yield from [f"ends 0 {end}", *shown("read 0", "read 1", "read 0 0", "clause 0")]


def largest():
    """The longest stores of a script: many empty clauses, then one clause of every literal."""
    lits, ends = MAX_STORES
    job = replace(GIVEN, variables=1, clauses=ends - 1, literals=lits)
    calls = ["read 0 0", "read 0 1", "read 1 0"]
    yield from [spaced("stores", MAX_STORES), job_line(job), *calls]
    for end in (lits, lits + 1):
        yield from [f"ends {ends - 1} {end}", *calls]
    yield from [job_line(replace(job, clauses=ends)), *calls]
    yield from [job_line(replace(job, clauses=1)), f"ends 1 {lits}", *calls]
    for lit in (1, 2):
        yield from [f"lits {lits - 1} {lit}", *calls]
    yield from [f"ends 1 {lits - 1}", *calls, "stores 9 9"]


def lines(driver):
    """The whole part; empty lines are passed over."""
    chapters = [small_jobs(driver), bits_turned(driver), alone(), without(), orders()]
    chapters += [forged_ends(), forged_literals(), forged_counts(), largest()]
    return [line for chapter in chapters for line in ["", *chapter]]
