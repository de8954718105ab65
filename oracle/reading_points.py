"""Points of a reading, which tests the clauses, by hand with what is right, to check the judge by.

The clauses stored are (0 or 1), (not 0 or 2), (not 1 or not 2): ends 0, 2, 4, 6. The setting is 1
where variable 0 is, else 0. All three hold for 1 0 1 and for 0 1 0 and for no other assignment.
"""

from dataclasses import replace
from itertools import product

import values
from jobfiles import field
from replay_chapters import job_line
from replay_readings import CLAUSES, GIVEN, stored
from script import Script
from solve_files import holds

U32 = 2**32 - 1
STORED = ["stores 10 6", *stored(CLAUSES), job_line(GIVEN)]
GOOD = "read 0 1 0 1"
# Lines after the stored clauses, a reading, its number and value.
ON_STORED = [
    ([], GOOD, 0, 1),
    ([], "read 0 0 1 0", 0, 0),
    ([], "read 0 0 0 1", 21, 0),  # the first clause alone
    ([], "read 0 1 0 0", 21, 0),  # the second alone
    ([], "read 0 1 1 1", 21, 0),  # the last alone
    ([], "read 0 0 0 0", 21, 0),
    ([], "read 0 1 0", 16, 0),
    ([], "read 0 1 0 1 0", 16, 0),
    ([], "read 0 1 1 2", 16, 0),  # and a clause unsatisfied
    ([], "read 0 2 0 1", 16, 0),
    ([], "read 0", 16, 0),
    ([], "read 1 1 0 1", 8, 0),
    ([], "read 1 1 1 1", 8, 0),
    ([], "read 1 1 1 2", 8, 0),
    ([], f"read {U32}", 8, 0),
    (["ends 0 1"], GOOD, 21, 0),  # the first clause is (1)
    (["ends 0 1"], "read 0 0 1 0", 0, 0),
    (["ends 0 1", f"lits 0 {U32}"], "read 0 0 1 0", 0, 0),
    (["ends 0 2"], "read 0 0 1 0", 21, 0),  # it is empty
    (["ends 0 3"], GOOD, 1, 0),
    (["ends 1 4"], GOOD, 21, 0),  # the second one is empty
    (["ends 1 5"], GOOD, 1, 0),
    (["ends 0 1", "ends 1 1"], GOOD, 21, 0),
    (["ends 0 1", "ends 1 0"], GOOD, 1, 0),
    (["ends 2 2"], GOOD, 21, 0),
    (["ends 2 1"], GOOD, 1, 0),
    (["ends 2 3"], GOOD, 21, 0),  # the second one is (not 0)
    (["ends 2 5"], GOOD, 21, 0),  # the last one is (not 2)
    (["ends 2 6"], GOOD, 21, 0),
    (["ends 2 7"], GOOD, 1, 0),
    (["ends 3 5"], GOOD, 0, 1),
    (["ends 3 5", f"lits 5 {U32}"], GOOD, 0, 1),
    (["ends 3 4"], GOOD, 21, 0),
    (["ends 3 3"], GOOD, 1, 0),
    (["ends 3 7"], GOOD, 1, 0),
    ([f"ends 3 {U32}"], GOOD, 1, 0),
    (["ends 3 7"], f"read {U32} 2", 1, 0),
    (["ends 4 7", f"ends 5 {U32}", f"lits 6 {U32}"], GOOD, 0, 1),
    (["lits 1 5"], GOOD, 0, 1),
    (["lits 0 5"], GOOD, 21, 0),
    (["lits 0 6"], GOOD, 1, 0),
    (["lits 3 6"], GOOD, 1, 0),
    (["lits 5 5"], GOOD, 0, 1),
    (["lits 5 6"], GOOD, 1, 0),
    ([f"lits 5 {U32}"], "read 1", 1, 0),
]
# The stored job with counts changed, lines after it, a reading, its number and value.
ON_COUNTS = [
    (dict(clauses=2), [], "read 0 1 1 1", 0, 1),
    (dict(clauses=2), ["lits 4 6"], "read 0 1 1 1", 0, 1),
    (dict(clauses=0), [], "read 0 0 0 0", 0, 0),
    (dict(clauses=0, literals=0), [], "read 0 0 0 0", 0, 0),
    (dict(clauses=0, literals=0), ["ends 0 1"], "read 0 0 0 0", 1, 0),
    (dict(clauses=0, literals=1), ["ends 0 1"], "read 0 0 0 0", 0, 0),
    (dict(clauses=0, literals=1), ["ends 0 2"], "read 0 0 0 0", 1, 0),
    (dict(clauses=4), [], GOOD, 1, 0),
    (dict(clauses=4), ["ends 4 6"], GOOD, 21, 0),
    (dict(clauses=4), ["ends 4 7"], GOOD, 1, 0),
    (dict(clauses=4, literals=7), ["ends 4 7"], GOOD, 0, 1),
    (dict(clauses=5), ["ends 4 6", "ends 5 6"], GOOD, 21, 0),
    (dict(clauses=6), ["ends 4 6", "ends 5 6"], GOOD, 1, 0),
    (dict(literals=5), [], GOOD, 1, 0),
    (dict(literals=10), [], GOOD, 0, 1),
    (dict(literals=11), [], GOOD, 1, 0),
    (dict(variables=4), [], "read 0 1 0 1 0", 0, 1),
    (dict(variables=4), [], "read 0 1 1 1 0", 21, 0),
    (dict(variables=4), [], GOOD, 16, 0),
    (dict(variables=2), [], "read 0 1 0", 1, 0),
    (dict(variables=2, clauses=1), [], "read 0 1 0", 0, 1),
    (dict(variables=2, clauses=2), [], "read 0 1 0", 1, 0),
    (dict(variables=2, clauses=1), [], "read 0 0 0", 21, 0),
]
# A script, a reading, its number and value.
GROWN = [
    (["open 0", "range 0 0"], "read 0", 0, 0),
    (["open 0", "range 0 0"], "read 0 0", 16, 0),
    (["open 0", "range 0 0", "ends 0 1"], "read 0", 1, 0),
    (["open 0", "ends 0 1"], "read 0", 1, 0),
    (["open 0"], "read 0", 8, 0),
    (["open 0", "range 0 0", "linear 0 3"], "read 0", 21, 0),
    (["open 0", "range 0 2", "linear 0 1 0 2"], "read 0 1 0", 21, 0),  # a dead end
    (["open 0", "range 0 2"], "read 0 0 1", 0, 2),
    (["open 0", "range 0 2"], "read 0 1 1", 21, 0),
    (["open 0", "list 1 4"], "read 0 0 0 1", 0, 4),
    (["open 0", "list 1 4"], "read 0 1 0 1", 21, 0),
    (["open 1", "binary 1 -2 3"], "read 0 0 0", 0, 3),
    (["open 1", "binary 1 -2 3"], "read 0 1 0", 0, -2),
    (["open 1", "binary 1 -2 3"], "read 0 0 1", 21, 0),
    (["open 1", "range 0 1"], "read 0 0 1", 0, 1),
]
# Fields of a job file, a solver's text, what values prints.
PRINTS = [
    ([field("open", 0), field("linear", 0, 3)], b"s SATISFIABLE\nv 0\n", b"refused 2 21\n"),
    ([field("open", 0), field("linear", 0, 3)], b"s SATISFIABLE\nv 1 0\n", b"refused 2 20\n"),
    ([field("open", 0), field("linear", 0, 3)], b"s UNSATISFIABLE\n", b"none\n"),
    ([field("open", 0), field("range", 0, 2)], b"s SATISFIABLE\nv 1 2 0\n", b"refused 2 21\n"),
    ([field("open", 0), field("range", 0, 2)], b"s SATISFIABLE\nv -1 2 0\n", b"setting 0 2\n"),
    ([field("open", 1)], b"s SATISFIABLE\nv 1 0\n", b"switch 0 yes\n"),
]


def points():
    """Lines, a reading, its number and value."""
    yield from ((STORED + lines, *rest) for lines, *rest in ON_STORED)
    for fields, lines, *rest in ON_COUNTS:
        yield ([*STORED, *lines, job_line(replace(GIVEN, **fields))], *rest)
    yield from GROWN


def check_points(driver):
    """Faults among the points; no reading changes the job or the stores."""
    for lines, call, status, value in points():
        script = Script(driver)
        for line in lines:
            script.line(line.encode())
        before = script.line(b"show")
        (told,) = script.line(call.encode())
        if told.split()[:2] != [str(status), str(value)] or script.line(b"show") != before:
            yield f"{lines[-3:]}, {call}: {told}"
    for fields, text, right in PRINTS:
        told = values.answer(driver, b"".join(fields), text)
        if told != right:
            yield f"{fields}, {text}: {told}"


def check_all(calls, clauses, book):
    """Faults among the readings under every assignment, and how many assignments are accepted."""
    count, faults, accepted = calls.job.count, [], 0
    for index, assignment in enumerate(product((0, 1), repeat=calls.job.variables)):
        passes = all(holds(clause, assignment) for clause in clauses)
        accepted += passes
        for number in range(count) if passes else [index % count]:
            told = calls.read(number, assignment)
            permitted = book.settings[number](assignment[: calls.job.switches])
            right = told.status == 0 and told.value in permitted
            if not (right if passes else (told.status, told.value) == (21, 0)):
                faults.append(f"{assignment}, setting {number}: {told.status} {told.value}")
    return faults, accepted
