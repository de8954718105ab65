"""Points of the figures by hand with what is right, to check the judge by; and on random jobs the
figures beside the call that follows and beside a count that writes no clause (counting.py).

By hand: a column of `log_encoding_adder` without literals and carries has 1 clause of 1 literal;
one of a single literal or carry and no constant has 2 clauses of 2 literals; one of a single
literal and a constant 1 has 4 clauses of 2 literals, and a carry. Each has a new result unless one
is given. Ne adds for each bit of both results a variable and 4 clauses of 3 literals, then one
clause; Ge for the first such bit a variable and clauses of 3, 2 and 2 literals, then those that end
it. A product adds for each two bits a variable and clauses of 2, 2 and 3 literals.
"""

import random
from dataclasses import replace

import counting
import figures
from foretold import CALLS, added, number_due
from job import MAX_STORE, MAX_VARIABLES, SPARE, Job, Setting
from jobfiles import field, raw
from replay_chapters import job_line
from replay_figures import DEAD_PRODUCTS
from script import Script, parse
from scripts import Generator

U32 = 2**32 - 1
BIT, BITS, THREE = ["range 0 1"], ["range 0 1", "range 0 1"], ["range 0 3", "range 0 3"]
FIVE = ["range 0 1"] * 5
TALL = ["range 0 127", "range 0 255"]
# Settings, a call, its number and its figures.
GROWN = [
    ([], "size 0 0", 0, (0, 0, 0)),
    ([], "size 0 3", 0, (0, 1, 0)),
    ([], "size 1 0", 0, (3, 7, 15)),  # two columns of one clause; one bit; a clause of 1
    ([], "size 1 3", 0, (4, 8, 17)),  # three columns; one bit; a clause of 2
    ([], "size 2 0", 0, (3, 6, 10)),  # two columns; one bit; a clause of 1
    ([], "size 2 3", 0, (4, 7, 12)),  # three columns; one bit; a clause of 2
    ([], "size 2 -3", 0, (4, 8, 12)),  # three columns; one bit; two clauses of 1
    ([], "size 3 3", 0, (4, 8, 12)),  # Ge of -3
    ([], "size 4 2", 0, (4, 8, 12)),  # the same
    ([], "size 5 4", 0, (4, 7, 12)),  # Ge of 3
    (["range 0 2"], "size 0 1 0 2", 0, (0, 1, 0)),  # a dead end at once
    (FIVE, "size 0 16 0 2 1 2 2 2 3 2 4 128", 0, (3, 2, 2)),  # carries 2 and 1, one ordering
    (BIT, "size 0 -1 0 1", 0, (0, 1, 1)),
    (BITS, "size 0 -1 0 1 1 1", 0, (0, 2, 4)),
    (BITS, "size 0 0 0 1 1 -1", 0, (0, 2, 4)),
    (THREE, "size 0 -3 0 1 1 1", 0, (0, 4, 8)),  # the carry is 1 and needs no variable
    (THREE, "size 0 -2 0 1 1 1", 0, (1, 10, 23)),  # 3, 2, 2 twice; then 3, 2, 2, 2
    (["range 0 2"], "size 1 0 0 1", 0, (4, 10, 23)),  # columns 2, 2 and 1; one bit; 2
    (BIT, "size 1 1 0 1", 0, (5, 12, 27)),  # columns 4, 2 and 1; one bit; 2
    (BIT, "size 2 -1 0 1", 0, (3, 7, 13)),  # columns 2 and 1; one bit; 1
    (BIT, "size 3 1 0 -1", 0, (3, 7, 13)),
    (BIT, "size 4 0 0 -1", 0, (3, 7, 13)),
    (BIT, "size 5 0 0 1", 0, (3, 7, 13)),
    (["range 0 0"], "size_mul 0 0 0", 0, (0, 0, 0)),
    (BIT, "size_mul 0 0 0", 0, (1, 5, 11)),
    ([*BITS, "range 0 1"], "size_mul 0 1 2", 0, (1, 5, 11)),
    ([*BITS, "range 0 2"], "size_mul 0 1 2", 0, (1, 6, 12)),  # a column of its own for the 2nd bit
    ([*BITS, "range 0 0"], "size_mul 0 1 2", 0, (2, 6, 12)),  # a new result, which is barred
    (["range 0 0", "range 0 3"], "size_mul 0 1 1", 0, (0, 2, 2)),
    (["range 0 3", "range 0 1"], "size_mul 0 1 0", 0, (2, 10, 22)),
    (["range -1 0", *BITS], "size_mul 0 1 2", 0, (2, 9, 20)),  # 3 and 2 clauses; xy = y + m
    (DEAD_PRODUCTS[0], "size_mul 0 1 2", 0, (0, 1, 0)),
    (DEAD_PRODUCTS[1], "size_mul 0 1 2", 0, (2, 6, 11)),  # 3 and 2 clauses stay
    (BIT, "size 6 1000001 0", 12, (0, 0, 0)),
    (BIT, "size 0 1000001 0", 9, (0, 0, 0)),
    (BIT, "size 0 1000001 1 0 0 0", 8, (0, 0, 0)),
    (BIT, "size 0 1000001 0 0 0 0", 9, (0, 0, 0)),
    (BIT, "size 0 1000001 0 0", 10, (0, 0, 0)),
    (BIT, "size 0 1000001 0 1", 11, (0, 0, 0)),
    (["range 0 127"] * 6, "size 0 2 0 6 1 6 2 6 3 6 4 6 5 6", 13, (0, 0, 0)),
    (["range 0 127"] * 6, "size 0 1 0 6 1 6 2 6 3 6 4 6 5 6", 0, (0, 1, 0)),
    (TALL, "size_mul 0 1 2", 8, (0, 0, 0)),
    (TALL, "size_mul 0 1 1", 13, (0, 0, 0)),
]
# A job of two settings of two bits with counts changed, a call, its number and its figures.
TWO = Setting((0, 2, *[0] * 10), 2, 0, 3, 0)
GIVEN = Job(0, 4, 0, 0, 2, (TWO, TWO, *[SPARE] * 30))
SUM, SUM_FIGURES = "size 0 -2 0 1 1 1", (1, 10, 23)
COUNTS = [
    (dict(), SUM, 0, SUM_FIGURES),
    (dict(clauses=MAX_STORE - 1), SUM, 0, SUM_FIGURES),
    (dict(clauses=MAX_STORE), SUM, 1, (0, 0, 0)),
    (dict(literals=MAX_STORE), SUM, 0, SUM_FIGURES),
    (dict(literals=MAX_STORE + 1), SUM, 1, (0, 0, 0)),
    (dict(clauses=MAX_STORE - 1, literals=MAX_STORE), SUM, 0, SUM_FIGURES),
    (dict(clauses=U32, literals=U32), SUM, 1, (0, 0, 0)),
    (dict(clauses=MAX_STORE), "size 6 0", 1, (0, 0, 0)),
    (dict(clauses=MAX_STORE), "size_mul 2 2 2", 1, (0, 0, 0)),
    (dict(clauses=MAX_STORE - 1), "size_mul 2 2 2", 8, (0, 0, 0)),
    (dict(variables=MAX_VARIABLES), SUM, 0, SUM_FIGURES),
    (dict(variables=MAX_VARIABLES + 1), SUM, 1, (0, 0, 0)),
    (dict(variables=1), SUM, 1, (0, 0, 0)),
]
# Bytes of a file, bytes of a field, lengths of both stores; number, field, figures.
FILE = field("open", 0) + field("range", 0, 1)
RULE = field("linear", 1, 1, 0, 1)
LENT = (10, 10)
FIELDS = [
    (FILE, RULE, LENT, [0, 2, 5, 12, 27]),  # the stores hold less
    (FILE, RULE, (0, 1), [0, 2, 5, 12, 27]),
    (FILE, field("mul", 0, 0, 0), LENT, [0, 2, 1, 5, 11]),
    (FILE, field("mul", 0, 1, 0), LENT, [8, 2, 0, 0, 0]),
    (FILE, field("linear", 6, 0), LENT, [12, 2, 0, 0, 0]),
    (FILE, field("linear", 0, 0, *[0, 1] * 21_843), LENT, [9, 2, 0, 0, 0]),
    (FILE, b"", LENT, [18, 2, 0, 0, 0]),
    (FILE, RULE[:-1], LENT, [18, 2, 0, 0, 0]),
    (FILE, RULE + b"\0", LENT, [18, 2, 0, 0, 0]),
    (FILE, RULE + RULE, LENT, [18, 2, 0, 0, 0]),
    (FILE, raw(5, RULE[3:-1]), LENT, [18, 2, 0, 0, 0]),
    (FILE, raw(6, b"\0\0"), LENT, [18, 2, 0, 0, 0]),
    (FILE, field("range", 0, 1), LENT, [18, 2, 0, 0, 0]),
    (FILE, b"\7" + RULE[1:], LENT, [18, 2, 0, 0, 0]),
    (FILE, RULE, (10, 0), [15, 0, 0, 0, 0]),
    (FILE + field("range", 1, 0), RULE, LENT, [3, 2, 0, 0, 0]),
    (FILE + b"\5", b"", LENT, [18, 2, 0, 0, 0]),
    (FILE[4:], RULE, LENT, [18, 0, 0, 0, 0]),
    (b"", RULE, LENT, [18, 0, 0, 0, 0]),
]
RANDOM_LINES = 120


def points():
    """Lines, a call, its number and figures: on long stores, and on none at all."""
    for settings, *rest in GROWN:
        lines = ["stores 9000 900", "open 0", *settings]
        yield from [(lines, *rest), ([*lines, "stores 0 0"], *rest)]
    for fields, *rest in COUNTS:
        yield (["stores 9 0", job_line(replace(GIVEN, **fields))], *rest)


def check_points(driver):
    """Faults among the points; no figures change the job or the stores."""
    for lines, call, status, made in points():
        script = Script(driver)
        for line in lines:
            script.line(line.encode())
        before, job = script.line(b"show"), script.calls.job
        (told,) = script.line(call.encode())
        counts = [job.variables, job.clauses, job.literals]
        right = " ".join(map(str, [status, 0, *counts, ":", *made]))
        if told != right or script.line(b"show") != before:
            yield f"{lines[-3:]}, {call}: {told}, not {right}"
    for data, given, lent, right in FIELDS:
        told = figures.figures(driver, data, given, *lent)
        if told != right:
            yield f"{data.hex()}, {given.hex()[:99]}: {told}, not {right}"


def counted(settings, word, head, tail):
    """The figures of an accepted call, counted apart from the driver."""
    if word == "mul":
        return counting.of_product(*[settings[number] for number in head])
    terms = [(settings[number], c) for number, c in zip(tail[0::2], tail[1::2])]
    return counting.of_sum(*head, terms)


def check_rule(script, line, counts):
    """The fault of one sum or product, if there is one: figures, the count apart, the call."""
    calls, (word, head, tail) = script.calls, parse(line.encode())
    before, lent = calls.job, (calls.lits[:], calls.ends[:])
    answer = calls.size(*head, tail) if word == "linear" else calls.size_mul(*head)
    kept = calls.job == before and lent == (calls.lits, calls.ends)
    due = number_due(answer, before, len(calls.lits), len(calls.ends))
    if answer.status == 0:
        counts["figures counted apart"] += 1
        kept = kept and answer.figures == counted(before.settings, word, head, tail)
    status = int(script.line(line.encode())[0].split()[0])
    counts["of these added by the call"] += due == 0
    right = answer.figures if due == 0 else (0, 0, 0)
    if not kept or status != due or added(before, calls.job) != right:
        yield f"{line}: {answer.status} {answer.figures}, the call {status}"


def check_script(driver, lines, counts):
    """Faults among the rules of a script."""
    script = Script(driver)
    for line in lines:
        if line.split(" ")[0] in CALLS.values():
            yield from check_rule(script, line, counts)
        else:
            script.line(line.encode())


def check_random(driver, seeds, counts):
    """Faults among small jobs, and among the scripts of a tenth of the seeds with figures."""
    for seed in seeds:
        kinds = [("small", 7), *[("figures", RANDOM_LINES)] * (seed % 10 == 0)]
        for kind, count in kinds:
            lines = Generator(kind, random.Random(f"figures {kind} {seed}"), driver).run(count)
            yield from (f"{kind} {seed}: {fault}" for fault in check_script(driver, lines, counts))
