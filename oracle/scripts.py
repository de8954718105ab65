#!/usr/bin/env python3
"""Writes a random script of COUNT lines: scripts.py SEED COUNT [--kind KIND] [--show].

With --show, every job ends in `show`, so that all records and entries are compared. Words behind
--without do not come up. Kinds:
  mixed     every call, mostly accepted ones, long runs on one job
  long      every call, low columns, 150 lines on one job: the table is filled and rules go on
  settings  ranges, lists, two values, with readings and clauses
  linear    sums;  eq, ne, ge, le, lt, gt one operation only
  mul       products;  plain without offsets, shifted with offsets
  same      products whose x, y, m coincide
  heights   sums and products that reach a column of height 11 to 13
  dead      sums that end in a dead end
  small     few variables, so that all choices can be gone through
  edges     arguments at and over every bound
  space     small stores, and jobs near the last variable
  forged    jobs and store entries given as numbers, well formed or not
  answers   a solver's texts, whole and damaged, and prints of assignments, each read back
  readings  jobs that mostly stay satisfiable, read under satisfying assignments, these with a bit
            turned, and others; entries and counts forged, then put back (readings.py)
  figures   figures of sums and products, mostly followed by the call itself, on jobs and stores at
            and past every bound (sizes.py)
  bad       ends in a line that cannot be read
In mixed, long, settings, small and forged, half of the readings are of a satisfying assignment if
one is soon found (sought.py).
"""

import argparse
import random

import answers
import arguments
import forged
import texts
from badlines import BAD_LINES, LONG_LINES
from driver import Driver
from job import Job
from judge import add_driver_option
from readings import LOW_LIMIT, Readings
from script import LENGTH, MAX_BYTES, BadLine, Script, spaced
from sizes import Sizes
from sought import sought
from turned import EQ, GE, GT, LE, LT, NE, OPERATIONS

LARGE = (524_288, 131_072)
SHOWN = 3_000
PREPARED = 6
RUN = 60
SATISFIED = ("mixed", "long", "settings", "small", "forged")
SEARCHED = 120_000
SMALL_READINGS = 3

# How often each kind draws each call.
WEIGHTS = {
    "mixed": dict(range=4, list=2, binary=3, linear=8, mul=5, read=4, clause=2, edge=2),
    "long": dict(range=2, list=2, binary=2, linear=5, mul=4, read=4, clause=1),
    "settings": dict(range=6, list=5, binary=5, read=4, clause=1),
    "linear": dict(linear=12, read=1, clause=1),
    "eq": dict(linear=1),
    "ne": dict(linear=1),
    "ge": dict(linear=1),
    "le": dict(linear=1),
    "lt": dict(linear=1),
    "gt": dict(linear=1),
    "mul": dict(mul=12, read=1, clause=1),
    "plain": dict(mul=1),
    "shifted": dict(mul=1),
    "same": dict(mul=1),
    "heights": dict(linear=3, mul=1),
    "dead": dict(linear=6, range=1, read=1),
    "small": dict(linear=3, mul=1, range=1, list=1, binary=1),
    "edges": dict(edge=8, range=1, list=1, binary=1, linear=1, mul=1, read=1, clause=1),
    "space": dict(range=4, list=2, binary=3, linear=4, mul=2, read=1, clause=2, show=1),
    "forged": dict(
        forge=4, entry=2, range=1, list=1, binary=1, linear=3, mul=2, read=2, clause=4, show=1
    ),
    "answers": dict(solution=20, answer=6, forge=3, many=1, range=1, binary=1, linear=1),
    "readings": dict(
        range=1, list=2, binary=1, met=9, tests=13, entries=6, counts=1, clause=1, show=1
    ),
    "figures": dict(
        size=14, size_mul=6, faulty=14, full=3, short=4, greatest=2, broken=2, given=1, range=1
    ),
    "bad": dict(range=1, linear=1, mul=1, read=1, clause=1),
}
ONLY = {"eq": EQ, "ne": NE, "ge": GE, "le": LE, "lt": LT, "gt": GT, "dead": EQ}


class Generator(Readings, Sizes):
    """Draws calls for a job that it follows with the judge itself."""

    def __init__(self, kind, rng, driver, show=False, without=()):
        self.kind = kind
        self.show = show
        self.without = without
        self.rng = rng
        self.script = Script(driver)
        self.lines = []
        self.age = 0

    @property
    def job(self):
        return self.script.calls.job

    def put(self, word, *numbers):
        """Adds a line and follows it."""
        line = spaced(word, numbers)
        self.lines.append(line)
        return self.script.line(line.encode())

    def fresh(self):
        """Stores, an opening, and settings for kinds that need some."""
        rng = self.rng
        self.age, self.good = 0, None
        if self.kind == "small" and self.lines and "read" not in self.without:
            for _ in range(SMALL_READINGS):
                self.call_read()
        if self.show and self.lines:
            self.put("show")
        if self.kind == "figures":
            self.fresh_figures()
            return
        if self.kind == "space":
            self.put("stores", rng.choice([0, 1, rng.randint(0, 400)]), rng.randint(0, 120))
        elif self.kind in ("small", "answers"):
            self.put("stores", 20_000, 5_000)
        elif self.kind == "readings":
            self.put("stores", *rng.choice([(2_200, 700), (20_000, 5_000), (40_000, 9_000)]))
        elif self.lines == []:
            self.put("stores", *LARGE)
        switches = {"small": rng.randint(0, 2)}.get(self.kind, rng.choice([1, 3, 20, 64]))
        if self.kind == "answers":
            switches = rng.choice([0, 0, 1, 2, 3, 8, 9, 10, 11, 30, 64])
        prepared = {"small": 2, "space": 0, "forged": 0, "answers": 0}.get(self.kind, PREPARED)
        if self.kind == "readings":
            switches, prepared = rng.choice([0, 1, 2, 3, 8, 20]), rng.choice([1, 3, 5, 5, 7])
        self.put("open", switches)
        if self.kind == "readings":
            self.start()
        for _ in range(prepared):
            getattr(self, "call_" + rng.choice(["range", "range", "list", "binary"]))()

    def crowded(self):
        """Whether the job is old or full enough for a new one."""
        runs = {"small": 5, "space": 12, "forged": 30, "settings": 32, "long": 150, "answers": 12}
        runs |= {"readings": 22, "figures": 25}
        calls = self.script.calls
        room = len(calls.lits) - self.job.literals
        short = ("small", "space", "forged", "answers", "readings", "figures")
        full = room < 60_000 and self.kind not in short
        return full or self.age >= runs.get(self.kind, RUN)

    def call_range(self):
        rng = self.rng
        if self.kind == "small":
            low = rng.randint(-3, 4)
            return self.put("range", low, low + rng.randint(0, 4))
        if self.kind in ("plain", "same"):
            return self.put("range", *sorted(rng.randrange(2 ** rng.randint(0, 7)) for _ in "ab"))
        if self.kind == "dead" and rng.random() < 0.8:
            low = rng.choice([0, 0, -1, -3])
            return self.put("range", low, low + rng.choice([1, 1, 2, 3, 7]))
        if self.kind == "heights":
            return self.put("range", rng.choice([0, 0, -5]), rng.choice([63, 99, 127, 127, 255]))
        draw = rng.choice([arguments.small_range] * 5 + [arguments.wide_range])
        return self.put("range", *draw(rng))

    def call_list(self):
        rng = self.rng
        if self.kind == "small":
            return self.put("list", *sorted(rng.sample(range(-3, 6), rng.randint(1, 3))))
        return self.put("list", *arguments.value_list(rng))

    def call_binary(self):
        rng = self.rng
        cond = arguments.switch_literal(rng, self.job)
        if self.kind == "small":
            low = rng.randint(-3, 4)
            return self.put("binary", cond, low, low + rng.randint(1, 5))
        return self.put("binary", cond, *arguments.binary_values(rng))

    def call_linear(self):
        rng, job = self.rng, self.job
        if self.script.calls.malformed():
            return self.put("linear", rng.randrange(7), 0, 0, 1)
        least = rng.choice([0, 1, 2, 4])
        wanted = {
            "heights": lambda reached: 11 <= reached.greatest() <= 13,
            "dead": lambda reached: reached.dead and reached.greatest() >= least,
            "eq": lambda reached: reached.greatest() <= 12,
            "long": lambda reached: reached.greatest() <= 6,
            "small": lambda reached: reached.greatest() <= 4,
        }.get(self.kind, lambda reached: reached.greatest() <= rng.choice([6, 9, 11, 12, 30]))
        ops = [ONLY[self.kind]] if self.kind in ONLY else OPERATIONS
        sparse = self.kind == "dead" and rng.random() < 0.8
        draw = arguments.sparse_coefficient if sparse else arguments.coefficient
        op, constant, flat = arguments.sought_linear(rng, job, wanted, ops, draw)
        return self.put("linear", op, constant, *flat)

    def call_mul(self):
        rng, job = self.rng, self.job
        if job.count == 0 or self.script.calls.malformed():
            return self.put("mul", 0, 0, 0)
        wanted = {
            "heights": lambda chosen, reached: 11 <= reached.greatest() <= 13,
            "plain": lambda chosen, reached: not self.shifted(chosen) and reached.greatest() <= 12,
            "shifted": lambda chosen, reached: self.shifted(chosen) and reached.greatest() <= 12,
            "same": lambda chosen, reached: len(set(chosen)) < 3 and reached.greatest() <= 12,
            "long": lambda chosen, reached: reached.greatest() <= 6,
            "small": lambda chosen, reached: reached.greatest() <= 5,
        }.get(self.kind, lambda chosen, reached: reached.greatest() <= rng.choice([8, 12, 30]))
        return self.put("mul", *arguments.sought_product(rng, job, wanted))

    def shifted(self, chosen):
        return any(self.job.settings[s].offset for s in chosen)

    def call_read(self):
        rng, job = self.rng, self.job
        number = rng.randrange(arguments.known(job)) if job.count else 0
        assignment = arguments.assignment(rng, job)
        if self.kind in SATISFIED:
            assignment = self.satisfied(assignment)
        return self.put("read", number, *assignment)

    def satisfied(self, drawn):
        """A satisfying assignment in place of one drawn, half of the time if it is soon found.

        It is drawn apart, so that all other lines stay what they are without it.
        """
        own, found = random.Random(bytes(drawn)), None
        if self.job.literals <= SEARCHED and own.random() < 0.5:
            found = sought(own, self.script.calls, LOW_LIMIT)
        return drawn if found is None else found

    def call_clause(self):
        clauses = self.job.clauses
        near = [0, max(0, clauses - 1), clauses, self.rng.randint(0, clauses)]
        return self.put("clause", self.rng.choice(near))

    def call_solution(self):
        _, text, length = texts.drawn(self.rng, self.job.variables)
        return self.put("solution", length, *text)

    def call_answer(self):
        """A print; one that is accepted is read back, so there is none without readings."""
        if "solution" in self.without:
            return
        rng, job = self.rng, self.job
        draw = rng.choice([arguments.assignment] * 3 + [arguments.edge_assignment])
        assignment = draw(rng, job)
        text = answers.printed(assignment)
        near = [len(text)] * 3 + [len(text) - 1, len(text) + 1, len(text) + rng.randrange(99), 0]
        (told,) = self.put("answer", min(rng.choice(near), LENGTH[1]), *assignment)
        if told.startswith("0 ") and len(text) <= MAX_BYTES:
            self.put("solution", job.variables, *text)

    def call_many(self):
        """A job of many variables and nothing else."""
        self.put("job", *Job(variables=self.rng.randint(90, texts.MOST)).numbers())

    def call_edge(self):
        """A call at or over a bound."""
        rng, job = self.rng, self.job
        words = ["range", "list", "binary", "linear", "mul", "read", "clause", "open"]
        word = rng.choice([w for w in words if w not in self.without])
        number = rng.choice([*arguments.EDGE_NUMBERS, job.count, max(0, job.count - 1)])
        if word == "range":
            return self.put(word, *arguments.edge_range(rng))
        if word == "list":
            return self.put(word, *arguments.edge_list(rng))
        if word == "binary":
            cond = rng.choice([arguments.switch_literal(rng, job), 2 * job.switches, number])
            return self.put(word, cond, *arguments.edge_range(rng))
        if word == "linear":
            op, constant, flat = arguments.edge_linear(rng, job)
            return self.put(word, op, constant, *flat)
        if word == "mul":
            numbers = [rng.randrange(arguments.known(job) + 1) for _ in range(3)]
            numbers[rng.randrange(3)] = number
            return self.put(word, *numbers)
        if word == "read":
            draw = rng.choice([arguments.assignment, arguments.edge_assignment])
            return self.put(word, rng.choice([0, number]), *draw(rng, job))
        if word == "clause":
            return self.put(word, rng.choice([number, job.clauses, job.clauses + 1]))
        return self.put(word, number if rng.random() < 0.3 else rng.randrange(65))

    def call_forge(self):
        """A job given as numbers."""
        rng, calls = self.rng, self.script.calls
        if rng.random() < 0.2:
            sizes = [rng.choice([0, 1, 50, 3_000]), rng.choice([0, 1, 2, 20, 1_000])]
            self.put("stores", *(sizes if rng.random() < 0.7 else LARGE))
        lengths = (len(calls.lits), len(calls.ends))
        given = forged.job(rng, *lengths)
        if rng.random() < 0.4:
            given = forged.broken(rng, given, *lengths)
        return self.put("job", *given.numbers())

    def call_entry(self):
        """A store entry given as a number."""
        rng, calls, job = self.rng, self.script.calls, self.job
        word = rng.choice(["lits", "ends", "ends"])
        store = getattr(calls, word)
        if not store:
            return None
        near = min(job.clauses + 1, len(store) - 1, 12)
        at = rng.choice([rng.randint(0, near), rng.randrange(len(store))])
        limit = min(job.literals + 1, 2**32 - 1)
        return self.put(word, at, rng.choice([0, rng.randint(0, limit), limit, 2**32 - 1]))

    def call_show(self):
        """All records and entries, where the stores are short."""
        calls = self.script.calls
        if len(calls.lits) + len(calls.ends) <= SHOWN:
            self.put("show")

    def run(self, count):
        """Draws calls until there are enough lines."""
        kept = {n: w for n, w in WEIGHTS[self.kind].items() if n not in self.without}
        names, weights = zip(*kept.items())
        self.fresh()
        while len(self.lines) < count:
            if self.crowded():
                self.fresh()
            name = self.rng.choices(names, weights)[0]
            getattr(self, "call_" + name)()
            self.age += 1
        if self.show:
            self.put("show")
        if self.kind == "bad":
            self.end_badly()
        return self.lines

    def end_badly(self):
        bad = self.rng.choice(BAD_LINES + LONG_LINES)
        try:
            self.script.line(bad.encode())
        except BadLine:
            self.lines += ["", bad, "show"]


def main():
    parser = argparse.ArgumentParser(description="Writes a random script of calls.")
    parser.add_argument("seed", type=int)
    parser.add_argument("count", type=int)
    parser.add_argument("--kind", choices=sorted(WEIGHTS), default="mixed")
    parser.add_argument("--show", action="store_true", help="end every job in `show`")
    parser.add_argument("--without", nargs="*", default=[], metavar="WORD")
    add_driver_option(parser)
    options = parser.parse_args()
    driver = Driver(options.driver)
    rng = random.Random(f"{options.kind} {options.seed}")
    generator = Generator(options.kind, rng, driver, options.show, options.without)
    for line in generator.run(options.count):
        print(line)
    driver.close()


if __name__ == "__main__":
    main()
