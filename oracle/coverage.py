"""Counts what a script reaches: calls by number; accepted rules by height and ending; long runs;
readings by the clauses tested; texts of a solver by what was found, prints of assignments and those
of them that were read back; figures, and the calls compared with them (foretold.py)."""

from collections import Counter
from itertools import islice
from operator import ne

from foretold import CALLS, Foretold
from job import MAX_VARIABLES
from script import Script
from turned import NAMES

TALL = (11, 12)
LONG = (30, 60, 120)
MANY_CLAUSES = 300
FIGURED = [*CALLS, *CALLS.values()]
COINCIDING = {(0, 0, 2): "x = y", (0, 1, 0): "x = m", (0, 1, 1): "y = m", (0, 0, 0): "x = y = m"}


class Counted(Script):
    """A script's run that counts its calls, and what they reach by rows and names."""

    def __init__(self, driver):
        super().__init__(driver)
        self.numbers = Counter()
        self.reached = Counter()
        self.given = []
        self.accepted = 0
        self.printed = None
        self.held = []
        self.foretold = Foretold()

    def line(self, line):
        word, *self.given = line.split(b" ")
        self.before = self.calls.job
        if word == b"job":
            self.accepted = 0
        return super().line(line)

    def answered(self, word, answer):
        self.numbers[word, answer.status] += 1
        self.count_run(word, answer.status)
        if word == "read":
            names = self.reading_names(answer.status, [int(number) for number in self.given[1:]])
            self.reached.update(("readings", name) for name in names)
        if answer.status == 0 and word in ("solution", "answer"):
            self.count_answer(word, answer)
        if answer.status == 0 and word in ("linear", "mul"):
            given = [int(number) for number in self.given]
            endings = sum_endings if word == "linear" else self.product_endings
            row = {"linear": "sums", "mul": "products"}[word]
            self.reached.update((row, name) for name in endings(given, answer))
        self.count_figures(word, answer)
        return super().answered(word, answer)

    def count_run(self, word, status):
        """Accepted calls on one job, counted from its opening on."""
        if word == "open":
            self.accepted = 0
        self.accepted += status == 0
        if status == 0 and self.accepted in LONG:
            self.reached["jobs", f"with {self.accepted} accepted calls and more"] += 1

    def count_figures(self, word, answer):
        """Figures by what they are of; a call by whether it is what its figures say."""
        given = [int(number) for number in self.given] if word in FIGURED else []
        if word in CALLS.values():
            told = self.foretold.compare(word, given, self.before, answer.status, self.calls)
            self.reached.update([("compared", told)] if told else [])
        if word in CALLS:
            self.foretold.note(word, given, self.before, answer)
            names = self.figures_names(word, given, answer) if answer.status == 0 else []
            self.reached.update(("figures", name) for name in names)

    def figures_names(self, word, given, answer):
        """What accepted figures are counted as."""
        if word == "size":
            operation = NAMES[given[0]]
            yield from common_endings(operation, answer)
            if answer.reached.dead:
                yield f"{operation}, dead end"
        else:
            yield from (f"product {name}" for name in self.product_endings(given, answer))
        if self.before.variables + answer.figures[0] > MAX_VARIABLES:
            yield "past 65,535 variables"
        if self.calls.malformed():
            yield "job past the stores lent"

    def count_answer(self, word, answer):
        """An accepted text; an accepted print, and whether reading it yields the same bytes."""
        given = [int(number) for number in self.given[1:]]
        if word == "answer":
            self.reached["prints", "accepted"] += 1
            self.printed = (answer.lent[: answer.value], given)
            return
        self.reached["texts", "an assignment" if answer.value else "none"] += 1
        if self.printed == (given, answer.lent):
            self.reached["prints", "read back"] += 1
            self.printed = None

    def reading_names(self, status, assignment):
        """What a reading is counted as; accepted assignments are kept for the next ones."""
        if status == 1:
            yield "1 by the job" if self.calls.malformed() else "1 by the clauses"
        if status == 21:
            yield "21, " + self.unsatisfied(assignment)
        if status in (0, 21) and one_off(assignment, self.held):
            yield f"{status}, one bit off the last accepted"
        if status == 0:
            self.held = assignment
            clauses = self.calls.job.clauses
            many = clauses >= MANY_CLAUSES
            yield "0, no clauses" if clauses == 0 else "0, many clauses" if many else "0, clauses"

    def unsatisfied(self, assignment):
        """Whether an assignment leaves one clause alone unsatisfied, and which."""
        first, *others = islice(self.calls.unsatisfied(assignment), 2)
        if others:
            return "several clauses"
        last = self.calls.job.clauses - 1
        return {0: "the first alone", last: "the last alone"}.get(first, "one between alone")

    def product_endings(self, given, answer):
        """What an accepted product is counted as."""
        offsets = any(self.calls.job.settings[setting].offset for setting in given)
        kind = "with offsets" if offsets else "without offsets"
        yield from common_endings(kind, answer)
        if answer.reached.dead:
            yield f"{kind}, dead end"
        same = COINCIDING.get(tuple(given.index(setting) for setting in given))
        if same:
            yield f"{kind}, {same}"


def one_off(assignment, other):
    """Whether two assignments of the same length differ in one place."""
    return len(assignment) == len(other) and sum(map(ne, assignment, other)) == 1


def common_endings(kind, answer):
    yield kind
    height = answer.reached.greatest()
    if height in TALL:
        yield f"{kind} of height {height}"


def sum_endings(given, answer):
    """What an accepted sum is counted as."""
    operation = NAMES[given[0]]
    yield from common_endings(operation, answer)
    if answer.reached.dead:
        yield f"dead end at column {len(answer.reached.heights) - 1}"
    elif operation == "Eq" and [] in answer.clauses:
        yield "Eq, last inequality empty"


def report(numbers, reached):
    """Prints each row of both tables, and how many calls there are."""
    for counts in (numbers, reached):
        for row in sorted({row for row, _ in counts}):
            cells = sorted((name, n) for (r, name), n in counts.items() if r == row)
            print(f"{row:10}" + "  ".join(f"{name}: {n}" for name, n in cells))
    print(f"calls     {sum(numbers.values())}")
