"""The calls on a job and two lent stores, and the figures of a sum or a product.

Checks, refusals, heights and stores are ours; the clauses, variables, setting records and read
values of an accepted call are the Rust's. The two calls on a solver's answer are all ours. The
figures of #105 are those of the Rust's clauses; the call is taken back.
"""

from dataclasses import dataclass, field, replace
from itertools import accumulate

import answers
import checks
import reading
from heights import MAX_HEIGHT, linear_reached, mul_reached
from job import BITS, MAX_STORE, MAX_VARIABLES, Job, Setting, well_formed
from turned import turned_terms


@dataclass
class Answer:
    """Number answered, value, part, a further lent slice as the call leaves it, and figures.

    Beside them what a reader may want to see of the call."""

    status: int
    value: int = 0
    part: list = field(default_factory=list)
    lent: object = None
    figures: object = None
    reached: object = None
    setting: object = None
    clauses: object = None


NO_FIGURES = (0, 0, 0)


class Calls:
    """A job and its lent stores; each call answers and leaves the job it returns."""

    # the columns reached are gone through up to the first one above it
    bound = MAX_HEIGHT

    def __init__(self, driver, store_lits, store_ends):
        self.driver = driver
        self.job = Job()
        self.lend(store_lits, store_ends)

    def lend(self, store_lits, store_ends):
        """Lends fresh stores, all 0; the job stays."""
        self.lits = [0] * store_lits
        self.ends = [0] * store_ends

    def store_over(self):
        return len(self.lits) > MAX_STORE or len(self.ends) > MAX_STORE

    def malformed(self):
        if self.store_over():
            return 1
        return 0 if well_formed(self.job, len(self.lits), len(self.ends)) else 1

    def open(self, switches):
        status = checks.check_open(switches)
        if status == 0 and self.store_over():
            status = 1
        if status == 0 and len(self.ends) == 0:
            status = 15
        if status != 0:
            self.job = Job()
            return Answer(status)
        self.job = Job(switches=switches, variables=switches)
        self.ends[0] = 0
        self.driver.open(self.job)
        return Answer(0)

    def add(self, word, numbers, reached=None):
        """Runs a checked call in the Rust, tests the space, and writes if there is room."""
        job = self.job
        variables, clauses, literals = self.driver.call(job, word, numbers)
        if variables > MAX_VARIABLES:
            return Answer(14, reached=reached)
        fits = job.literals + literals <= len(self.lits)
        if not (fits and job.clauses + clauses + 1 <= len(self.ends)):
            return Answer(15, reached=reached)
        return self.write(variables, *self.driver.keep(), reached)

    def write(self, variables, record, clauses, reached):
        """Adds clauses to the stores' free tails, and a setting to the job."""
        job = self.job
        lits = [lit for clause in clauses for lit in clause]
        ends = list(accumulate(map(len, clauses), initial=job.literals))
        self.lits[job.literals : ends[-1]] = lits
        self.ends[job.clauses + 1 : job.clauses + len(ends)] = ends[1:]
        counts = (job.switches, variables, job.clauses + len(clauses), ends[-1])
        self.job = Job(*counts, job.count, job.settings)
        setting = None
        if record:
            low, high, offset, *own = record
            setting = Setting((*own, *[0] * (BITS - len(own))), len(own), low, high, offset)
            kept, spare = job.settings[: job.count], job.settings[job.count + 1 :]
            self.job = replace(self.job, count=job.count + 1, settings=(*kept, setting, *spare))
        self.driver.at = self.job
        return Answer(0, reached=reached, setting=setting, clauses=clauses)

    def range(self, low, high):
        status = self.malformed() or checks.check_range(self.job, low, high)
        return Answer(status) if status else self.add("range", [low, high])

    def list(self, values):
        status = self.malformed() or checks.check_list(self.job, values)
        return Answer(status) if status else self.add("list", values)

    def binary(self, cond, v_false, v_true):
        status = self.malformed() or checks.check_binary(self.job, cond, v_false, v_true)
        return Answer(status) if status else self.add("binary", [cond, v_false, v_true])

    def sum_columns(self, op, constant, terms):
        """A sum's number, the job and space aside, and the columns that it reaches."""
        status = checks.check_linear(self.job, op, constant, terms)
        if status:
            return status, None
        pairs = [(self.job.settings[s], c) for s, c in zip(terms[0::2], terms[1::2])]
        reached = linear_reached(op, constant, pairs, self.bound)
        return 13 if reached.too_high() else 0, reached

    def product_columns(self, x, y, m):
        """A product's number, the job and space aside, and the columns that it reaches."""
        status = checks.check_settings(self.job, [x, y, m])
        if status:
            return status, None
        reached = mul_reached(*[self.job.settings[s] for s in (x, y, m)], self.bound)
        return 13 if reached.too_high() else 0, reached

    def linear(self, op, constant, terms):
        if self.malformed():
            return Answer(1)
        status, reached = self.sum_columns(op, constant, terms)
        if status:
            return Answer(status, reached=reached)
        op, constant, terms = turned_terms(op, constant, terms)
        return self.add("linear", [op, constant, *terms], reached)

    def mul(self, x, y, m):
        if self.malformed():
            return Answer(1)
        status, reached = self.product_columns(x, y, m)
        if status:
            return Answer(status, reached=reached)
        return self.add("mul", [x, y, m], reached)

    def outgrown(self):
        """The 1 of figures: the job is not well formed beside the greatest stores."""
        return 0 if well_formed(self.job, MAX_STORE, MAX_STORE) else 1

    def size(self, op, constant, terms):
        """The variables, clauses and literals that a sum would add, given enough space."""
        if self.outgrown():
            return Answer(1, figures=NO_FIGURES)
        status, reached = self.sum_columns(op, constant, terms)
        op, constant, terms = turned_terms(op, constant, terms)
        return self.sized(status, reached, "linear", [op, constant, *terms])

    def size_mul(self, x, y, m):
        """The same of a product."""
        if self.outgrown():
            return Answer(1, figures=NO_FIGURES)
        status, reached = self.product_columns(x, y, m)
        return self.sized(status, reached, "mul", [x, y, m])

    def sized(self, status, reached, word, numbers):
        """Figures of a call by the Rust, which takes it back as it is not kept."""
        if status:
            return Answer(status, reached=reached, figures=NO_FIGURES)
        variables, clauses, literals = self.driver.call(self.job, word, numbers)
        made = (variables - self.job.variables, clauses, literals)
        return Answer(0, reached=reached, figures=made)

    def unreadable(self):
        """The longer 1 of calls that read the clauses."""
        return self.malformed() or (0 if reading.readable(self.job, self.lits, self.ends) else 1)

    def unsatisfied(self, assignment):
        """The numbers of the clauses that an assignment leaves unsatisfied."""
        return reading.unsatisfied(self.job, self.lits, self.ends, assignment)

    def check_clauses(self, assignment):
        """21 where an assignment leaves a clause unsatisfied; the first one settles it."""
        return 0 if next(self.unsatisfied(assignment), None) is None else 21

    def read(self, setting, assignment):
        status = self.unreadable() or checks.check_settings(self.job, [setting])
        status = status or checks.check_assignment(self.job, assignment)
        status = status or self.check_clauses(assignment)
        if status:
            return Answer(status)
        return Answer(0, value=self.driver.read(self.job, setting, assignment))

    def clause(self, k):
        if self.malformed():
            return Answer(1)
        if k >= self.job.clauses:
            return Answer(17)
        begin, end = self.ends[k], self.ends[k + 1]
        if begin > end or end > self.job.literals:
            return Answer(1)
        return Answer(0, part=self.lits[begin:end])

    def solution(self, lent, text):
        """Reads a solver's text into a lent slice; the value is 1 for an assignment."""
        if self.malformed():
            return Answer(1, lent=lent)
        status, assignment = answers.read(text, self.job.variables)
        if status == 0 and len(lent) != self.job.variables:
            status = 16
        if status != 0 or assignment is None:
            return Answer(status, lent=lent)
        return Answer(0, value=1, lent=assignment)

    def answer(self, lent, assignment):
        """Prints an assignment into a lent slice; the value is the length of the text."""
        status = self.malformed() or checks.check_assignment(self.job, assignment)
        if status:
            return Answer(status, lent=lent)
        text = list(answers.printed(assignment))
        if len(text) > len(lent):
            return Answer(15, lent=lent)
        return Answer(0, value=len(text), lent=text + lent[len(text) :])
