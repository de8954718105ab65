"""What the kind `figures` of scripts.py draws: figures of sums and products, mostly followed by the
call itself, and by the same call once more where it was short of space; faulty ones; jobs forged
at the bounds of their counts, near the last variable; stores that the call just fills or passes."""

from dataclasses import replace

import arguments
import forged
from foretold import CALLS
from job import MAX_STORE, MAX_VARIABLES
from script import MAX_STORES

U32, I32 = 2**32 - 1, 2**31 - 1
FIGURES = {call: word for word, call in CALLS.items()}
ALONE = 0.15
MOST_LITERALS = 200_000
OLD = 1_000

# Settings of a job, as ranges: few bits, with offsets or without; tall columns; any; numbers whose
# products leave a column without literals.
SHEETS = {
    "few": lambda rng: (rng.choice([0, 0, -1, -2]), rng.choice([0, 1, 1, 2, 3, 5])),
    "no offsets": lambda rng: sorted(rng.randrange(2 ** rng.randint(0, 6)) for _ in "ab"),
    "tall": lambda rng: (rng.choice([0, 0, 0, -5]), rng.choice([31, 63, 99, 127, 127, 255])),
    "any": arguments.small_range,
    "wide": lambda rng: rng.choice([arguments.small_range, arguments.wide_range])(rng),
    "gaps": lambda rng: rng.choice([(-2, -2), (-5, -5), (-128, -127), (-64, -64), (0, 1), (0, 3)]),
}
DRAWN_SHEETS = [*SHEETS, "tall", "tall", "any"]
# What is wanted of the columns that a sum or a product reaches.
WANTED = {
    "low": lambda reached: reached.greatest() <= 8,
    "accepted": lambda reached: reached.greatest() <= 12,
    "tall": lambda reached: 11 <= reached.greatest() <= 13,
    "dead": lambda reached: reached.dead,
    "dead behind ordering": lambda reached: reached.dead and reached.ordering > 0,
}


def changed(numbers, at, number):
    return [number if place == at else n for place, n in enumerate(numbers)]


def wrong_operation(rng, count, op, constant, terms):
    return rng.choice([6, 7, 255, U32]), constant, terms


def lacking(rng, count, op, constant, terms):
    """A setting without its coefficient."""
    return op, constant, rng.choice([terms[:-1] or [0], terms + [rng.randrange(32)]])


def too_many(rng, count, op, constant, terms):
    return op, constant, [*terms, *[n for s in range(7) for n in (s, 1)]][: 2 * rng.choice([7, 8])]


def unknown(rng, count, op, constant, terms):
    far = rng.choice([count, count + 1, 32, -1, I32, -I32 - 1])
    return op, constant, changed(terms, 2 * rng.randrange(len(terms) // 2 or 1), far)


def not_rising(rng, count, op, constant, terms):
    """A setting again or one before it, at any place."""
    at = 2 * rng.randrange(max(1, len(terms) // 2 - 1))
    return op, constant, changed(terms, at + 2, rng.randint(0, max(0, terms[at] if terms else 0)))


def wrong_coefficient(rng, count, op, constant, terms):
    far = rng.choice([0, 256, -256, I32, -I32 - 1])
    return op, constant, changed(terms, 2 * rng.randrange(len(terms) // 2 or 1) + 1, far)


def wrong_constant(rng, count, op, constant, terms):
    return op, rng.choice([1_000_001, -1_000_001, I32, -I32 - 1]), terms


def too_tall(rng, count, op, constant, terms):
    return op, constant, [n if at % 2 == 0 else 255 for at, n in enumerate(terms)]


FAULTS = [wrong_operation, lacking, too_many, unknown, not_rising, wrong_coefficient]
FAULTS += [wrong_constant, too_tall, too_tall]


class Sizes:
    """The part of the generator for this kind."""

    def fresh_figures(self):
        """Settings on long stores; those lent later need not hold them."""
        rng = self.rng
        self.put("stores", *MAX_STORES)
        self.put("open", rng.choice([0, 1, 3]))
        sheet = SHEETS[rng.choice(DRAWN_SHEETS)]
        for _ in range(rng.choice([0, 1, 3, 5, 6, 7, 8, 9])):
            low, high = sheet(rng)
            self.put("range", low, max(low, high))
        if rng.random() < 0.5 and self.job.switches:
            self.call_binary()
        if rng.random() < 0.4:
            self.put("stores", *rng.choice([(0, 0), (60, 30), (900, 300), (9_000, 2_000)]))

    def drawn_sum(self, wanted=None):
        """Operation, constant and terms; of a job whose records are no settings some few."""
        rng = self.rng
        if self.script.calls.outgrown():
            return "linear", [rng.randrange(7), rng.randint(-9, 9), *rng.choice([[], [0, 1]])]
        wanted = WANTED[wanted or rng.choice(list(WANTED))]
        sparse = rng.random() < 0.3
        draw = arguments.sparse_coefficient if sparse else arguments.coefficient
        op, constant, terms = arguments.sought_linear(rng, self.job, wanted, draw=draw, tries=60)
        return "linear", [op, constant, *terms]

    def drawn_product(self):
        rng, job = self.rng, self.job
        if job.count == 0 or self.script.calls.outgrown():
            return "mul", [0, 0, 0]
        wanted = WANTED[rng.choice(["low", "accepted", "accepted", "tall", "dead"])]
        chosen = arguments.sought_product(rng, job, lambda _, reached: wanted(reached), tries=60)
        return "mul", [*chosen]

    def drawn_rule(self):
        """A sum, or at times a product."""
        words = [word for word in ("size", "size", "size_mul") if word not in self.without]
        word = self.rng.choice(words or ["size"])
        return self.drawn_sum() if word == "size" else self.drawn_product()

    def figures_of(self, word, numbers):
        """Number and figures of a call, for the drawing alone."""
        given = numbers if word == "mul" else [*numbers[:2], numbers[2:]]
        answer = getattr(self.script.calls, FIGURES[word])(*given)
        return answer.status, answer.figures

    def put_figures(self, word, numbers):
        """Figures, then mostly the call; one that is short of stores is made again with enough."""
        rng = self.rng
        if FIGURES[word] not in self.without:
            self.put(FIGURES[word], *numbers)
        if word in self.without or rng.random() < ALONE:
            return
        (told,) = self.put(word, *numbers)
        if told.split()[0] in ("1", "15"):
            self.put_enough(word, numbers)
        if self.job.literals > MOST_LITERALS:
            self.age = OLD

    def put_enough(self, word, numbers):
        """Stores that a call just fills, or the longest, and the call."""
        status, (_, clauses, literals) = self.figures_of(word, numbers)
        need = (self.job.literals + literals, self.job.clauses + clauses + 1)
        if status == 0 and all(n <= most for n, most in zip(need, MAX_STORES)):
            self.put("stores", *self.rng.choice([need, MAX_STORES]))
            self.put(word, *numbers)

    def call_size(self):
        self.put_figures(*self.drawn_sum())

    def call_size_mul(self):
        self.put_figures(*self.drawn_product())

    def call_faulty(self):
        """A sum or a product with one fault or some, each at any place."""
        rng, (word, numbers) = self.rng, self.drawn_rule()
        count = arguments.known(self.job)
        if word == "mul":
            for place in rng.sample(range(3), rng.choice([1, 1, 2, 3])):
                numbers[place] = rng.choice([count, count, count + 1, 32, U32])
            return self.put_figures(word, numbers)
        op, constant, terms = numbers[0], numbers[1], numbers[2:]
        for fault in rng.sample(FAULTS, rng.choice([1, 1, 2, 2, 3])):
            op, constant, terms = fault(rng, count, op, constant, terms)
        return self.put_figures(word, [op, constant, *terms])

    def call_full(self):
        """Variables such that the call just reaches the last one, or passes it; then fewer."""
        rng, before = self.rng, self.job
        word, numbers = self.drawn_rule()
        made = self.figures_of(word, numbers)[1][0]
        spare = rng.choice([0, made, made, max(0, made - 1), max(0, made - 1), rng.randrange(40)])
        if before.variables <= MAX_VARIABLES - spare:
            self.put("job", *replace(before, variables=MAX_VARIABLES - spare).numbers())
            self.put_figures(word, numbers)
            self.put("job", *before.numbers())
            if word not in self.without:
                self.put(word, *numbers)

    def call_short(self):
        """Stores that the call just fills, or passes by an entry or more."""
        rng = self.rng
        word, numbers = self.drawn_rule()
        _, (_, clauses, literals) = self.figures_of(word, numbers)
        need = [self.job.literals + literals, self.job.clauses + clauses + 1]
        for at in rng.choice([[], [0], [1], [0, 1]]):
            less = rng.choice([1, 1, (literals, clauses)[at], need[at]])
            need[at] = max(0, need[at] - less)
        self.put("stores", *map(min, need, MAX_STORES))
        self.put_figures(word, numbers)

    def call_greatest(self):
        """Counts at those of the greatest stores, or past them; then the job is put back."""
        rng, before = self.rng, self.job
        clauses = rng.choice([before.clauses, *[MAX_STORE - 1] * 2, MAX_STORE, MAX_STORE + 1, U32])
        literals = [before.literals, before.literals, *[MAX_STORE] * 2, MAX_STORE + 1, U32]
        given = replace(before, clauses=clauses, literals=rng.choice(literals))
        self.put("job", *given.numbers())
        self.put_figures(*self.drawn_rule())
        self.put("job", *before.numbers())

    def call_broken(self):
        """A job with a count or a record at a bound or past it; then it is put back."""
        before = self.job
        given = forged.broken(self.rng, before, MAX_STORE, MAX_STORE)
        self.put("job", *given.numbers())
        self.put_figures(*self.drawn_rule())
        self.put("job", *before.numbers())

    def call_given(self):
        """A well formed job that no call made; it stays."""
        calls = self.script.calls
        lengths = self.rng.choice([(len(calls.lits), len(calls.ends)), (MAX_STORE, MAX_STORE)])
        self.put("job", *forged.job(self.rng, *lengths).numbers())
        self.put_figures(*self.drawn_rule())
