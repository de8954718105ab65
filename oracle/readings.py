"""What the kind `readings` of scripts.py draws: rules that leave the clauses satisfiable, readings
under satisfying assignments and others, and entries and jobs that are forged for some readings."""

import arguments
import forged
import met
from job import MAX_SETTINGS, MAX_VALUE
from sought import sought

U32 = 2**32 - 1
LIMIT, LOW_LIMIT = 400, 100
TALLEST = [4, 5, 6, 7, 8]
MOST_SETTINGS = 10
OTHERWISE = 0.08
OLD = 1_000

# How often: what is done to a satisfying assignment, and whether the setting is known.
SORTS = {
    ("nothing", True): 14,
    ("a bit", True): 18,
    ("all", True): 3,
    ("a byte", True): 1,
    ("a bit and a byte", True): 2,
    ("the length", True): 2,
    ("nothing", False): 1,
    ("a bit", False): 1,
    ("a byte", False): 1,
    ("the length", False): 1,
}


def bit_turned(rng, assignment, at):
    return [value ^ (place == at) for place, value in enumerate(assignment)]


def byte_changed(rng, assignment, at):
    byte = rng.choice([2, 2, 3, 128, 254, 255])
    return [byte if place == at else value for place, value in enumerate(assignment)]


def both(rng, assignment, at):
    """A bit turned, and another place's byte changed."""
    other = rng.randrange(len(assignment)) if assignment else 0
    return byte_changed(rng, bit_turned(rng, assignment, at), other)


def length_changed(rng, assignment, at):
    return rng.choice([assignment[:-1], assignment + [rng.randrange(2)], [], assignment[:at]])


DONE = {
    "nothing": lambda rng, assignment, at: assignment,
    "a bit": bit_turned,
    "all": lambda rng, assignment, at: [rng.randrange(2) for _ in assignment],
    "a byte": byte_changed,
    "a bit and a byte": both,
    "the length": length_changed,
}


class Readings:
    """The part of the generator for this kind; `good` is the last satisfying assignment found."""

    good = None

    def satisfying(self):
        """A satisfying assignment: any, or one near the last; None if there seems to be none."""
        calls, near = self.script.calls, self.good or []
        drawn = sought(self.rng, calls, LOW_LIMIT) if self.rng.random() < 0.5 else None
        return sought(self.rng, calls, LIMIT, near) if drawn is None else drawn

    def base(self):
        """A satisfying assignment of a forged job; if none is found, the last one or any."""
        found = self.satisfying()
        if found is None and self.good is not None and self.rng.random() < 0.6:
            return self.good
        return arguments.assignment(self.rng, self.job) if found is None else found

    def put_reading(self, assignment):
        """A reading around an assignment."""
        rng, known = self.rng, arguments.known(self.job)
        ((done, is_known),) = rng.choices(list(SORTS), SORTS.values())
        unknown = rng.choice([self.job.count, self.job.count + 1, U32])
        number = rng.randrange(known) if known and is_known else min(unknown, U32)
        self.put("read", number, *DONE[done](rng, assignment, self.place(len(assignment))))

    def place(self, count):
        """One of so many variables: any, or one of the first, the last or any clause."""
        rng, calls = self.rng, self.script.calls
        if calls.unreadable() or self.job.clauses == 0 or rng.random() < 0.3:
            return rng.choice([0, max(0, count - 1), rng.randrange(count) if count else 0])
        last = self.job.clauses - 1
        ends, number = calls.ends, rng.choice([0, last, rng.randint(0, last)])
        return rng.choice(calls.lits[ends[number] : ends[number + 1]] or [0]) // 2

    def start(self):
        """At times a setting without clauses, read before there are any, the ends forged too."""
        if self.rng.random() < 0.4:
            self.put("range", 0, self.rng.choice([0, 1, 3, 15]))
            self.call_entries()

    def call_tests(self):
        """Readings around one satisfying assignment; a job that has none is left."""
        if "read" in self.without:
            return
        rng, job = self.rng, self.job
        self.good = self.satisfying()
        if self.good is None:
            self.age = OLD
            for _ in range(3):
                self.put_reading(arguments.assignment(rng, job))
            return
        settings = rng.sample(range(job.count), min(job.count, MOST_SETTINGS))
        for number in settings if rng.random() < 0.15 else []:
            self.put("read", number, *self.good)
        for _ in range(rng.randint(7, 20)):
            self.put_reading(self.good)

    def call_met(self):
        """Rules that a satisfying assignment meets, at times any."""
        rng = self.rng
        words = [word for word in ("linear", "linear", "mul") if word not in self.without]
        self.good = self.satisfying()
        if self.good is None or self.job.count == 0:
            return
        numbers = met.numbers_of(self.job, self.good)
        for word in rng.choices(words, k=rng.randint(1, 3)) if words else []:
            if rng.random() < OTHERWISE:
                getattr(self, "call_" + word)()
            else:
                getattr(self, "met_" + word)(numbers, rng.choice(TALLEST))

    def met_linear(self, numbers, tallest):
        given = met.linear(self.rng, self.job, numbers, tallest)
        if given:
            self.put("linear", *given)

    def met_mul(self, numbers, tallest):
        """A product; its number may be that of a setting, or one is made for it."""
        rng, job = self.rng, self.job
        drawn = met.factors(rng, job, numbers, tallest)
        if drawn is None:
            return
        x, y = drawn
        total = numbers[x] * numbers[y]
        equal = [m for m, number in enumerate(numbers) if number == total]
        if not equal and job.count < MAX_SETTINGS:
            low = max(total - rng.choice([0, 1, 7]), -MAX_VALUE)
            self.put("range", low, min(total + rng.choice([0, 1, 30]), MAX_VALUE))
            equal = range(job.count, self.job.count)
            numbers += [total for _ in equal]
        if equal:
            self.put("mul", x, y, rng.choice(equal))

    def call_entries(self):
        """Entries at a bound and past it, each with readings; then they are put back."""
        calls, before, self.good = self.script.calls, {}, self.satisfying()
        for word, at, number in forged.entries(self.rng, calls):
            store = getattr(calls, word)
            if at < len(store) and 0 <= number <= U32:
                before.setdefault((word, at), store[at])
                self.put(word, at, number)
                self.around()
        for (word, at), number in before.items():
            self.put(word, at, number)

    def call_counts(self):
        """Jobs with a count or a record forged, each with readings; then the job is put back."""
        calls, before, self.good = self.script.calls, self.job, self.satisfying()
        for given in forged.counts(self.rng, before, len(calls.lits), len(calls.ends)):
            self.put("job", *given.numbers())
            self.around()
        self.put("job", *before.numbers())

    def around(self):
        """Readings of a forged job: a known setting first, then any."""
        if "read" in self.without:
            return
        rng, known = self.rng, arguments.known(self.job)
        assignment = self.base()
        self.put("read", rng.randrange(known) if known else 0, *assignment)
        for _ in range(rng.randint(1, 2)):
            self.put_reading(assignment)
