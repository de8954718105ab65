"""Random rules that given numbers of the settings meet: a job's clauses stay satisfiable."""

import arguments
from checks import MAX_CONSTANT
from heights import linear_reached, mul_reached
from job import MAX_VALUE
from reading import held
from turned import EQ, GE, GT, LE, LT, NE, OPERATIONS

TRIES = 30
# What a sum comes to, so that it meets the operation.
TOTALS = {
    EQ: lambda rng: 0,
    NE: lambda rng: rng.choice([-1, 1, rng.randint(1, 99)]),
    GE: lambda rng: rng.choice([0, 0, 1, rng.randint(0, 99)]),
    LE: lambda rng: -rng.choice([0, 0, 1, rng.randint(0, 99)]),
    LT: lambda rng: -rng.choice([1, 1, 2, rng.randint(1, 99)]),
    GT: lambda rng: rng.choice([1, 1, 2, rng.randint(1, 99)]),
}


def numbers_of(job, assignment):
    """The number of each setting under an assignment."""
    holds, records = held(assignment), job.settings[: job.count]
    bits = [[holds[lit] << bit for bit, lit in enumerate(record.used())] for record in records]
    return [record.offset + sum(own) for record, own in zip(records, bits)]


def linear(rng, job, numbers, tallest):
    """A sum that the numbers meet, with columns at most so tall; None if none was drawn."""
    for _ in range(TRIES):
        flat, op = arguments.terms(rng, job), rng.choice(OPERATIONS)
        terms = list(zip(flat[0::2], flat[1::2]))
        constant = TOTALS[op](rng) - sum(numbers[s] * c for s, c in terms)
        reached = linear_reached(op, constant, [(job.settings[s], c) for s, c in terms])
        if reached.greatest() <= tallest and abs(constant) <= MAX_CONSTANT:
            return [op, constant, *flat]
    return None


def factors(rng, job, numbers, tallest):
    """Two settings whose product is a number that a setting may have; None if none were drawn."""
    for _ in range(TRIES):
        x, y = rng.randrange(job.count), rng.randrange(job.count)
        reached = mul_reached(*[job.settings[s] for s in (x, y, x)])
        if reached.greatest() <= tallest and abs(numbers[x] * numbers[y]) <= MAX_VALUE:
            return x, y
    return None
