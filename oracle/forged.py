"""Random jobs given as numbers: well formed ones that no call made, and broken ones; store entries
at and past the bounds that a reading holds them to."""

from dataclasses import replace

from arguments import small_range, wide_range
from job import BITS, MAX_SETTINGS, MAX_VARIABLES, SPARE, Job, Setting, offset_of

U32 = 2**32 - 1


def setting(rng, variables):
    """A well formed record with any literals below 2 × variables."""
    low, high = rng.choice([small_range, small_range, wide_range])(rng)
    length = (high - offset_of(low)).bit_length()
    if variables == 0 and length > 0:
        return SPARE
    lits = [rng.randrange(2 * variables) for _ in range(length)]
    return Setting((*lits, *[0] * (BITS - length)), length, low, high, offset_of(low))


def job(rng, store_lits, store_ends):
    """A well formed job, if the stores allow one."""
    near_full = MAX_VARIABLES - rng.randrange(40)
    variables = rng.choice([0, 1, 5, rng.randint(0, 80), rng.randint(0, 80), near_full])
    count = rng.choice([0, 1, 3, 6, rng.randint(0, MAX_SETTINGS), MAX_SETTINGS])
    records = [setting(rng, variables) for _ in range(count)]
    records += [SPARE] * (MAX_SETTINGS - count)
    few = rng.random() < 0.7
    clauses = rng.randint(0, max(0, min(20, store_ends - 1) if few else store_ends - 1))
    literals = rng.randint(0, min(60, store_lits) if few else store_lits)
    switches = rng.randint(0, min(64, variables))
    return Job(switches, variables, clauses, literals, count, tuple(records))


def broken_record(rng, record, variables):
    """A record with one number changed."""
    numbers = record.numbers()
    at = rng.randrange(len(numbers))
    other = [numbers[at] + 1, 2 * variables, 2 * variables - 1, 1, 12, 13, 4096, 2**31 - 1]
    if at > BITS:
        other += [numbers[at] - 1, -numbers[at], -4095, -4096, -(2**31)]
    numbers[at] = max(0, rng.choice(other)) if at <= BITS else rng.choice(other)
    return Setting(tuple(numbers[:BITS]), *numbers[BITS:])


def broken(rng, given, store_lits, store_ends):
    """A job with one count or one record at or over a bound."""
    edges = {
        "switches": [given.variables, given.variables + 1, 64, 65, 2**32 - 1],
        "variables": [given.switches - 1, 65_535, 65_536, 2**32 - 1, 0],
        "clauses": [store_ends - 1, store_ends, store_ends + 1, 2**32 - 1],
        "literals": [store_lits, store_lits + 1, 2**32 - 1],
        "count": [given.count + 1, given.count - 1, 32, 33, 2**32 - 1],
    }
    name = rng.choice([*edges, "settings", "settings", "settings"])
    if name != "settings":
        return replace(given, **{name: max(0, rng.choice(edges[name]))})
    records = list(given.settings)
    at = rng.randrange(min(given.count + 1, MAX_SETTINGS))
    records[at] = broken_record(rng, records[at], given.variables)
    return replace(given, settings=tuple(records))


def counts(rng, given, store_lits, store_ends):
    """Two jobs with a count one less, one more or anywhere below; at times a broken one."""
    name = rng.choice(["clauses", "literals", "variables", "broken"])
    if name == "broken":
        return [broken(rng, given, store_lits, store_ends)]
    count = getattr(given, name)
    near = rng.sample([count - 1, count + 1, rng.randint(0, count)], 2)
    return [replace(given, **{name: max(0, number)}) for number in near]


def clause_ends(rng, job, ends):
    """Ends at a neighbour and one past it, at the literal count and past it, moved, far off."""
    last = job.clauses
    at = rng.choice([0, last, rng.randint(0, last), rng.randint(0, last)])
    before = ends[at - 1] if at else 0
    behind = ends[at + 1] if at < last else job.literals
    return [
        [("ends", at, before), ("ends", at, before - 1)],
        [("ends", at, behind), ("ends", at, behind + 1)],
        [("ends", at, ends[at] + rng.choice([-1, 1]))],
        [("ends", last, job.literals), ("ends", last, job.literals + 1)],
        [("ends", at, rng.choice([U32, job.literals, job.literals + 1]))],
    ]


def clause_literals(rng, job, ends):
    """Covered literals at the last one of the job, one past it and far off, or any of the job."""
    begin, end, most = ends[0], ends[job.clauses], 2 * job.variables
    at = rng.choice([begin, end - 1, rng.randrange(begin, end)])
    bounds = [("lits", at, number) for number in (most - 1, most, U32)]
    other = [("lits", at, rng.randrange(most)) for at in (begin, end - 1)]
    return [bounds, bounds, rng.sample(bounds, 3), other]


def uncovered(rng, job, ends):
    """Entries that no clause covers, and the last end below the literal count."""
    last, most = job.clauses, 2 * job.variables
    far = rng.choice([most, U32])
    below = [("ends", last, job.literals - 1), ("lits", job.literals - 1, far)]
    return [[("lits", job.literals, far), ("ends", last + 1, rng.choice([0, U32]))], below]


def entries(rng, calls):
    """Store entries of a grown job to be forged, one after another: word, place, number."""
    job, ends = calls.job, calls.ends
    rows = clause_ends(rng, job, ends)
    if ends[job.clauses] > ends[0]:
        rows += clause_literals(rng, job, ends) + uncovered(rng, job, ends)
    return rng.choice(rows)
