"""Random satisfying assignments of a job.

Switches and settings are decided first, in random order and sense; in a grown job all other
variables follow from these.
"""

import reading
import satisfy


def bits_drawn(rng, setting):
    """The literals of a setting's bits as they hold for its low, its high or a number between."""
    between = rng.randint(setting.low, setting.high)
    code = rng.choice([setting.low, setting.high, between, between]) - setting.offset
    lits = [lit ^ 1 ^ (code >> bit & 1) for bit, lit in enumerate(setting.used())]
    return lits[::-1]


def order_drawn(rng, job, near=()):
    """Each variable as a literal, switches and settings ahead; in the sense of near, if any."""
    groups = [[2 * switch + rng.randrange(2)] for switch in range(job.switches)]
    groups += [bits_drawn(rng, setting) for setting in job.settings[: job.count]]
    rng.shuffle(groups)
    order = [lit for group in groups for lit in group]
    order += [2 * variable + rng.randrange(2) for variable in range(job.variables)]
    told = len(near)
    return [lit if lit // 2 >= told else lit & ~1 | 1 - near[lit // 2] for lit in order]


def sought(rng, calls, limit, near=()):
    """A satisfying assignment of a job; None if its clauses cannot be read or none is found."""
    job = calls.job
    if calls.unreadable():
        return None
    clauses = reading.clauses(job, calls.lits, calls.ends)
    return satisfy.found(clauses, job.variables, order_drawn(rng, job, near), limit)
