"""The clauses of a job as a reading tests them, from the words of document 02, #104.

Looked at are the ends from the leading one to that of the last clause, and the literals that lie
between them; other entries of the stores may be anything.
"""

from operator import le


def ends_used(job, ends):
    """The leading end, then that of each clause."""
    return ends[: job.clauses + 1]


def readable(job, lits, ends):
    """Whether no end falls or passes the literal count, and each clause literal is the job's."""
    used = ends_used(job, ends)
    if not all(map(le, used, used[1:])) or used[-1] > job.literals:
        return False
    return max(lits[used[0] : used[-1]], default=-1) < 2 * job.variables


def held(assignment):
    """By literal, whether it holds: 2v where variable v is 1, 2v + 1 where it is 0."""
    return [holds for value in assignment for holds in (value == 1, value == 0)]


def clauses(job, lits, ends):
    """The clauses in turn, where they can be read."""
    used = ends_used(job, ends)
    return (lits[begin:end] for begin, end in zip(used, used[1:]))


def unsatisfied(job, lits, ends, assignment):
    """The numbers, rising, of the clauses of which no literal holds; an empty one never has any."""
    holds = held(assignment)
    for number, clause in enumerate(clauses(job, lits, ends)):
        if not any(map(holds.__getitem__, clause)):
            yield number
