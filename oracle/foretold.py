"""Figures held to the same call when it is made later: what it adds, or why it is refused.

Figures that were given hold for every job of the same settings, whatever its other counts; refused
ones for the same job alone. What must come of the call is said here by the figures and the space
alone, so that a call which says otherwise tells that one of the two is wrong.
"""

from dataclasses import replace

from job import MAX_VARIABLES, well_formed

CALLS = {"size": "linear", "size_mul": "mul"}
DIFFER = "differ"


def added(before, after):
    """Variables, clauses and literals that a call added."""
    made = (after.variables - before.variables, after.clauses - before.clauses)
    return (*made, after.literals - before.literals)


def same_settings(one, other):
    counts = dict(variables=0, clauses=0, literals=0)
    return replace(one, **counts) == replace(other, **counts)


def number_due(answer, job, store_lits, store_ends):
    """The number that a call must get on a job and stores, by what its figures were."""
    variables, clauses, literals = answer.figures
    if not well_formed(job, store_lits, store_ends):
        return 1
    if answer.status:
        return answer.status
    if job.variables + variables > MAX_VARIABLES:
        return 14
    enough = job.literals + literals <= store_lits and job.clauses + clauses < store_ends
    return 0 if enough else 15


class Foretold:
    """The last figures asked for, and the calls that they are compared with."""

    def __init__(self):
        self.call = None

    def note(self, word, given, job, answer):
        self.call, self.job, self.answer = (CALLS[word], given), job, answer

    def compare(self, word, given, before, status, calls):
        """What a call counts as, beside its last figures; None if they are not of this call."""
        if self.call != (word, given) or not self.holds_for(before):
            return None
        due = number_due(self.answer, before, len(calls.lits), len(calls.ends))
        right = self.answer.figures if due == 0 else (0, 0, 0)
        if status != due or added(before, calls.job) != right:
            return DIFFER
        return "added by the call" if due == 0 else f"call refused {due}"

    def holds_for(self, job):
        return same_settings(self.job, job) if self.answer.status == 0 else self.job == job
