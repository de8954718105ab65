"""The four tempting mistakes that the scope document names, each as calls that make it.

A job file tells a mistake apart if the calls that make it give another print than the judge's.
"""

import jobfile
from calls import Answer, Calls


class EmptyList(Calls):
    """An empty list of values is accepted and adds no clause."""

    def list(self, values):
        return super().list(values) if values else Answer(0)


class LowShifted(Calls):
    """A positive low has code 0."""

    def add(self, word, numbers, reached=None):
        if word in ("range", "list") and numbers[0] > 0:
            numbers = [value - numbers[0] for value in numbers]
        return super().add(word, numbers, reached)


class ReturnedFirst(Calls):
    """The returned set stands before the ordering clauses."""

    def write(self, variables, record, clauses, reached):
        sent = reached.ordering if reached else 0
        return super().write(variables, record, clauses[sent:] + clauses[:sent], reached)


class RepeatsDropped(Calls):
    """A product x × x keeps no repeated literal."""

    def add(self, word, numbers, reached=None):
        self.square = word == "mul" and numbers[0] == numbers[1]
        return super().add(word, numbers, reached)

    def write(self, variables, record, clauses, reached):
        if self.square:
            clauses = [list(dict.fromkeys(clause)) for clause in clauses]
        return super().write(variables, record, clauses, reached)


MISTAKES = {
    "an empty list as no clause": EmptyList,
    "a positive low shifted to code 0": LowShifted,
    "the returned set before the ordering clauses": ReturnedFirst,
    "repeated literals of x × x dropped": RepeatsDropped,
}


def told_apart(driver, data, right):
    """The mistakes that a file tells apart from its right print."""
    prints = {name: jobfile.answer(driver, data, kind)[0] for name, kind in MISTAKES.items()}
    return [name for name, text in prints.items() if text != right]
