"""The plain book of a list of calls, and a check of the clauses against it by going through all.

A small job is right if every choice that meets all rules has exactly one satisfying assignment
that reads back as it, and every satisfying assignment reads back as such a choice.
"""

from collections import Counter
from itertools import product
from math import prod

# Eq, Ne, Ge, Le, Lt, Gt by their ordinary meaning
OPERATIONS = [lambda n: n == 0, lambda n: n != 0, lambda n: n >= 0]
OPERATIONS += [lambda n: n <= 0, lambda n: n < 0, lambda n: n > 0]


class Book:
    """Fed with each call's arguments and the number answered, never with the job."""

    def __init__(self):
        self.switches = 0
        self.settings = []
        self.rules = []

    def feed(self, word, numbers, status):
        if status != 0:
            return
        if word == "open":
            self.switches, self.settings, self.rules = numbers[0], [], []
        elif word == "range":
            values = range(numbers[0], numbers[1] + 1)
            self.settings.append(lambda switches: values)
        elif word == "list":
            self.settings.append(lambda switches: numbers)
        elif word == "binary":
            self.settings.append(lambda switches: [two_values(switches, *numbers)])
        elif word == "linear":
            self.rules.append(lambda values: meets_sum(values, *numbers[:2], numbers[2:]))
        elif word == "mul":
            x, y, m = numbers
            self.rules.append(lambda values: values[x] * values[y] == values[m])

    def size(self):
        """How many choices there are, rules aside."""
        off = [0] * self.switches
        return 2**self.switches * prod(len(setting(off)) for setting in self.settings)

    def met_by(self, switches, values):
        """Whether a choice is one, and meets all rules."""
        given = all(value in setting(switches) for value, setting in zip(values, self.settings))
        return given and all(rule(values) for rule in self.rules)

    def choices(self):
        """Every choice that meets all rules: the switches, then the settings' numbers."""
        found = []
        for switches in product([0, 1], repeat=self.switches):
            for values in product(*[setting(switches) for setting in self.settings]):
                if all(rule(values) for rule in self.rules):
                    found.append((*switches, *values))
        return found


def two_values(switches, cond, v_false, v_true):
    return v_true if switches[cond // 2] != cond % 2 else v_false


def meets_sum(values, op, constant, terms):
    total = constant + sum(c * values[s] for s, c in zip(terms[0::2], terms[1::2]))
    return OPERATIONS[op](total)


def assume(clauses, lit):
    """The clauses left where a literal holds, or None if one of them has no literal left."""
    left = []
    for clause in clauses:
        if lit in clause:
            continue
        if lit ^ 1 in clause:
            clause = clause - {lit ^ 1}
            if not clause:
                return None
        left.append(clause)
    return left


def satisfying(clauses, fixed, variables):
    """Every assignment of the variables that satisfies the clauses, as a list of 0s and 1s."""
    while clauses is not None:
        unit = next((clause for clause in clauses if len(clause) == 1), None)
        if unit is None:
            break
        (lit,) = unit
        fixed = {**fixed, lit // 2: 1 - lit % 2}
        clauses = assume(clauses, lit)
    if clauses is None:
        return
    free = next((v for v in range(variables) if v not in fixed), None)
    if free is None:
        yield [fixed[v] for v in range(variables)]
        return
    for value in (0, 1):
        left = assume(clauses, 2 * free + 1 - value)
        yield from satisfying(left, {**fixed, free: value}, variables)


def read_back(calls, assignment):
    """An assignment read back as a choice: the switches, then the settings' numbers.

    There is None for a number where the reading is refused."""
    answers = [calls.read(setting, assignment) for setting in range(calls.job.count)]
    numbers = [None if answer.status else answer.value for answer in answers]
    return (*assignment[: calls.job.switches], *numbers)


def written(calls):
    """The clauses that the stores hold."""
    return [calls.clause(k).part for k in range(calls.job.clauses)]


def literals_of(job, choice):
    """The literals of switches and setting bits that hold in a choice."""
    held = [2 * switch + 1 - value for switch, value in enumerate(choice[: job.switches])]
    for setting, number in zip(job.settings, choice[job.switches :]):
        code = number - setting.offset
        held += [lit ^ 1 ^ (code >> bit & 1) for bit, lit in enumerate(setting.used())]
    return held


def assignment_of(calls, choice):
    """The assignment that satisfies the clauses and reads back as a choice."""
    units = [{lit} for lit in literals_of(calls.job, choice)]
    clauses = [frozenset(clause) for clause in [*written(calls), *units]]
    (found,) = satisfying(clauses, {}, calls.job.variables)
    if read_back(calls, found) != choice:
        raise AssertionError("the assignment reads back otherwise")
    return found


def agrees(calls, clauses, book):
    """Whether the clauses' satisfying assignments read back as the book's choices, one for each."""
    sets = [frozenset(clause) for clause in clauses]
    found = [] if frozenset() in sets else satisfying(sets, {}, calls.job.variables)
    return Counter(read_back(calls, values) for values in found) == Counter(book.choices())
