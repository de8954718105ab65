"""A sum of Le, Lt or Gt as one of Ge, from the words of document 02, #102.

The Rust has clauses for Eq, Ne and Ge; on the others it panics.
"""

EQ, NE, GE, LE, LT, GT = OPERATIONS = range(6)
NAMES = ("Eq", "Ne", "Ge", "Le", "Lt", "Gt")


def turned(op, constant, coefficients):
    """Operation, constant and coefficients of the sum that is encoded."""
    if op == LT:
        return turned(LE, constant + 1, coefficients)
    if op == LE:
        return GE, -constant, [-coefficient for coefficient in coefficients]
    if op == GT:
        return GE, constant - 1, coefficients
    return op, constant, coefficients


def turned_terms(op, constant, terms):
    """The same of a call's flat terms: setting, coefficient, setting, coefficient, .."""
    op, constant, coefficients = turned(op, constant, terms[1::2])
    return op, constant, [n for term in zip(terms[0::2], coefficients) for n in term]
