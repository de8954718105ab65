"""Variables, clauses and literals of a sum or a product, counted without writing a clause.

Apart from the driver: the clauses of one inequality are counted from how they are enumerated, going
down through the terms left (document 01, "The column"), and a column's from its terms. Settings
matter by their bit counts and offsets alone. Columns are taken to be at most 12 high.
"""

from functools import lru_cache

from heights import weights
from turned import EQ, GE, NE, turned

BIT = (0, 1)


@lru_cache(maxsize=None)
def below(domains, upper):
    """Clauses and literals behind a point: domains of the terms left, rising, and their bound.

    A term gives up a value but its greatest at the price of one literal; a clause stands where the
    bound falls below 0. The last term gives one clause if it can fall below 0 at all."""
    if upper < 0:
        return 1, 0
    if not domains:
        return 0, 0
    (*values, most), rest = domains[0], domains[1:]
    if not rest:
        return (1, 1) if values and upper - most + values[0] < 0 else (0, 0)
    clauses, literals = below(rest, upper)
    for value in values:
        more, longer = below(rest, upper - most + value)
        clauses, literals = clauses + more, literals + longer + more
    return clauses, literals


def at_least_zero(domains, constant):
    """One inequality: the terms plus a constant at least 0."""
    return below(domains, constant + sum(domain[-1] for domain in domains))


def equation(domains, constant):
    """Both inequalities of one column."""
    negated = tuple(tuple(-value for value in reversed(domain)) for domain in domains)
    return plus(at_least_zero(domains, constant), at_least_zero(negated, -constant))


def plus(*counts):
    return tuple(map(sum, zip(*counts)))


def rising(low, high, factor=1):
    return tuple(sorted(factor * value for value in range(low, high + 1)))


def adder(values, constant, columns, given):
    """`log_encoding_adder`: values are (weight, bits), `given` results are at hand.

    Variables, clauses, literals; and how many columns there are."""
    columns = max([columns, given, constant.bit_length(), *(w + bits for w, bits in values)])
    made, counts, carry, i = 0, (0, 0), 0, 0
    while i < columns or carry:
        own, bit = sum(w <= i < w + bits for w, bits in values), constant >> i & 1
        carries = (own + carry + bit) // 2
        domains = (BIT,) * own + (rising(0, carry), rising(0, carries, -2), (-1, 0))
        counts = plus(counts, equation(domains, bit))
        made += carries + (i >= given)
        carry, i = carries, i + 1
    return (made, *counts), i


def adder2(values, constant):
    """`log_encoding_adder2`: values are (weight, bits, sign); a dead end is one empty clause."""
    last = max([w + bits for w, bits, _ in values if bits], default=0) - 1
    if last < 0:
        return (0, 1, 0) if constant else (0, 0, 0)
    made, ordering, counts, low, high = 0, 0, (0, 0), 0, 0
    for i in range(last + 1):
        own = [sign for w, bits, sign in values if w <= i < w + bits]
        target = constant >> i if i == last else constant >> i & 1
        lower, upper = low + own.count(-1) * -1 + target, high + own.count(1) + target
        next_low, next_high = (0, 0) if i == last else (-(-lower // 2), upper // 2)
        if next_low > next_high:
            return made, ordering + 1, 2 * ordering
        made += next_high - next_low
        ordering += max(0, next_high - next_low - 1)
        domains = tuple(BIT if sign > 0 else (-1, 0) for sign in own)
        domains += (rising(low, high), rising(next_low, next_high, -2))
        counts = plus(counts, equation(domains, target))
        low, high = next_low, next_high
    return made, counts[0] + ordering, counts[1] + 2 * ordering


def comparison(op, positive, negative):
    """What Ne and Ge add for two results of so many bits."""
    both, more = min(positive, negative), abs(positive - negative)
    if op == NE:
        return both, 4 * both + 1, 12 * both + both + more
    made = (both, 3 + 6 * (both - 1), 7 + 20 * (both - 1))
    if positive <= negative:
        return plus(made, (0, 1 + more, 1 + more))
    return plus(made, (0, 1, 1 + more))


def equal_sum(terms, constant):
    """An equation; terms are (bits, coefficient)."""
    values = [(w, bits, 1 if c > 0 else -1) for bits, c in terms for w in weights(c)]
    return adder2(values, constant)


def of_sum(op, constant, terms):
    """A sum; terms are (setting, coefficient)."""
    op, constant, coefficients = turned(op, constant, [c for _, c in terms])
    settings = [setting for setting, _ in terms]
    constant += sum(s.offset * c for s, c in zip(settings, coefficients))
    pairs = [(s.length, c) for s, c in zip(settings, coefficients)]
    if op == EQ:
        return equal_sum(pairs, constant)
    assert op in (NE, GE)
    parts = []
    for sign in (1, -1):
        values = [(w, bits) for bits, c in pairs if c * sign > 0 for w in weights(c)]
        parts.append(adder(values, max(constant * sign, 0), 1, 0))
    (plain, positive), (minus, negative) = parts
    return plus(plain, minus, comparison(op, positive, negative))


def of_product(x, y, m):
    """A product; settings by their records."""
    rows = [(i, y.length) for i in range(x.length)]
    pairs = x.length * y.length
    gates = (pairs, 3 * pairs, 7 * pairs)
    if not (x.offset or y.offset or m.offset):
        added, columns = adder(rows, 0, 0, m.length)
        return plus(gates, added, (0, columns - m.length, columns - m.length))
    added, columns = adder(rows, 0, 0, 0)
    terms = [(columns, 1), (x.length, y.offset), (y.length, x.offset), (m.length, -1)]
    return plus(gates, added, equal_sum(terms, x.offset * y.offset - m.offset))
