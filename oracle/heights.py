"""Heights of the columns that a sum or a product reaches.

Only bit counts, coefficients, offsets and constants matter. A height is a column's own literals
plus the carry literals that come in; the constant's bit does not count.
"""

from dataclasses import dataclass, field

from turned import EQ, turned

MAX_HEIGHT = 12


@dataclass
class Reached:
    """Heights in the order of the columns, up to the first one above `bound`.

    Beside them: whether it ended in a dead end, and how many ordering clauses were sent."""

    bound: int = MAX_HEIGHT
    heights: list = field(default_factory=list)
    dead: bool = False
    ordering: int = 0

    def add(self, height):
        """Notes a column; says whether the walk may go on."""
        self.heights.append(height)
        return height <= self.bound

    def left(self):
        """Whether a column above `bound` ended it."""
        return self.greatest() > self.bound

    def too_high(self):
        return self.greatest() > MAX_HEIGHT

    def greatest(self):
        return max(self.heights, default=0)


def weights(coefficient):
    """Places of the set bits of a coefficient's magnitude."""
    magnitude = abs(coefficient)
    return [i for i in range(magnitude.bit_length()) if magnitude >> i & 1]


def walk_eq(reached, terms, constant):
    """`log_encoding_adder2`: terms are (bits, coefficient); a dead end leaves early."""
    plus, minus = {}, {}
    for bits, coefficient in terms:
        counts = plus if coefficient > 0 else minus
        for weight in weights(coefficient):
            for place in range(weight, weight + bits):
                counts[place] = counts.get(place, 0) + 1
    last = max([*plus, *minus], default=-1)
    carry_low = carry_high = 0
    for i in range(last + 1):
        ups, downs = plus.get(i, 0), minus.get(i, 0)
        if not reached.add(ups + downs + carry_high - carry_low) or i == last:
            return
        target = constant >> i & 1
        carry_low = -((downs - carry_low - target) // 2)
        carry_high = (carry_high + ups + target) // 2
        if carry_low > carry_high:
            reached.dead = True
            return
        reached.ordering += max(0, carry_high - carry_low - 1)


def walk_adder(reached, values, constant, columns):
    """`log_encoding_adder`: values are (weight, bits); returns how many columns there are.

    There are at least `columns` columns, those of the values and the constant, and further
    ones while carries come in.
    """
    own = {}
    for weight, bits in values:
        columns = max(columns, weight + bits)
        for place in range(weight, weight + bits):
            own[place] = own.get(place, 0) + 1
    columns = max(columns, constant.bit_length())
    carry = i = 0
    while i < columns or carry > 0:
        height = own.get(i, 0) + carry
        if not reached.add(height):
            break
        carry = (height + (constant >> i & 1)) // 2
        i += 1
    return i


def linear_reached(op, constant, terms, bound=MAX_HEIGHT):
    """Columns of a sum, turned; terms are (setting, coefficient)."""
    op, constant, coefficients = turned(op, constant, [c for _, c in terms])
    terms = [(setting, c) for (setting, _), c in zip(terms, coefficients)]
    for setting, coefficient in terms:
        constant += setting.offset * coefficient
    reached = Reached(bound)
    if op == EQ:
        walk_eq(reached, [(s.length, c) for s, c in terms], constant)
        return reached
    for sign in (1, -1):
        values = [(w, s.length) for s, c in terms if c * sign > 0 for w in weights(c)]
        walk_adder(reached, values, max(constant * sign, 0), 1)
        if reached.left():
            break
    return reached


def mul_reached(x, y, m, bound=MAX_HEIGHT):
    """Columns of a product: the multiplier's, then with offsets those of the equation."""
    reached = Reached(bound)
    rows = [(i, y.length) for i in range(x.length)]
    offsets = x.offset != 0 or y.offset != 0 or m.offset != 0
    columns = walk_adder(reached, rows, 0, 0 if offsets else m.length)
    if offsets and not reached.left():
        terms = [(columns, 1), (x.length, y.offset), (y.length, x.offset), (m.length, -1)]
        walk_eq(reached, terms, x.offset * y.offset - m.offset)
    return reached
