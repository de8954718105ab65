#!/usr/bin/env python3
"""Random input of the program crate columns_check, and the judge's answers to it.

  inner_vectors.py SEED [DIRECTORY]   writes DIRECTORY/stdin and DIRECTORY/stdout
                                      (crates/columns_check if absent)

A line of the input is a word and numbers:
  ge ABOVE BELOW (WEIGHT FALLING FIRST COUNT)..
      The terms and ABOVE - BELOW, the slack. A term's thresholds are the literals of COUNT
      variables from FIRST on; FALLING is 1 if its coefficient is negative. A line is bad if the
      last term can lose more than 24 (WEIGHT times COUNT) or a weight is above 2 ** 27.
  adder VARIABLES CONSTANT WIDTH GIVEN RESULT.. (COEF N LIT..)..
      Rows of N literals, scaled by COEF, in WIDTH columns; the first GIVEN result literals.
  eq_adder VARIABLES X Y WIDTH (COEF N LIT..)..
      The rows and X add up to Y; X or Y is 0.
An answer is a line: `ge CLAUSES`, `adder VARIABLES RESULT.. : CLAUSES`, `eq_adder VARIABLES
CLAUSES`, `tall` if a column reached is above 12, or `bad line`. CLAUSES is how many clauses and
literals there are, and then each clause behind a bar or, above 400 literals, a check sum.
"""

import argparse
import random
from dataclasses import dataclass
from pathlib import Path

import inner
from driver import Driver
from heights import Reached, walk_adder, walk_eq, weights
from judge import add_driver_option

DIRECTORY = Path(__file__).resolve().parent.parent / "crates" / "columns_check"
PRINTED, MOST_CLAUSES, MOST_LITERALS = 400, 65_535, 524_288
LAST_LOSS, MOST_WEIGHT = 24, 1 << 27
COUNTS = {
    "ge": {"any": 200, "unit": 60, "column": 60, "short": 30, "bad": 12},
    "adder": {"small": 70, "given": 45, "wide": 15, "eleven": 8, "twelve": 8, "tall": 8},
    "eq_adder": {
        "small": 60,
        "negative": 50,
        "dead": 25,
        "wide": 15,
        "eleven": 8,
        "twelve": 8,
        "tall": 8,
    },
}

# Coefficients, literals in a row, and least and greatest number of rows.
SHAPES = {
    "small": ([1, 1, 1, 2, 2, 3, 4, 5, 6, 7, 9], [1, 1, 2, 2, 3, 4], (1, 6)),
    "wide": ([1, 5, 64, 65, 129, 1024, 2049, 4095], [1, 3, 7, 11, 12], (1, 3)),
    "eleven": ([1, 1, 1, 2, 3], [1, 1, 2, 3], (5, 13)),
    "twelve": ([1, 1, 1, 2, 3], [1, 1, 2, 3], (5, 13)),
    "tall": ([1, 1, 1, 2, 3], [1, 2, 3], (9, 20)),
}
VARIABLES = [10, 20, 20, 60, 60, 60, 300, 300, 1_048_576]

BAD_LINES = [
    "",
    "ge",
    "ge 1",
    "ge 1 2 3",
    "ge 1 1 0 0 2 1",
    "ge 1 1 1 2 2 1",
    "ge 1 1 1 0 2 20",
    "ge 1 1 1 0 2 10 1 0 40 10",
    "ge 9 1" + " 1 0 2 1" * 16,
    "ge 1 1073741825",
    "ge -1 0",
    "le 1 0",
    "ge  1 0",
    "adder 10 0 3",
    "adder 10 0 27 0 1 1 0",
    "adder 1048577 0 3 0 1 1 0",
    "adder 10 0 3 4 0 2 4 6",
    "adder 10 0 3 2 0",
    "adder 10 0 3 0 4096 1 2",
    "adder 10 0 3 0 1 13 0 2 4 6 8 10 12 14 16 18 0 2 4",
    "adder 10 0 3 0 1 3 2 4",
    "adder 10 0 3 0 1",
    "adder 10 0 3 0" + " 1 1 0" * 170,
    "eq_adder 10 0 0 0 1 1 0",
    "eq_adder 10 1 1 1 1 1 0",
    "eq_adder 10 0 0 27 1 1 0",
    "eq_adder 10 0 0",
    "eq_adders 10 0 0 1 1 1 0",
]


@dataclass
class Row:
    """Literals that are scaled by a coefficient; `sign` is what the Rust is given."""

    coef: int
    lits: list
    sign: int = 1

    def numbers(self):
        return [self.coef, len(self.lits), *self.lits]

    def columns(self):
        return self.coef.bit_length() - 1 + len(self.lits)

    def most(self):
        """What it is worth if all literals hold."""
        return self.coef * ((1 << len(self.lits)) - 1)


def words(*numbers):
    return " ".join(map(str, numbers))


def flat(rows):
    return [n for row in rows for n in row.numbers()]


# The judge's answers -----------------------------------------------------------------------------


def ask(driver, line):
    """Variables, clauses (those sent first), result literals."""
    word, numbers = inner.numbers_of(line)
    variables, sent, returned, result = driver.ask(words(word, *numbers), 4)
    texts = sent.split("|")[1:] + returned.split("|")[1:]
    clauses = [inner.integers(text) for text in texts]
    return int(variables), clauses, inner.integers(result)


def check_sum(clauses):
    """Each literal plus 1, and 0 behind each clause."""
    total = 0
    for clause in clauses:
        for number in [*(lit + 1 for lit in clause), 0]:
            total = (total * 1_000_003 + number) % 2_147_483_647
    return total


def show(clauses):
    """The clauses as a line has them, or None if they are too many for the program's stores."""
    literals = sum(map(len, clauses))
    if len(clauses) > MOST_CLAUSES or literals > MOST_LITERALS:
        return None
    if literals > PRINTED:
        return words(len(clauses), literals, "sum", check_sum(clauses))
    return words(len(clauses), literals, *(word for c in clauses for word in ("|", *c)))


def last_loss(terms):
    """What the last of the terms, (weight, falling, first, count), can lose."""
    return terms[-1][0] * terms[-1][3] if terms else 0


def ge_answer(driver, above, below, terms):
    if last_loss(terms) > LAST_LOSS or any(term[0] > MOST_WEIGHT for term in terms):
        return "bad line"
    constant, parts = above - below, []
    for weight, falling, first, count in terms:
        if not falling:
            constant -= weight * count
        lits = [first + 2 * i for i in range(count)]
        parts.append(f"; {-weight if falling else weight} 0 1 : {words(*lits)}")
    _, clauses, _ = ask(driver, words("ge", constant, *parts))
    text = show(clauses)
    return text and "ge " + text


def adder_answer(driver, variables, constant, width, given, rows):
    values = [(place, row.lits) for row in rows for place in weights(row.coef)]
    reached = Reached()
    walk_adder(reached, [(place, len(lits)) for place, lits in values], constant, width)
    if reached.too_high():
        return "tall"
    bits = [constant >> i & 1 for i in range(width)]
    parts = [f"; {place} : {words(*lits)}" for place, lits in values]
    line = words("adder", variables, ";", *bits, ";", *given, *parts)
    variables, clauses, result = ask(driver, line)
    text = show(clauses)
    return text and words("adder", variables, *result, ":", text)


def eq_constant(x, y, rows):
    """Literals of a row with sign -1 are negated for the Rust, and their weights moved."""
    moved = 0
    for row in rows:
        if row.sign < 0:
            moved += row.most()
    return x - y + moved


def eq_reached(x, y, rows):
    reached = Reached()
    walk_eq(reached, [(len(r.lits), r.sign * r.coef) for r in rows], eq_constant(x, y, rows))
    return reached


def eq_answer(driver, variables, x, y, rows):
    if eq_reached(x, y, rows).too_high():
        return "tall"
    parts = []
    for row in rows:
        lits = row.lits if row.sign > 0 else [lit ^ 1 for lit in row.lits]
        for place in weights(row.coef):
            parts += [f"; {place + j} {row.sign} {lit}" for j, lit in enumerate(lits)]
    line = words("adder2", variables, eq_constant(x, y, rows), *parts)
    variables, clauses, _ = ask(driver, line)
    text = show(clauses)
    return text and words("eq_adder", variables, text)


# Random input ------------------------------------------------------------------------------------


class Vectors:
    """Lines and their answers."""

    def __init__(self, seed, driver):
        self.rng = random.Random(seed)
        self.driver = driver
        self.lines = []
        self.counts = {}

    def add(self, kind, line, answer):
        """Notes a line, unless there are too many clauses."""
        if answer is None:
            return False
        self.lines.append((line, answer))
        self.counts[kind] = self.counts.get(kind, 0) + 1
        return True

    def literal(self, variables):
        return self.rng.randrange(2 * variables)

    def term(self, kind, left):
        """Weight, falling, first literal, count; `left` literals may be used."""
        rng = self.rng
        sizes = {"unit": [1], "column": [1, 1, 1, 1, 5, 6], "short": [0, 1, 2]}
        count = rng.choice(sizes.get(kind, [0, 1, 1, 2, 2, 3, 4, 7, 10]))
        heavy = [1, 1, 2, 3, 4, 5, 7, 11, rng.randint(1, 40), rng.randint(1, 100_000)]
        weight = rng.choice({"unit": [1], "column": [1, 1, 1, 2]}.get(kind, heavy))
        first = self.literal(rng.choice([200] * 20 + [500_000_000]))
        return weight, rng.randrange(2), first, min(count, left)

    def terms(self, kind):
        """The last can lose more than it may if the kind is "bad", and only then."""
        counts = [0, 1, 1, 2] if kind == "short" else [2, 3, 4, 5, 6, 8, 10, 12, 13, 14, 15]
        while True:
            terms, left = [], 19
            for _ in range(self.rng.choice(counts)):
                terms.append(self.term(kind, left))
                left -= terms[-1][3]
            if (last_loss(terms) > LAST_LOSS) == (kind == "bad"):
                return terms

    def inequality(self, kind):
        """A slack from below 0 to past what the terms can lose."""
        rng, terms = self.rng, self.terms(kind)
        loss = sum(weight * count for weight, _, _, count in terms)
        slack = rng.choice([*(rng.randint(0, loss) for _ in range(3)), loss // 2, loss - 1, 0, 1])
        slack = rng.choice([slack] * 12 + [-1, loss, loss + 1, rng.randint(-100, -1)])
        below = rng.choice([0, 0, rng.randint(0, 50), rng.randint(0, 1_000_000)]) + max(-slack, 0)
        above = below + slack
        return self.add_inequality(kind, above, below, terms)

    def add_inequality(self, kind, above, below, terms):
        numbers = [n for term in terms for n in term]
        line = words("ge", above, below, *numbers)
        return self.add("ge " + kind, line, ge_answer(self.driver, above, below, terms))

    def inequality_edges(self):
        """The greatest weight, and a last term that loses 24, and one more of each."""
        for weight, falling in [(MOST_WEIGHT, 0), (MOST_WEIGHT + 1, 1)]:
            self.add_inequality("edge", weight + 1, 0, [(weight, falling, 2, 3), (1, 0, 20, 2)])
        for weight, count in [(24, 1), (25, 1), (1, 17), (2, 12), (2, 13), (5, 5), (8, 3)]:
            self.add_inequality("edge", 7, 0, [(3, 1, 2, 2), (weight, 0, 20, count)])

    def rows(self, kind, variables):
        rng = self.rng
        coefs, sizes, counts = SHAPES.get(kind, SHAPES["small"])
        rows = []
        for _ in range(rng.randint(*counts)):
            lits = [self.literal(variables) for _ in range(rng.choice(sizes))]
            rows.append(Row(rng.choice(coefs), lits))
        return rows

    def adder(self, kind):
        rng, variables = self.rng, self.rng.choice(VARIABLES)
        rows = self.rows(kind, variables)
        width = max([row.columns() for row in rows]) + rng.choice([0, 0, 0, 1, 3])
        constant = rng.choice([0, 1, rng.randrange(1 << width), rng.randrange(1 << width)])
        reached = Reached()
        values = [(place, len(row.lits)) for row in rows for place in weights(row.coef)]
        walk_adder(reached, values, constant, width)
        if not fits_kind(kind, reached):
            return False
        given = [1, width, rng.randint(0, width)] if kind == "given" else [0, 0, 0, width]
        return self.add_adder(kind, variables, constant, width, rng.choice(given), rows)

    def add_adder(self, kind, variables, constant, width, given, rows):
        results = [self.literal(variables) for _ in range(given)]
        line = words("adder", variables, constant, width, given, *results, *flat(rows))
        answer = adder_answer(self.driver, variables, constant, width, results, rows)
        return self.add("adder " + kind, line, answer)

    def eq_adder(self, kind):
        """Goals from far below to past what the rows can add up to."""
        rng, variables = self.rng, self.rng.choice(VARIABLES)
        rows = self.rows(kind, variables)
        if kind in ("negative", "dead", "wide"):
            for row in rows:
                row.sign = rng.choice([1, -1])
        most = sum(row.most() for row in rows)
        goal = rng.choice([rng.randint(0, most), rng.randint(0, most), rng.randint(-50, 50)])
        goal = rng.choice([goal, goal, goal, goal, 0, -1, most, most + 1])
        reached = eq_reached(max(-goal, 0), max(goal, 0), rows)
        if not fits_kind(kind, reached) or reached.dead != (kind == "dead"):
            return False
        return self.add_eq_adder(kind, variables, goal, rows)

    def add_eq_adder(self, kind, variables, goal, rows):
        x, y = max(-goal, 0), max(goal, 0)
        width = max([row.columns() for row in rows], default=1)
        line = words("eq_adder", variables, x, y, width, *flat(rows))
        return self.add("eq_adder " + kind, line, eq_answer(self.driver, variables, x, y, rows))

    def edges(self):
        """No literals at all; columns of 11 to 13 literals, lowest or not, last or not."""
        for goal in (0, -3, 5):
            self.add_eq_adder("edge", 7, goal, [])
        for width, constant in [(0, 0), (1, 1), (3, 5)]:
            self.add_adder("edge", 7, constant, width, 0, [])
        for height in (11, 12, 13):
            for place, more in [(0, 0), (0, 1), (3, 0), (3, 1)]:
                rows = [Row(1 << place, [self.literal(20)]) for _ in range(height)]
                rows += [Row(2 << place, [self.literal(20)])] * more
                self.add_eq_adder("edge", 20, (height // 2) << place, rows)
                self.add_adder("edge", 20, more, place + 1 + more, more, rows)
        # a column above 12 behind a dead end is not reached
        self.add_eq_adder("edge", 20, 1, [Row(2, [self.literal(20)]) for _ in range(13)])

    def fill(self):
        draws = {"ge": self.inequality, "adder": self.adder, "eq_adder": self.eq_adder}
        for word, kinds in COUNTS.items():
            for kind, count in kinds.items():
                while self.counts.get(f"{word} {kind}", 0) < count:
                    draws[word](kind)
        self.inequality_edges()
        self.edges()
        self.rng.shuffle(self.lines)
        for line in BAD_LINES:
            at = self.rng.randrange(len(self.lines))
            self.lines.insert(at, (line, "bad line"))


def fits_kind(kind, reached):
    """Whether the greatest height is as the kind asks."""
    if kind == "tall":
        return reached.too_high()
    least, most = {"eleven": (11, 11), "twelve": (12, 12), "wide": (0, 10)}.get(kind, (0, 8))
    return least <= reached.greatest() <= most


def main():
    parser = argparse.ArgumentParser(description="Writes vectors of inequalities and adders.")
    parser.add_argument("seed", type=int)
    parser.add_argument("directory", nargs="?", type=Path, default=DIRECTORY)
    add_driver_option(parser)
    options = parser.parse_args()
    driver = Driver(options.driver)
    vectors = Vectors(options.seed, driver)
    vectors.fill()
    driver.close()
    for name, at in [("stdin", 0), ("stdout", 1)]:
        text = "".join(pair[at] + "\n" for pair in vectors.lines)
        (options.directory / name).write_text(text)
    for kind, count in vectors.counts.items():
        print(kind, count)


if __name__ == "__main__":
    main()
