"""The written job files of cnf_files: each mistake told apart, each refusal, the bounds of a field.

A chapter is a name and its files; the chapters of MISTAKE_CHAPTERS bear the names of mistakes.py,
and each of their files tells that mistake apart.
"""

import jobfile
from jobfiles import MOST, changed, field, padded, raw, starts
from mistakes import MISTAKES
from selfcheck import EXAMPLE
from turned import GE, GT, LE, LT

OPEN = field("open", 1)
SMALL = [OPEN, field("range", 0, 9), field("binary", 1, 2, 5), field("list", 1, 4, 6)]
SHEET = [
    *SMALL,
    field("linear", 2, -5, 0, 1, 1, 1),
    field("linear", 1, -7, 0, 1, 2, 1),
    field("linear", 0, 3, 0, -2, 1, 1, 2, 3),
    field("mul", 1, 1, 0),
]
# at most, below, above
OTHERS = [
    *SMALL,
    field("linear", LE, -13, 0, 1, 1, 1),
    field("linear", LT, -1, 0, -1, 1, 1),
    field("linear", GT, -4, 0, 1, 2, -1),
]


def file(*fields):
    return b"".join(fields)


def of_first(count, coefficient):
    """Terms of the first settings, all with one coefficient."""
    return [n for setting in range(count) for n in (setting, coefficient)]


# Numbers of calls behind SMALL, at a bound or past it.
BOUNDS = {
    "range": [(-4095, 0), (-4095, 1), (5, 4), (0, 4095), (0, 4096), (-32768, 32767), (-1, -1)],
    "list": [(0,), (3, 3), (4, 3), (4096,), (-4095, 1), (-1, 5), range(64), range(65)],
    "binary": [(2, 0, 1), (65535, 0, 1), (0, 1, 1), (0, 2, 1), (0, 4096, 0), (1, -4095, 1)],
    "linear": [(6, 0), (255, 0), (0, 0, *of_first(7, 1)), (0, 0, 255, 1), (0, 0, 1, 1, 1, 1)],
    "mul": [(3, 0, 0), (0, 255, 0), (0, 0, 3)],
}


def examples():
    return [EXAMPLE, file(*SHEET), file(*SMALL), file(*OTHERS)]


def empty_lists():
    yield file(OPEN, field("list"))
    yield file(OPEN, field("range", 0, 5), field("list"), field("range", 0, 2))
    yield file(*SMALL, field("list"))


def positive_lows():
    for low, high in [(5, 7), (1, 2), (3, 12), (4094, 4095), (1, 4095)]:
        yield file(OPEN, field("range", low, high))
    yield file(OPEN, field("list", 1, 4))
    rule = field("linear", 0, -9, 0, 1, 1, 1)
    yield file(OPEN, field("list", 6, 7, 9), field("range", 2, 2), rule)


def ordered_carries():
    """Four literals in a column before the last give two carries, and a clause that orders them."""
    for bits, count in [(2, 4), (2, 5), (2, 6), (3, 4)]:
        settings = [field("range", 0, 2**bits - 1)] * count
        for sign, constant in [(1, -4), (-1, 6)]:
            yield file(OPEN, *settings, field("linear", 0, constant, *of_first(count, sign)))
    yield file(OPEN, field("range", -3, 4), field("range", -2, 3), field("mul", 0, 1, 0))


def squares():
    yield file(OPEN, field("range", 0, 1), field("mul", 0, 0, 0))
    yield file(OPEN, field("range", 0, 3), field("range", 0, 9), field("mul", 0, 0, 1))
    yield file(OPEN, field("range", -2, 2), field("mul", 0, 0, 0))
    yield file(OPEN, field("binary", 1, 2, 5), field("range", 0, 31), field("mul", 0, 0, 1))


MISTAKE_CHAPTERS = dict(zip(MISTAKES, [empty_lists, positive_lows, ordered_carries, squares]))


def tags():
    """18: unknown tags, tag 01 missing or again, a head cut short."""
    yield from [b"", bytes([0]), bytes([1]), bytes([1, 0]), bytes([1, 0, 1])]
    yield from (raw(tag, bytes([1])) for tag in (0, 2, 3, 4, 5, 6, 7, 128, 255))
    yield from (file(OPEN, raw(tag, bytes(4))) for tag in (0, 1, 7, 129, 254, 255))
    yield from [file(*SMALL, OPEN), file(OPEN, OPEN), file(*SMALL, bytes([1])), OPEN]
    yield from [file(OPEN, bytes([9])), file(OPEN, bytes([2])), file(OPEN, bytes([2, 0]))]


def lengths():
    """18: each length that a tag does not have; lengths that it has; contents cut short."""
    for tag in range(1, 7):
        before = SMALL if tag > 1 else []
        for length in [*range(10), 11, 14]:
            yield file(*before, raw(tag, bytes(length)))
    for whole in SHEET[1:]:
        yield from [file(*SMALL, whole)[:-1], file(*SMALL, whole, bytes(1))]
    yield file(OPEN, bytes([3, 255, 255]), bytes(8))
    yield file(OPEN, bytes([3, 1, 0]), bytes(256))


def refusals():
    """2 to 12 at and past each bound; numbers signed where they are signed."""
    yield from (field("open", switches) for switches in (0, 63, 64, 65, 255))
    for word, rows in BOUNDS.items():
        yield from (file(*SMALL, field(word, *numbers)) for numbers in rows)
    for coefficient in (0, 255, 256, -255, -256, 32767, -32768):
        yield file(*SMALL, field("linear", 0, 1, 0, coefficient))
    for constant in (1_000_000, 1_000_001, -1_000_000, -1_000_001, 2**31 - 1, -(2**31)):
        for op in (GE, LE, LT, GT):
            yield file(*SMALL, field("linear", op, constant, 0, 1))
    yield from (file(OPEN, *[field("range", 0, 1)] * count) for count in (32, 33))


def heights():
    """13 for a column above 12; the clauses of heights 11 and 12 do not fit the stores: 15."""
    tall = [OPEN, *[field("range", 0, 127)] * 6]
    for coefficient in (1, 3):
        yield file(*tall, field("linear", 0, 0, *of_first(6, coefficient)))
    yield file(*tall, field("mul", 0, 1, 2))
    yield file(*tall, field("range", 0, 255), field("mul", 0, 6, 0))


def sizes():
    """8,191 and 8,192 bytes are accepted, 8,193 are too long whatever they hold."""
    for size in (MOST - 1, MOST, MOST + 1):
        yield padded(SMALL, size)
        yield padded([OPEN, field("range", 1, 0)], size)
        yield bytes(size)
    yield padded(SMALL, MOST - 6) + field("mul", 0, 0, 9)
    yield padded(SMALL, MOST - 6) + field("mul", 1, 1, 0)
    yield padded(SMALL, MOST - 3) + bytes([6, 0, 3])
    yield file(OPEN, field("list", *range(4_092)))


def filled(driver, start, choices):
    """A file whose stores have no room for these fields; each is added while it is accepted."""
    data = start
    for choice in choices:
        while not jobfile.answer(driver, data + choice)[0].startswith(b"refused"):
            data += choice
    return data


def stores(driver):
    """Both stores filled to the last entry, then one clause more: 15."""
    zero = file(OPEN, field("range", 0, 0), field("range", 0, 4095), field("range", 0, 7))
    empty = field("linear", 0, 3)
    full = filled(driver, zero, [field("mul", 0, 0, 1), empty])
    yield from [full, full + empty, full + field("mul", 0, 0, 0)]
    one = file(OPEN, field("range", 0, 7), field("range", 0, 63), field("range", 0, 1))
    unit = field("linear", 0, -1, 2, 1)
    full = filled(driver, one, [field("mul", 0, 0, 1), field("mul", 0, 2, 1), unit])
    yield from [full, full + unit, full + empty]


def damages():
    """The sheet: every cut, each byte of a head one off, a bit of each other changed."""
    whole = file(*SHEET)
    yield from (whole[:size] for size in range(len(whole)))
    heads = [start + place for start in starts(SHEET) for place in range(3)]
    yield from (changed(whole, at, whole[at] + step) for at in heads for step in (1, -1))
    others = [at for at in range(len(whole)) if at not in heads]
    yield from (changed(whole, at, whole[at] ^ 1 << at % 8) for at in others)


def chapters(driver):
    """Every chapter: its name and its files."""
    made = {"examples": examples(), "tags": tags(), "lengths": lengths(), "refusals": refusals()}
    made |= {"heights": heights(), "sizes": sizes(), "stores": stores(driver), "damages": damages()}
    made |= {name: files() for name, files in MISTAKE_CHAPTERS.items()}
    return {name: list(files) for name, files in made.items()}
