"""Texts of a solver for three variables, written by hand: what is read, and each rule broken once.

The stored script of replay has them, and the judge is checked by them (answer_points.py).
"""

from itertools import product

SAT, UNSAT = b"s SATISFIABLE\n", b"s UNSATISFIABLE\n"
LIST = b"v 1 -2 3 0\n"
THREE = SAT + LIST


def listed(words):
    """A satisfiable answer whose one `v` line has these words."""
    return SAT + b"v " + words + b"\n"


def every_sign():
    """Each assignment of the three variables, and its text."""
    for assignment in product((1, 0), repeat=3):
        signs = tuple(b"" if value else b"-" for value in assignment)
        yield listed(b"%s1 %s2 %s3 0" % signs), list(assignment)


def with_comment(comment, place):
    """The three variables in two `v` lines, a comment before the line of a place."""
    lines = [SAT, b"v 1 -2\n", b"v 3 0\n"]
    return b"".join([*lines[:place], comment + b"\n", *lines[place:]])


# `c` alone, `c` and a space, spaces at the end, what looks like another line, a return, any bytes.
COMMENTS = [b"c", b"c ", b"c  x  ", b"c s UNSATISFIABLE", b"c v 1 0", b"c \r", b"c c"]
ANY_BYTES = b"c " + bytes(byte for byte in range(256) if byte != 10)

# Texts that are read, and the assignment that each gives.
GIVEN = [
    *every_sign(),
    (listed(b"3 2 1 0"), [1, 1, 1]),  # any order
    (listed(b"2 -1 3 0"), [0, 1, 1]),
    (listed(b"-3 1 -2 0"), [1, 0, 0]),
    (SAT + b"v 1\nv -2\nv 3\nv 0\n", [1, 0, 1]),  # several `v` lines
    (SAT + b"v 1 -2\nv 3 0\n", [1, 0, 1]),
    (SAT + b"v 1 -2 3\nv 0\n", [1, 0, 1]),  # the 0 in a line of its own
    (SAT + b"v -3\nv 2 1 0\n", [1, 1, 0]),
    *((with_comment(comment, place), [1, 0, 1]) for place in range(4) for comment in COMMENTS),
    (b"c\n" * 9 + THREE + b"c \n" * 9, [1, 0, 1]),  # many comments
    (ANY_BYTES + b"\n" + THREE, [1, 0, 1]),  # every byte but a line feed behind `c `
]
# Texts that are read and give no assignment.
NONE = [UNSAT, b"c\n" + UNSAT, UNSAT + b"c\n", b"c x\nc\n" + UNSAT + b"c v 1 0\nc\n"]

# 19: a line that is none of the three forms.
BROKEN_LINES = [
    b"",  # an empty text has no `s` line
    b"\n",  # an empty line alone
    b"\n" + THREE,  # an empty line at the beginning
    SAT + b"\nv 1 -2 3 0\n",  # between
    THREE + b"\n",  # at the end
    THREE[:-1],  # the last line feed missing behind a `v` line
    UNSAT[:-1],  # behind the `s` line
    UNSAT + b"c",  # behind a `c` line
    THREE + b"c x",
    b"cx\n" + UNSAT,  # `c` neither alone nor before a space
    b"cc\n" + UNSAT,
    b"c\r\n" + UNSAT,
    b"c\t\n" + UNSAT,
    b"c\x00\n" + UNSAT,
    b"C\n" + UNSAT,  # other words
    b"C x\n" + UNSAT,
    b"x\n" + UNSAT,
    b"p cnf 3 0\n" + UNSAT,
    b"o 3\n" + UNSAT,
    b"SATISFIABLE\n",
    b"\xef\xbb\xbfc\n" + UNSAT,  # bytes ahead of the word
    b" c\n" + UNSAT,
    b"\tc\n" + UNSAT,
    b"\r\n" + UNSAT,
    b" \n" + UNSAT,
    UNSAT + b"\x00\n",
    b"s SATISFIABLE\r\n" + LIST,  # the `s` line
    b"s SATISFIABLE \n" + LIST,
    b"s  SATISFIABLE\n" + LIST,
    b" s SATISFIABLE\n" + LIST,
    b"s\tSATISFIABLE\n" + LIST,
    b"sSATISFIABLE\n" + LIST,
    b"S SATISFIABLE\n" + LIST,
    b"s satisfiable\n" + LIST,
    b"s Satisfiable\n" + LIST,
    b"s SATISFIABL\n" + LIST,
    b"s SATISFIABLES\n" + LIST,
    b"s SATISFIABLE 0\n" + LIST,
    b"s SATISFIABLE v 1 -2 3 0\n",
    b"s\n" + LIST,
    b"s \n" + LIST,
    b"ss SATISFIABLE\n" + LIST,
    b"s UNSATISFIABLE \n",
    b"s UNSATISFIABLE\r\n",
    b"s  UNSATISFIABLE\n",
    b"s unsatisfiable\n",
    b"s UNSATISFIABL\n",
    b"s UNSATISFIABLES\n",
    b"s UN SATISFIABLE\n",
    b"s UNSATISFIABLE 0\n",
    b"s UNKNOWN\n",  # a solver that gave up
    b"s INDETERMINATE\n",
    SAT + b"v\n",  # `v` without a number
    SAT + b"v \n",
    SAT + b"v\nv 1 -2 3 0\n",
    SAT + b"v 1 -2\nv\nv 3 0\n",
    SAT + b"v 1 -2 3 0 \n",  # a space at the end
    SAT + b"v 1 -2 \nv 3 0\n",
    SAT + b"v  1 -2 3 0\n",  # two spaces
    SAT + b"v 1  -2 3 0\n",
    SAT + b"v 1 -2 3  0\n",
    SAT + b" v 1 -2 3 0\n",  # a space ahead
    SAT + b"v\t1 -2 3 0\n",  # a tab
    SAT + b"v 1\t-2 3 0\n",
    SAT + b"v 1 -2 3 0\t\n",
    SAT + b"v 1 -2 3 0\r\n",  # a return
    SAT + b"v 1 -2\r\nv 3 0\n",
    SAT + b"v 1 -2\rv 3 0\n",
    SAT + b"v1 -2 3 0\n",  # no space behind `v`
    SAT + b"V 1 -2 3 0\n",
    SAT + b"vv 1 -2 3 0\n",
    SAT + b"1 -2 3 0\n",
]

# 19: a number that is not written as one, at the front, in the middle and at the end.
BROKEN_NUMBERS = [b"+1", b"01", b"-01", b"001", b"-0", b"00", b"-00", b"+0", b"-", b"+", b"--1"]
BROKEN_NUMBERS += [b"-+1", b"+-1", b"1-", b"1+", b"1.", b"1,", b"0x1", b"1e0", b"x", b"1x", b"-x"]
BROKEN_NUMBERS += [b"1/", b"1:", b"\xb9", b"\xc2\xb9", b"\xd9\xa1", b"1\x00", b"\x001", b"1\xff"]
BROKEN_NUMBERS += [b"v", b"s", b"c", b"-1-", b"0" * 40, b"0" * 39 + b"1", b"-" + b"9" * 39 + b"-"]


def with_broken_numbers():
    for number in BROKEN_NUMBERS:
        yield from [listed(number + b" -2 3 0"), listed(b"2 %s 3 0" % number)]
        yield listed(b"1 -2 3 " + number)


# 19: the `s` line and the places of the others.
BROKEN_ORDER = [
    b"c\n",  # no `s` line
    b"v 1 -2 3 0\n",
    b"c s SATISFIABLE\nv 1 -2 3 0\n",
    b"c " + LIST,
    SAT + THREE,  # two `s` lines
    SAT + b"c\n" + THREE,
    THREE + SAT,
    SAT + b"v 1 -2\n" + SAT + b"v 3 0\n",
    UNSAT + UNSAT,
    UNSAT + SAT,
    SAT + UNSAT,
    THREE + UNSAT,
    UNSAT + THREE,
    b"v 1 -2 3 0\n" + SAT,  # a `v` line before it
    b"v 1\n" + SAT + b"v -2 3 0\n",
    b"v 0\n" + THREE,
    b"c\nv 0\nc\n" + UNSAT,
    UNSAT + b"v 0\n",  # a `v` line after the unsatisfiable one
    UNSAT + b"v 1 -2 3 0\n",
    UNSAT + b"c\nv 1\n",
    UNSAT + b"v 4\n",
]
# 19: the 0 of a satisfiable answer.
BROKEN_LISTS = [
    SAT,  # no list
    SAT + b"c v 1 -2 3 0\n",
    listed(b"1 -2 3"),  # no 0
    SAT + b"v 1\nv -2\nv 3\n",
    listed(b"1 -2 3 0 0"),  # two
    SAT + b"v 1 -2 3 0\nv 0\n",
    listed(b"0 0"),
    listed(b"0 1 -2 3 0"),  # one in front, in the middle
    listed(b"1 0 -2 3 0"),
    listed(b"1 -2 0 3"),  # not last
    listed(b"0 1 -2 3"),
    SAT + b"v 0\nv 1 -2 3\n",
    SAT + b"v 1 0\nv -2 3 0\n",
    SAT + b"v 1 -2 3 0\nv 1\n",  # numbers behind it
    SAT + b"v 1 -2 3 0\nv 4\n",
    SAT + b"v 1 -2 3 0\nv 4 0\n",
]
# 20: unknown, doubled, missing.
VARIABLES = [
    listed(b"0"),  # all missing
    listed(b"1 -2 0"),  # each one missing
    listed(b"1 3 0"),
    listed(b"-2 3 0"),
    listed(b"1 -2 3 4 0"),  # unknown, and all others there
    listed(b"-4 1 -2 3 0"),
    listed(b"1 -2 4 0"),  # unknown in place of one
    listed(b"1 -2 30 0"),
    listed(b"1 -2 13 0"),
    listed(b"1 -2 3 3 0"),  # doubled, and all others there
    listed(b"1 1 -2 3 0"),
    listed(b"1 -1 -2 3 0"),  # with both signs
    listed(b"-2 1 2 3 0"),
    listed(b"1 -2 -2 0"),  # doubled in place of another
    listed(b"1 -2 1 0"),
    listed(b"3 3 3 0"),
    SAT + b"v 1 -2\nv 3 1\nv 0\n",  # doubled in another line
    SAT + b"v 1 -2 3\nv -3\nc\nv 0\n",
]


def with_digits():
    """20: numbers of 1 to 40 digits and one of 400, those that a width would make 1, 2 or 3."""
    for count in range(1, 41):
        least, most = max(4, 10 ** (count - 1)), 10**count - 1
        yield from [listed(b"%d -2 3 0" % least), listed(b"-%d -2 3 0" % most)]
    for bits in (8, 9, 10, 15, 16, 24, 31, 32, 33, 63, 64, 65, 96, 127, 128):
        for number in (2**bits + 1, -(2**bits) - 1, 2**bits - 1):
            yield listed(b"%d -2 3 0" % number)
        yield from [listed(b"1 %d 3 0" % (2**bits + 2)), listed(b"1 -2 %d 0" % (2**bits + 3))]
    for number in (10**10 + 1, 10**20 + 1, 10**39 + 1, 10**39):
        yield listed(b"1 -2 3 %d 0" % number)
    yield listed(b"9" * 400 + b" 2 3 0")


# 19: behind a number of 40 digits all else is looked at.
BEHIND_DIGITS = [listed(b"%d 2 3" % 10**39), listed(b"%d 2 03 0" % 10**39), listed(b"%d" % 10**39)]

BROKEN = [*BROKEN_LINES, *with_broken_numbers(), *BROKEN_ORDER, *BROKEN_LISTS, *BEHIND_DIGITS]
