"""A solver's text read, and an assignment printed, from the words of document 02, #103.

A text is bytes, a line feed is the byte 10 alone. Variable v has the number v + 1; numbers are
compared as they are written, since one of any length may be given.
"""

import re

BROKEN, VARIABLES = 19, 20
SATISFIABLE, UNSATISFIABLE = b"s SATISFIABLE", b"s UNSATISFIABLE"
NUMBER = re.compile(rb"0|-?[1-9][0-9]*")


def is_comment(line):
    return line == b"c" or line.startswith(b"c ")


def is_status(line):
    return line in (SATISFIABLE, UNSATISFIABLE)


def is_values(line):
    word, *numbers = line.split(b" ")
    return word == b"v" and numbers != [] and all(map(NUMBER.fullmatch, numbers))


def lines_told(text):
    """The lines of a text but for its comments; None if one of all lines is broken."""
    *lines, behind = text.split(b"\n")
    if behind != b"":
        return None
    told = [line for line in lines if not is_comment(line)]
    return told if all(is_status(line) or is_values(line) for line in told) else None


def list_of(lines):
    """The numbers of all `v` lines, in one list."""
    return [number for line in lines for number in line.split(b" ")[1:]]


def ends_in_0(numbers):
    """Whether the last number is 0, and it alone."""
    return numbers[-1:] == [b"0"] and b"0" not in numbers[:-1]


def well_written(told):
    """Whether there is one `s` line, ahead of all others, and behind it what belongs there."""
    if told is None or [is_status(line) for line in told].count(True) != 1:
        return False
    status, *values = told
    if not is_status(status):
        return False
    return values == [] if status == UNSATISFIABLE else ends_in_0(list_of(values))


def names(variables):
    """The number of each variable as it is written."""
    return [b"%d" % (variable + 1) for variable in range(variables)]


def each_given_once(numbers, variables):
    """Whether the numbers, signs aside, are those of all variables, in any order."""
    return sorted(number.removeprefix(b"-") for number in numbers) == sorted(names(variables))


def read(text, variables):
    """The number answered, and the assignment; None if the solver found none, or if refused."""
    told = lines_told(text)
    if not well_written(told):
        return BROKEN, None
    status, *values = told
    if status == UNSATISFIABLE:
        return 0, None
    numbers = list_of(values)[:-1]
    if not each_given_once(numbers, variables):
        return VARIABLES, None
    true = set(numbers)
    return 0, [int(name in true) for name in names(variables)]


def printed(assignment):
    """The `s` line and one `v` line, variables rising."""
    numbers = [v + 1 if value else -(v + 1) for v, value in enumerate(assignment)]
    words = [b"v", *(b"%d" % number for number in [*numbers, 0])]
    return SATISFIABLE + b"\n" + b" ".join(words) + b"\n"
