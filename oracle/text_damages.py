"""What may be wrong with a solver's text: damages to its numbers, to its lines, to its bytes.

Numbers are words, the 0 among them; a damage is given the random source and what it is done to.
"""

from answers import SATISFIABLE, UNSATISFIABLE, is_status

POWERS = [2**8, 2**16, 2**31, 2**32, 2**32, 2**63, 2**64, 2**64, 2**128, 10**39]
BROKEN_NUMBERS = [b"-0", b"00", b"-", b"+", b"--1", b"1-", b"0x1", b"1.", b"1e1", b"-00", b"+0"]
BROKEN_NUMBERS += [b"", b"\xb9", "\u0661".encode(), b"1\x00", b"x", b"1,2", b"s", b"- 1", b"-01"]
BROKEN_LINES = [b"", b" ", b"cx", b"c\r", b"c\t", b"C", b"C x", b"cc", b" c", b"x", b"\r", b"\x00"]
BROKEN_LINES += [b"v", b"v ", b"V 1 0", b"v1", b"vv 1", b"v\t1", b" v 1", b"v 1 ", b"d 1 0"]
BROKEN_LINES += [b"o 3", b"p cnf 1 1", b"s", b"s ", b"SAT", b"UNSATISFIABLE", b"\xef\xbb\xbfc x"]
OTHER_STATUSES = [b"s UNKNOWN", b"s UNKNOWN", b"s satisfiable", b"s unsatisfiable"]
OTHER_STATUSES += [b"s Satisfiable", b"S SATISFIABLE", b"s SATISFIABLE ", b"s  SATISFIABLE"]
OTHER_STATUSES += [b"sSATISFIABLE", b"s SATISFIABL", b"s SATISFIABLES", b"s UNSATISFIABLE 0"]
OTHER_STATUSES += [b"s SATISFIABLE\r", b" s SATISFIABLE", b"s SATISFIABLE\x00", b"s UN SATISFIABLE"]
OTHER_STATUSES += [b"s", b"s\tSATISFIABLE", b"c s SATISFIABLE"]
OTHER_BYTES = b"\n\n  \r\t-+0019:/csv\x00\xff"


def replaced(items, at, item):
    return [*items[:at], item, *items[at + 1 :]]


def inserted(items, at, *more):
    return [*items[:at], *more, *items[at:]]


def any_place(rng, items):
    """A place of an item, or 0 where there is none."""
    return rng.randrange(len(items)) if items else 0


def of_a_variable(rng, words):
    """The place of a number other than the 0; that of the 0 if there is no other."""
    return any_place(rng, words[:-1])


def negated(word):
    return word[1:] if word.startswith(b"-") else b"-" + word


def unknown(rng, words, at):
    """A number, mostly no variable's: that of a place plus a power, the next ones, any digits."""
    word = words[at].lstrip(b"-")
    known = int(word) if word.isdigit() and len(word) < 40 else 1
    digits = rng.randint(1, 40)
    near = [known + rng.choice(POWERS) for _ in range(3)] + [rng.choice(POWERS)]
    near += [len(words), len(words) + 1, 10 * known + rng.randrange(10)]
    near += [rng.randint(10 ** (digits - 1), 10**digits - 1)]
    number = b"%d" % max(1, rng.choice(near))
    if rng.random() < 0.05:
        number += b"0" * rng.choice([100, 5_000])
    return rng.choice([b"", b"-"]) + number


# A text without variables has one number, the 0: these damages then add a number to it.


def variable_doubled(rng, words):
    again = words[of_a_variable(rng, words)] if words[1:] else b"1"
    return inserted(words, any_place(rng, words), again)


def both_signs(rng, words):
    other = negated(words[of_a_variable(rng, words)]) if words[1:] else b"-1"
    return inserted(words, any_place(rng, words), other)


def variable_missing(rng, words):
    at = of_a_variable(rng, words)
    return words[:at] + words[at + 1 :] if words[1:] else inserted(words, 0, b"1")


def one_for_another(rng, words):
    other = words[of_a_variable(rng, words)] if words[1:] else b"1"
    kept = replaced(words, of_a_variable(rng, words), rng.choice([other, negated(other)]))
    return kept if words[1:] else [b"1", b"0"]


def unknown_more(rng, words):
    return inserted(words, any_place(rng, words), unknown(rng, words, of_a_variable(rng, words)))


def unknown_instead(rng, words):
    at = of_a_variable(rng, words)
    return replaced(words, at, unknown(rng, words, at)) if words[1:] else unknown_more(rng, words)


def number_broken(rng, words):
    at = any_place(rng, words)
    of_it = [ahead + words[at] for ahead in (b"0", b"+", b"-", b"-0", b" ")] + [words[at] + b"x"]
    return replaced(words, at, rng.choice(rng.choice([of_it, BROKEN_NUMBERS])))


def number_left_empty(rng, words):
    """Two spaces in a row, or one at the end."""
    return inserted(words, rng.randint(0, len(words)), b"")


def zero_inside(rng, words):
    return inserted(words, any_place(rng, words), b"0")


def zero_twice(rng, words):
    return [*words, b"0"]


def zero_missing(rng, words):
    return words[:-1] if words[1:] else [b"1"]


def zero_moved(rng, words):
    return inserted(words[:-1], any_place(rng, words[:-1]), b"0") if words[1:] else [b"0", b"1"]


WORDS = {
    "a variable doubled": variable_doubled,
    "a variable with both signs": both_signs,
    "a variable missing": variable_missing,
    "a variable in place of another": one_for_another,
    "an unknown variable more": unknown_more,
    "an unknown variable instead": unknown_instead,
    "a number broken": number_broken,
    "a number left empty": number_left_empty,
    "0 inside": zero_inside,
    "0 twice": zero_twice,
    "0 missing": zero_missing,
    "0 moved": zero_moved,
}


def line_doubled(rng, lines):
    at = any_place(rng, lines)
    return inserted(lines, at, lines[at])


def line_dropped(rng, lines):
    at = any_place(rng, lines)
    return lines[:at] + lines[at + 1 :]


def lines_swapped(rng, lines):
    a, b = any_place(rng, lines), any_place(rng, lines)
    lines = list(lines)
    lines[a], lines[b] = lines[b], lines[a]
    return lines


def status_more(rng, lines):
    return inserted(lines, rng.randint(0, len(lines)), rng.choice([SATISFIABLE, UNSATISFIABLE]))


def status_turned(rng, lines):
    """The other `s` line: values behind the unsatisfiable one, none behind the satisfiable one."""
    other = {SATISFIABLE: UNSATISFIABLE, UNSATISFIABLE: SATISFIABLE}
    return [other.get(line, line) for line in lines]


def status_broken(rng, lines):
    other = rng.choice(OTHER_STATUSES)
    return [other if is_status(line) else line for line in lines]


def values_ahead(rng, lines):
    """A `v` line of the text, or one more, ahead of the `s` line."""
    at = rng.randrange(1, len(lines)) if len(lines) > 1 else 0
    return [lines[at], *lines[:at], *lines[at + 1 :]] if at else [b"v 0", *lines]


def values_more(rng, lines):
    return inserted(lines, rng.randint(0, len(lines)), rng.choice([b"v 0", b"v 1", b"v -1 0"]))


def line_broken(rng, lines):
    return inserted(lines, rng.randint(0, len(lines)), rng.choice(BROKEN_LINES))


def space_behind(rng, lines):
    at = any_place(rng, lines)
    return replaced(lines, at, lines[at] + rng.choice([b" ", b" ", b"\r", b"\t", b"  "]))


def space_ahead(rng, lines):
    at = any_place(rng, lines)
    return replaced(lines, at, rng.choice([b" ", b"\t"]) + lines[at])


def space_changed(rng, lines):
    at = any_place(rng, lines)
    parts = lines[at].split(b" ")
    gap = rng.randrange(1, max(2, len(parts)))
    other = rng.choice([b"  ", b"\t", b"", b"\r", b"\x0b", b"\xa0"])
    return replaced(lines, at, b" ".join(parts[:gap]) + other + b" ".join(parts[gap:]))


def case_changed(rng, lines):
    at = any_place(rng, lines)
    first_upper = lines[at][:1].upper() + lines[at][1:]
    return replaced(lines, at, rng.choice([lines[at].lower(), lines[at].upper(), first_upper]))


LINES = {
    "a line doubled": line_doubled,
    "a line dropped": line_dropped,
    "two lines swapped": lines_swapped,
    "an s line more": status_more,
    "the other s line": status_turned,
    "a broken s line": status_broken,
    "a v line ahead": values_ahead,
    "a v line more": values_more,
    "a broken line": line_broken,
    "a space behind": space_behind,
    "a space ahead": space_ahead,
    "a space changed": space_changed,
    "another case": case_changed,
}


def byte_changed(rng, text):
    at = any_place(rng, text)
    return text[:at] + bytes([rng.choice(OTHER_BYTES)]) + text[at + 1 :]


def byte_inserted(rng, text):
    at = rng.randint(0, len(text))
    byte = rng.choice([rng.choice(OTHER_BYTES), rng.randrange(256)])
    return text[:at] + bytes([byte]) + text[at:]


def byte_deleted(rng, text):
    at = any_place(rng, text)
    return text[:at] + text[at + 1 :]


def last_line_feed_missing(rng, text):
    return text[:-1]


def cut(rng, text):
    return text[: any_place(rng, text)]


def returns(rng, text):
    return text.replace(b"\n", b"\r\n")


def line_feed_more(rng, text):
    return text + b"\n"


def any_bytes(rng, text):
    return bytes(rng.choice(OTHER_BYTES) for _ in range(rng.randrange(30)))


TEXTS = {
    "a byte changed": byte_changed,
    "a byte inserted": byte_inserted,
    "a byte deleted": byte_deleted,
    "last line feed missing": last_line_feed_missing,
    "cut": cut,
    "returns ahead of line feeds": returns,
    "a line feed more": line_feed_more,
    "any bytes": any_bytes,
}

# Damages that are each of many sorts, and come up more often.
OF_MANY_SORTS = ["an unknown variable instead", "a number broken"]
OF_MANY_SORTS += ["a broken s line", "a broken line"]
