"""The job file and its print: fields in, DIMACS or one refusal out."""

from calls import Calls

MAX_BYTES = 8_192
STORES = (8_192, 4_096)
BROKEN = 18
WORDS = {1: "open", 2: "range", 3: "list", 4: "binary", 5: "linear", 6: "mul"}


class Refused(Exception):
    """A field's index and number."""


def number(data, signed):
    return int.from_bytes(data, "big", signed=signed)


def signed_pairs(data):
    return [number(data[at : at + 2], True) for at in range(0, len(data), 2)]


def term_list(data):
    """Setting (1 byte) and coefficient (2 bytes) of each term, in one flat list."""
    terms = []
    for at in range(0, len(data), 3):
        terms += [data[at], number(data[at + 1 : at + 3], True)]
    return terms


def numbers_of(tag, data):
    """The numbers of a field whose length is right, in one flat list."""
    if tag in (1, 6):
        return list(data)
    if tag == 4:
        return [number(data[:2], False), *signed_pairs(data[2:])]
    if tag == 5:
        return [data[0], number(data[1:5], True), *term_list(data[5:])]
    return signed_pairs(data)


def right_length(tag, length):
    if tag == 3:
        return length % 2 == 0
    if tag == 5:
        return length >= 5 and (length - 5) % 3 == 0
    return length == {1: 1, 2: 4, 4: 6, 6: 3}[tag]


def fields(data):
    """Word and numbers of each field in turn; one that cannot be read is refused."""
    index = at = 0
    while at < len(data) or index == 0:
        tag = data[at] if at < len(data) else 0
        if tag not in WORDS or (tag == 1) != (index == 0):
            raise Refused(index, BROKEN)
        length = number(data[at + 1 : at + 3], False)
        contents = data[at + 3 : at + 3 + length]
        if at + 3 + length > len(data) or not right_length(tag, length):
            raise Refused(index, BROKEN)
        yield WORDS[tag], numbers_of(tag, contents)
        at += 3 + length
        index += 1


def call(calls, word, numbers):
    """Makes the call of a field."""
    if word == "list":
        return calls.list(numbers)
    if word == "linear":
        return calls.linear(*numbers[:2], numbers[2:])
    return getattr(calls, word)(*numbers)


def run_fields(calls, data):
    """Field after field: tag, length, call."""
    if len(data) > MAX_BYTES:
        raise Refused(0, BROKEN)
    for index, (word, numbers) in enumerate(fields(data)):
        status = call(calls, word, numbers).status
        if status != 0:
            raise Refused(index, status)


def dimacs(job, lits, ends):
    """The print of a job and its stores; the header has the job's variable and clause count."""
    lines = [f"p cnf {job.variables} {job.clauses}"]
    for k in range(job.clauses):
        clause = lits[ends[k] : ends[k + 1]]
        words = [str(-(lit // 2 + 1) if lit % 2 else lit // 2 + 1) for lit in clause]
        lines.append(" ".join([*words, "0"]))
    return lines


def refusal_line(refusal):
    return "refused {} {}".format(*refusal.args)


def answer(driver, data, kind=Calls):
    """The print of a job file, and its calls on the stores of a job file."""
    calls = kind(driver, *STORES)
    try:
        run_fields(calls, data)
        lines = dimacs(calls.job, calls.lits, calls.ends)
    except Refused as refusal:
        lines = [refusal_line(refusal)]
    return "".join(line + "\n" for line in lines).encode(), calls


def run(driver, data, out):
    out.write(answer(driver, data)[0].decode())
