"""Scripts of calls, answered line by line.

`run` prints what a replay of the script prints. With `verbose`, further lines follow the line of
a call that they belong to:
  height H[ dead]                 greatest height of a column reached (up to the first above 12)
                                  of a sum or product that came so far, or whose figures were asked
                                  for; dead: it ended in a dead end
  setting LOW HIGH OFFSET : LITS  the record of an accepted setting
  clauses [| LITS]..              the clauses that an accepted setting or rule wrote, in order
"""

import re

from calls import Calls
from job import JOB_NUMBERS, RECORD_NUMBERS, job_of

U32 = (0, 2**32 - 1)
I32 = (-(2**31), 2**31 - 1)
U8 = (0, 255)
LENGTH = (0, 131_072)
STORES = (8_192, 4_096)
MAX_STORES = (524_288, 131_072)
MAX_INTEGERS = 4_096
MAX_BYTES = 65_536
BEFORE = 7  # each byte of a slice that is lent for a solver's answer or its print

# Word: types of its fixed integers, then type and greatest count of the list that follows.
FORMS = {
    "stores": ([U32, U32], None, 0),
    "open": ([U32], None, 0),
    "range": ([I32, I32], None, 0),
    "list": ([], I32, MAX_INTEGERS),
    "binary": ([U32, I32, I32], None, 0),
    "linear": ([U32, I32], I32, MAX_INTEGERS),
    "mul": ([U32, U32, U32], None, 0),
    "read": ([U32], U8, MAX_BYTES),
    "clause": ([U32], None, 0),
    "job": ([U32] * 5 + ([U32] * (RECORD_NUMBERS - 3) + [I32] * 3) * 32, None, 0),
    "lits": ([U32, U32], None, 0),
    "ends": ([U32, U32], None, 0),
    "show": ([], None, 0),
    "solution": ([LENGTH], U8, MAX_BYTES),
    "answer": ([LENGTH], U8, MAX_BYTES),
}
FORMS |= {"size": FORMS["linear"], "size_mul": FORMS["mul"]}
assert len(FORMS["job"][0]) == JOB_NUMBERS

INTEGER = re.compile(rb"-?[0-9]+")


class BadLine(Exception):
    """A line that ends the run."""


def integer(token, kind):
    """A decimal integer of a kind, given as its least and greatest value."""
    if not INTEGER.fullmatch(token):
        raise BadLine
    digits = token.lstrip(b"-").lstrip(b"0")
    if len(digits) > 10:
        raise BadLine
    number = int(digits or b"0") * (-1 if token.startswith(b"-") else 1)
    if not kind[0] <= number <= kind[1]:
        raise BadLine
    return number


def parse(line):
    """Word, fixed integers, list."""
    word, *tokens = line.split(b" ")
    name = word.decode("ascii", "replace")
    if name not in FORMS:
        raise BadLine
    fixed, kind, most = FORMS[name]
    count = len(tokens) - len(fixed)
    if not 0 <= count <= most:
        raise BadLine
    head = [integer(token, k) for token, k in zip(tokens, fixed)]
    return name, head, [integer(token, kind) for token in tokens[len(fixed) :]]


def spaced(word, numbers):
    return " ".join([word, *map(str, numbers)])


class Script:
    """The run of a script: a job and stores, and what is printed."""

    def __init__(self, driver, verbose=False):
        self.calls = Calls(driver, *STORES)
        self.verbose = verbose

    def line(self, line):
        """Answers one line with a list of lines to print."""
        word, head, tail = parse(line)
        calls = self.calls
        if word == "stores":
            if any(length > most for length, most in zip(head, MAX_STORES)):
                raise BadLine
            calls.lend(*head)
            return []
        if word == "job":
            calls.job = job_of(head)
            return []
        if word in ("lits", "ends"):
            store = getattr(calls, word)
            if head[0] >= len(store):
                raise BadLine
            store[head[0]] = head[1]
            return []
        if word == "show":
            job = spaced("job", calls.job.numbers())
            return [job, spaced("lits", calls.lits), spaced("ends", calls.ends)]
        if word in ("list", "linear", "read", "size"):
            head = [*head, tail]
        if word in ("solution", "answer"):
            head = [[BEFORE] * head[0], bytes(tail)]
        return self.answered(word, getattr(calls, word)(*head))

    def answered(self, word, answer):
        job = self.calls.job
        numbers = [answer.value, job.variables, job.clauses, job.literals]
        text = spaced(str(answer.status), numbers)
        if word == "clause" and answer.status == 0:
            text = spaced(text + " :", answer.part)
        if answer.lent is not None:
            text = spaced(text + " :", answer.lent)
        if answer.figures is not None:
            text = spaced(text + " :", answer.figures)
        return [text, *(details(answer) if self.verbose else [])]

    def run(self, data, out):
        lines = data.split(b"\n")
        if lines[-1] == b"":
            lines.pop()
        for number, line in enumerate(lines, 1):
            if line == b"":
                continue
            try:
                answer = self.line(line)
            except BadLine:
                out.write(f"bad line {number}\n")
                return
            for text in answer:
                out.write(text + "\n")


def details(answer):
    """The further lines of a verbose run."""
    lines = []
    if answer.reached is not None:
        dead = " dead" if answer.reached.dead else ""
        lines.append(f"height {answer.reached.greatest()}{dead}")
    if answer.setting is not None:
        setting = answer.setting
        head = spaced("setting", [setting.low, setting.high, setting.offset])
        lines.append(spaced(head + " :", setting.used()))
    if answer.clauses is not None:
        lines.append("clauses" + "".join(spaced(" |", clause) for clause in answer.clauses))
    return lines
