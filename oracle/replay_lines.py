"""Lines for the program crate replay_lines: each is a script of its own, most cannot be read.

There are no settings in any, so that products and their figures are refused.
"""

from badlines import BAD_LINES, FIGURES_LINES, LONG_LINES
from job import BITS, JOB_NUMBERS, RECORD_NUMBERS
from script import MAX_BYTES, MAX_INTEGERS

U32, I32 = 2**32 - 1, 2**31 - 1

# At the bounds: these can be read.
GOOD_LINES = [
    "",
    "open 64",
    "open 65",
    f"open {U32}",
    "open -0",
    "open 000",
    "open " + "0" * 3_000 + "3",
    "range -0 00007",
    f"range {-I32 - 1} {I32}",
    f"range -000000000000{I32 + 1} 0000000000000{I32}",
    "list",
    "list -0",
    f"list {-I32 - 1} {I32}",
    "list" + " 0" * MAX_INTEGERS,
    f"binary {U32} {I32} {-I32 - 1}",
    "mul 0 0 0",
    f"mul {U32} 00 -0",
    "linear 0 0",
    "linear 00 -0 -00",
    "linear 1 0 0 1",
    "linear 2 -3",
    f"linear {U32} {I32}",
    "linear 3 0",
    "linear 4 -0",
    "linear 5 -0 0 1",
    f"linear 6 {-I32 - 1} {I32} {-I32 - 1} {I32}",
    "linear 0 0" + " 0" * (MAX_INTEGERS - 1),
    "linear 0 1000001" + " 0" * MAX_INTEGERS,
    "read 0",
    "read 0 255",
    "read 0 -0 000000255",
    f"read {U32} 0",
    "read 0" + " 0" * MAX_BYTES,
    f"clause {U32}",
    "stores 0 0",
    "stores 524288 131072",
    f"lits 8191 {U32}",
    f"ends 4095 {U32}",
    "job" + " 0" * JOB_NUMBERS,
    "show",
    "solution 0",
    "solution -0",
    "solution 0003",
    "solution 3 255 -0 000000010",
    "solution 0 115 32 83 65 84 73 83 70 73 65 66 76 69 10 118 32 48 10",
    "solution 131072",
    "solution 0" + " 0" * MAX_BYTES,
    "answer 0",
    "answer -0",
    "answer 18",
    "answer 00017",
    "answer 19 -0",
    "answer 3 255 000 01",
]

WORDS = ["Show", "shows", "sho", "s", "show0", "showshow", "showshows", "s" * 300]
WORDS += ["\u00e4", "-1", "0"]
TOKENS = ["", "-", "--0", "-0-", "0-", "+0", "1.", "0x1", "1_0", "\t0", "0\t", "0\r", "\0"]
TOKENS += ["\u0660", ":", "/"]
LARGE = [U32 + 1, 10**10 - 1, 10**10, 10**11, 2**64 - 1, 2**64, 10**30, -(10**30)]

# Sums that cannot be read: an operation, a constant or an entry outside its type, a list too long.
MUL = ["mul", "mul 0 0", "mul 0 0 0 0", "mul 0 0 x", "mul -1 0 0", f"mul 0 {U32 + 1} 0", "mul 0 0  0"]
LINEAR = ["linear  0 0", "linear x 0", "linear 0 x", "linear - 0", "linear 0 -", "linear 0 0 1 x"]
LINEAR += [f"linear {n} 0" for n in (-1, U32 + 1, 10**11)]
LINEAR += [f"linear 0 {n}" for n in (I32 + 1, U32, -I32 - 2)]
LINEAR += [f"linear 0 0 {n}" for n in (I32 + 1, U32, -I32 - 2)]
LINEAR += [f"linear 0 0 0 {n}" for n in (I32 + 1, U32, -I32 - 2)]
LINEAR += ["linear 0 0" + " 0" * (MAX_INTEGERS + 1), "linea 0 0", "linears 0 0", "Linear 0 0"]

# Figures, at the bounds: these can be read.
FIGURES = ["size 0 0", "size 00 -0 -00", "size 0 3", "size 1 0 0 1", "size 2 -3", "size 3 0"]
FIGURES += ["size 4 -0", "size 5 -0 0 1", f"size {U32} {I32}", f"size 0 {-I32 - 1}"]
FIGURES += [f"size 6 {-I32 - 1} {I32} {-I32 - 1} {I32}", "size_mul 0 0 0"]
FIGURES += [f"size_mul {U32} 00 -0", f"size_mul 0 {U32} {U32}"]


def job_line(at, number):
    """The job of all 0 with one other number."""
    numbers = [0] * JOB_NUMBERS
    numbers[at] = number
    return "job " + " ".join(map(str, numbers))


def job_lines():
    """Each count, and each field of the first and the last record, at its bounds and past them."""
    fields = [*range(5), *range(5, 5 + RECORD_NUMBERS, 4), JOB_NUMBERS - 16, JOB_NUMBERS - 4]
    unsigned = [job_line(at, n) for at in fields for n in (U32, U32 + 1, -1)]
    first, last = 5 + BITS + 1, JOB_NUMBERS - 1
    places = [first, first + 1, first + 2, last - 2, last]
    signed = [job_line(at, n) for at in places for n in (I32, I32 + 1, -I32 - 1, -I32 - 2)]
    zeros = " 0" * (JOB_NUMBERS - 1)
    return [*unsigned, *signed, "job" + zeros, "job 0 0" + zeros, "job" + zeros + " x"]


def lines():
    """All of them, as bytes; none holds a line feed, and the last one can be read."""
    texts = [*GOOD_LINES, *BAD_LINES, *WORDS, *(word + " 0" for word in WORDS)]
    texts += [f"open {token}" for token in TOKENS + LARGE] + [f"range 0 {n}" for n in LARGE]
    texts += [f"list 1 {token} 2" for token in TOKENS] + [f"read 0 {token}" for token in TOKENS]
    texts += ["lits 8192 0", "ends 4096 0", "lits 0", "lits 0 0 0", "ends -1 0", f"ends {U32} 0"]
    texts += ["clause 0 0", "binary 0 0 1 2", f"binary {U32 + 1} 0 1", f"binary 0 {I32 + 1} 0"]
    texts += ["stores", "stores 1 2 3", "stores -1 0", "stores 524289 131072", "stores 0 131073"]
    texts += ["read -1", LONG_LINES[0], "list" + " 0" * (MAX_INTEGERS + 1)]
    texts += [f"linear 0 0 {token}" for token in TOKENS + LARGE] + LINEAR + MUL
    for word in ("solution", "answer"):
        texts += [f"{word} {token}" for token in TOKENS + LARGE]
        texts += [f"{word} 2 1 {token} 0" for token in TOKENS + LARGE]
    texts += [*FIGURES, *FIGURES_LINES, *(f"size 0 0 {token}" for token in TOKENS + LARGE)]
    texts += [f"size_mul 0 {token} 0" for token in TOKENS + LARGE]
    texts += [*job_lines(), "open 7"]
    return [text.encode() for text in texts]
