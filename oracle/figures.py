"""The figures of one more field behind a job file, from document 02, #105.

The field stands apart from the file: a sum or a product, tag, length and contents as in a file.
"""

import jobfile
from calls import NO_FIGURES, Calls

TAGS = (5, 6)


def rule_of(field):
    """Word and numbers if the bytes are exactly one field of a sum or a product, else None."""
    if len(field) < 3 or field[0] not in TAGS:
        return None
    length = jobfile.number(field[1:3], False)
    if len(field) != 3 + length or not jobfile.right_length(field[0], length):
        return None
    return jobfile.WORDS[field[0]], jobfile.numbers_of(field[0], field[3:])


def asked(calls, field):
    """Number and figures of a field on a job."""
    rule = rule_of(field)
    if rule is None:
        return jobfile.BROKEN, NO_FIGURES
    word, numbers = rule
    if word == "linear":
        answer = calls.size(*numbers[:2], numbers[2:])
    else:
        answer = calls.size_mul(*numbers)
    return answer.status, answer.figures


def figures(driver, data, field, store_lits, store_ends):
    """Number; fields of the file, or the one refused; new variables, clauses and literals."""
    calls = Calls(driver, store_lits, store_ends)
    try:
        jobfile.run_fields(calls, data)
    except jobfile.Refused as refusal:
        index, status = refusal.args
        return [status, index, *NO_FIGURES]
    status, made = asked(calls, field)
    return [status, len(list(jobfile.fields(data))), *made]


def answer(driver, data, field):
    """The line that is printed, on the stores of a job file."""
    return " ".join(map(str, figures(driver, data, field, *jobfile.STORES))) + "\n"
