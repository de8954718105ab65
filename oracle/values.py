"""What the program values prints of a job file and a solver's text, from document 02, #103, #104.

Each setting's number, then each switch's answer; `none` where the solver found none; or one
refusal, the file's own first, then the text's, then that of an assignment which leaves a clause
unsatisfied.
"""

import jobfile
from calls import Calls

MAX_TEXT = 1_048_576
TOO_LONG = f"the answer is longer than {MAX_TEXT} bytes\n"


def choice(calls, assignment):
    """A line for each setting, then one for each switch."""
    numbers = [calls.read(setting, assignment).value for setting in range(calls.job.count)]
    words = ["yes" if value else "no" for value in assignment[: calls.job.switches]]
    settings = [f"setting {index} {number}" for index, number in enumerate(numbers)]
    return settings + [f"switch {index} {word}" for index, word in enumerate(words)]


def lines_of(calls, data, text):
    """The file's calls; the text, read into a slice as long as the variable count; the clauses."""
    jobfile.run_fields(calls, data)
    told = calls.solution([0] * calls.job.variables, text)
    status = told.status
    if told.value:
        status = calls.check_clauses(told.lent)
    if status != 0:
        raise jobfile.Refused(len(list(jobfile.fields(data))), status)
    return choice(calls, told.lent) if told.value else ["none"]


def answer(driver, data, text):
    """What is printed; nothing if the text is too long."""
    if len(text) > MAX_TEXT:
        return b""
    try:
        lines = lines_of(Calls(driver, *jobfile.STORES), data, text)
    except jobfile.Refused as refusal:
        lines = [jobfile.refusal_line(refusal)]
    return "".join(line + "\n" for line in lines).encode()
