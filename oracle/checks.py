"""Refusals that arguments alone decide, each in the order of its checks; 0 is none."""

from job import MAX_SETTINGS, MAX_SWITCHES, has_code, is_value
from turned import OPERATIONS

MAX_LIST = 64
MAX_TERMS = 6
MAX_COEFFICIENT = 255
MAX_CONSTANT = 1_000_000


def strictly_rising(numbers):
    return all(a < b for a, b in zip(numbers, numbers[1:]))


def check_open(switches):
    return 2 if switches > MAX_SWITCHES else 0


def check_table(job):
    return 7 if job.count >= MAX_SETTINGS else 0


def check_range(job, low, high):
    if not (is_value(low) and is_value(high) and low <= high and has_code(low, high)):
        return 3
    return check_table(job)


def check_list(job, values):
    if not 1 <= len(values) <= MAX_LIST:
        return 4
    if not all(map(is_value, values)):
        return 3
    if not strictly_rising(values):
        return 4
    if not has_code(values[0], values[-1]):
        return 3
    return check_table(job)


def check_binary(job, cond, v_false, v_true):
    if cond >= 2 * job.switches:
        return 6
    if not (is_value(v_false) and is_value(v_true)):
        return 3
    if v_false >= v_true:
        return 5
    if not has_code(v_false, v_true):
        return 3
    return check_table(job)


def check_linear(job, op, constant, terms):
    """Terms are one flat list: setting, coefficient, setting, coefficient, ..."""
    if op not in OPERATIONS:
        return 12
    if len(terms) > 2 * MAX_TERMS or len(terms) % 2 == 1:
        return 9
    settings, coefficients = terms[0::2], terms[1::2]
    if not all(0 <= setting < job.count for setting in settings):
        return 8
    if not strictly_rising(settings):
        return 9
    if not all(1 <= abs(coefficient) <= MAX_COEFFICIENT for coefficient in coefficients):
        return 10
    if abs(constant) > MAX_CONSTANT:
        return 11
    return 0


def check_settings(job, settings):
    return 0 if all(setting < job.count for setting in settings) else 8


def check_assignment(job, assignment):
    if len(assignment) != job.variables or any(byte > 1 for byte in assignment):
        return 16
    return 0
