"""The job as numbers: counts, 32 setting records, and when they are well formed."""

from dataclasses import dataclass
from typing import NamedTuple

MAX_SWITCHES = 64
MAX_SETTINGS = 32
MAX_VARIABLES = 65_535
MAX_STORE = 16_777_216
MAX_VALUE = 4_095
MAX_CODE = 4_095
BITS = 12

RECORD_NUMBERS = BITS + 4
JOB_NUMBERS = 5 + MAX_SETTINGS * RECORD_NUMBERS


class Setting(NamedTuple):
    """One record: 12 places for literals, how many are used, low, high, offset."""

    lits: tuple
    length: int
    low: int
    high: int
    offset: int

    def numbers(self):
        return [*self.lits, self.length, self.low, self.high, self.offset]

    def used(self):
        return self.lits[: self.length]


SPARE = Setting((0,) * BITS, 0, 0, 0, 0)


@dataclass(frozen=True)
class Job:
    """Counts of switches, variables, clauses, literals and settings, and the records."""

    switches: int = 0
    variables: int = 0
    clauses: int = 0
    literals: int = 0
    count: int = 0
    settings: tuple = (SPARE,) * MAX_SETTINGS

    def numbers(self):
        head = [self.switches, self.variables, self.clauses, self.literals, self.count]
        return head + [n for setting in self.settings for n in setting.numbers()]


def job_of(numbers):
    """The job that a list of JOB_NUMBERS numbers says."""
    settings = []
    for at in range(5, JOB_NUMBERS, RECORD_NUMBERS):
        record = numbers[at : at + RECORD_NUMBERS]
        settings.append(Setting(tuple(record[:BITS]), *record[BITS:]))
    return Job(*numbers[:5], tuple(settings))


def offset_of(low):
    return low if low < 0 else 0


def is_value(number):
    return -MAX_VALUE <= number <= MAX_VALUE


def has_code(low, high):
    """Whether high's code fits, the offset taken off."""
    return high - offset_of(low) <= MAX_CODE


def well_formed_setting(setting, variables):
    """Bounds, offset and bit count as for a new setting, every literal's variable in the job."""
    low, high = setting.low, setting.high
    if not (is_value(low) and is_value(high) and low <= high and has_code(low, high)):
        return False
    if setting.offset != offset_of(low):
        return False
    if setting.length != (high - setting.offset).bit_length():
        return False
    if any(setting.lits[setting.length :]):
        return False
    return all(lit < 2 * variables for lit in setting.used())


def well_formed(job, store_lits, store_ends):
    """Whether a job is well formed beside stores of these lengths."""
    if job.switches > MAX_SWITCHES or job.variables > MAX_VARIABLES:
        return False
    if job.count > MAX_SETTINGS or job.variables < job.switches:
        return False
    if job.literals > store_lits or job.clauses + 1 > store_ends:
        return False
    kept, spare = job.settings[: job.count], job.settings[job.count :]
    if any(setting != SPARE for setting in spare):
        return False
    return all(well_formed_setting(setting, job.variables) for setting in kept)
