"""Random arguments of calls: bounds and their neighbours come up often."""

from heights import linear_reached, mul_reached
from job import MAX_CODE, MAX_SETTINGS, MAX_VALUE
from turned import OPERATIONS

EDGE_VALUES = [-4096, -4095, -4094, -2048, -1, 0, 1, 2047, 2048, 4094, 4095, 4096]
EDGE_COEFFICIENTS = [-256, -255, -254, -128, -1, 0, 1, 127, 128, 254, 255, 256]
EDGE_CONSTANTS = [-1_000_001, -1_000_000, -999_999, 999_999, 1_000_000, 1_000_001]
EDGE_INTEGERS = [-(2**31), 2**31 - 1]
EDGE_NUMBERS = [31, 32, 63, 64, 65, 127, 128, 65_535, 65_536, 2**31, 2**32 - 1]


def known(job):
    """How many settings there are to choose from; a given job's count may be any number."""
    return min(job.count, MAX_SETTINGS)


def small_range(rng):
    """A range of at most about a hundred values."""
    low = rng.choice([0, 0, 0, 1, rng.randint(-20, 20), rng.randint(-300, 300)])
    width = rng.choice([0, 1, 2, 3, 6, 7, rng.randint(0, 15), rng.randint(0, 100)])
    return low, low + width


def wide_range(rng):
    """Any range within the bounds."""
    low = rng.randint(-MAX_VALUE, MAX_VALUE)
    high = rng.randint(low, min(MAX_VALUE, MAX_CODE + min(low, 0)))
    return low, high


def edge_range(rng):
    """A range at or over the bounds."""
    low = rng.choice(EDGE_VALUES + EDGE_INTEGERS + [rng.randint(-5, 5)])
    near = [low - 1, low, low + 1, low + 4094, low + 4095, low + 4096]
    high = rng.choice([n for n in near if -(2**31) <= n < 2**31] + EDGE_VALUES)
    return low, high


def value_list(rng):
    """A list within the bounds: few values, many, near together or far apart."""
    count = rng.choice([1, 2, 2, 3, 4, rng.randint(1, 12), 63, 64])
    spread = rng.choice([count, count + 1, 2 * count, 4 * count, 300, 4000])
    low = rng.choice([0, 0, 1, rng.randint(-60, 60), -MAX_VALUE])
    spread = min(max(spread, count), MAX_CODE)
    return sorted(rng.sample(range(low, low + spread), count))


def edge_list(rng):
    """A list at or over a bound: count, values, order, width."""
    values = value_list(rng)
    fault = rng.randrange(6)
    if fault == 0:
        return []
    if fault == 1:
        count = rng.choice([64, 65, 66, 100])
        return list(range(count))
    if fault == 2:
        return [-4095, *range(rng.choice([-3, 0, 1]), 2)][: rng.randint(1, 3)]
    values[rng.randrange(len(values))] = rng.choice(EDGE_VALUES + EDGE_INTEGERS + values)
    return values


def binary_values(rng):
    low, high = rng.choice([small_range, small_range, wide_range])(rng)
    return (low, high) if low < high else (low, low + 1)


def switch_literal(rng, job):
    return rng.randrange(min(2 * job.switches, 2**32)) if job.switches else 0


def coefficient(rng):
    magnitude = rng.choice([1, 1, 1, 2, 3, 4, 5, 6, 8, rng.randint(1, 20), rng.randint(1, 255)])
    return magnitude * rng.choice([1, -1])


def sparse_coefficient(rng):
    """Low bits and high bits with a gap between: carries run out before the next literals."""
    magnitude = rng.choice([2, 4, 6, 64, 65, 66, 96, 128, 129, 130, 131, 132, 192, 193])
    return magnitude * rng.choice([1, -1])


def terms(rng, job, draw=coefficient):
    """Flat terms of a sum within the bounds."""
    count = min(rng.choice([0, 1, 2, 2, 3, 3, 4, 5, 6]), known(job))
    settings = sorted(rng.sample(range(known(job)), count))
    return [n for setting in settings for n in (setting, draw(rng))]


def constant(rng, job, flat):
    """A constant: met by some values of the settings, near that, or any."""
    total = 0
    for setting, coef in zip(flat[0::2], flat[1::2]):
        record = job.settings[setting]
        total += coef * rng.randint(record.low, record.high)
    near = [-total, -total, -total + rng.randint(-3, 3), rng.randint(-50, 50)]
    picked = rng.choice(near + [0, rng.randint(-1_000_000, 1_000_000)])
    return max(-1_000_000, min(1_000_000, picked))


def edge_linear(rng, job):
    """Operation, constant and flat terms with a fault or at a bound."""
    flat = terms(rng, job)
    op, number = rng.choice(OPERATIONS), constant(rng, job, flat)
    fault = rng.randrange(7)
    if fault == 0:
        op = rng.choice([6, 7, 255, 2**32 - 1])
    if fault == 1:
        flat = flat + [rng.randrange(32)]
    if fault == 2:
        flat = [n for setting in range(7) for n in (setting, 1)]
    if fault == 3:
        number = rng.choice(EDGE_CONSTANTS + EDGE_INTEGERS)
    if flat and fault >= 4:
        at = rng.randrange(len(flat))
        edges = [-1, *EDGE_NUMBERS[:7], job.count] if at % 2 == 0 else EDGE_COEFFICIENTS
        flat[at] = rng.choice(edges + EDGE_INTEGERS)
    return op, number, flat


def sought_linear(rng, job, wanted, ops=OPERATIONS, draw=coefficient, tries=200):
    """A sum whose columns are as wanted, or the last one tried."""
    for _ in range(tries):
        flat = terms(rng, job, draw)
        op, number = rng.choice(ops), constant(rng, job, flat)
        pairs = [(job.settings[s], c) for s, c in zip(flat[0::2], flat[1::2])]
        if wanted(linear_reached(op, number, pairs)):
            break
    return op, number, flat


def product(rng, job):
    """Three settings, often coinciding."""
    x, y, m = (rng.randrange(known(job)) for _ in range(3))
    return rng.choice([(x, y, m), (x, y, m), (x, x, m), (x, y, x), (x, y, y), (x, x, x)])


def sought_product(rng, job, wanted, tries=200):
    """A product whose settings and columns are as wanted, or the last one tried."""
    for _ in range(tries):
        chosen = product(rng, job)
        if wanted(chosen, mul_reached(*[job.settings[s] for s in chosen])):
            break
    return chosen


def assignment(rng, job):
    """As long as the variable count, if a line can hold that."""
    length = job.variables if job.variables <= 65_536 else rng.randrange(9)
    return [rng.randrange(2) for _ in range(length)]


def edge_assignment(rng, job):
    """A wrong length or a byte other than 0 and 1."""
    values = assignment(rng, job)
    if values and rng.randrange(2):
        values[rng.randrange(len(values))] = rng.choice([2, 3, 128, 254, 255])
        return values
    return rng.choice([values[:-1], values + [0], []])
