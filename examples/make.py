#!/usr/bin/env python3
"""Writes the example job files from the calls that they hold: examples/make.py [DIRECTORY]."""

import sys
from pathlib import Path

sys.path.insert(0, str(Path(__file__).resolve().parent.parent / "oracle"))
from jobfiles import field
from turned import GE, GT, LE, LT, NE

SHEETS = {
    # settings 0 rev ceiling (hundreds a minute), 1 fuel trim, 2 injection step
    "rev_ceiling": [
        ("open", 0),
        ("range", 0, 99),
        ("range", -10, 10),
        ("list", 0, 5, 10, 20),
        ("linear", GE, -40, 0, 1, 2, -1),  # ceiling - step is at least 40
        ("linear", NE, 0, 1, 1),  # the trim is not 0
        ("linear", GE, 70, 0, -1, 1, -2),  # ceiling + 2 trim is at most 70
    ],
    # switch 0 raw-water pump; settings 0 rev limit by the pump, 1 rev ceiling
    "raw_water": [
        ("open", 1),
        ("binary", 0, 60, 85),
        ("range", 0, 99),
        ("linear", GE, 0, 0, 1, 1, -1),  # the ceiling is at most the limit
        ("linear", GE, -70, 1, 1),  # the ceiling is at least 70
    ],
    # settings 0 fuel step, 1 air step, 2 torque
    "torque": [
        ("open", 0),
        ("range", 0, 15),
        ("range", 3, 12),
        ("range", 0, 180),
        ("mul", 0, 1, 2),  # torque is fuel times air
        ("linear", GE, -100, 2, 1),  # torque is at least 100
        ("linear", GE, 0, 0, -1, 1, 1),  # fuel is at most air
    ],
    # settings 0 rev ceiling, 1 fuel trim
    "over_constrained": [
        ("open", 0),
        ("range", 0, 99),
        ("range", -10, 10),
        ("linear", GE, -60, 0, 1),  # the ceiling is at least 60
        ("linear", GE, 45, 0, -1, 1, -1),  # ceiling + trim is at most 45
    ],
    # settings 0 fuel, 1 boost step
    "fuel_limit": [
        ("open", 0),
        ("range", 0, 99),
        ("range", 0, 30),
        ("linear", LE, -40, 0, 1),  # fuel is at most 40
        ("linear", LT, 0, 0, 1, 1, -2),  # fuel is below twice the boost
        ("linear", GT, -30, 0, 1),  # fuel is above 30
    ],
}


def main():
    directory = Path(sys.argv[1] if len(sys.argv) > 1 else Path(__file__).parent)
    for name, calls in SHEETS.items():
        (directory / f"{name}.job").write_bytes(b"".join(field(*call) for call in calls))


if __name__ == "__main__":
    main()
