"""The ends of small linear programs, by `measure linear`, which has to be built.

    python3 tests/linear.py
"""

import os
import subprocess

from outcomes import report

MEASURE = os.path.join(os.path.dirname(os.path.abspath(__file__)), "..", "crates", "measure", "out", "measure")
WIDE = 2 ** 100
# A name, the rows behind the number of unknowns, and the end: the point, the multipliers, or how many exchanges were made.
PROGRAMS = [
    ("at most less than nothing", "1\n1 -1\n", "infeasible 1/1"),
    ("an interval", "1\n1 2\n-1 -1\n", "point 1/1"),
    ("an empty interval", "1\n1 1\n-1 -2\n", "infeasible 1/1 1/1"),
    ("a third", "1\n-3 -1\n", "point 1/3"),
    ("a quotient of a fraction by a negative one", "1\n-9/2 -3/4\n", "point 1/6"),
    ("numbers of which one is 2^200 times the other", f"1\n-1/{WIDE} -1\n{WIDE} 1\n", "overflow 0"),
]


def outcomes():
    for name, program, end in PROGRAMS:
        done = subprocess.run([MEASURE, "linear", "1"], input=program, capture_output=True, text=True)
        found = done.returncode, done.stdout
        yield name, None if found == (0, end + "\n") else f"ends with {found}"


if __name__ == "__main__":
    report("linear", "linear programs", outcomes())
