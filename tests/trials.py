"""Trials give exactly these texts, at each run; what a policy holds back is left behind all turns of a drain; numbers outside their
ranges are no command line.

    python3 tests/trials.py PROGRAM
"""

import os
import re
import subprocess
import sys

from outcomes import report

TEXTS = [
    ("no flow and no event", "--switches 3 --flows 0 --events 0", """trial: switches 3, links 6, flows 0, tunnels 0, k 4, seed 1
plan: steps 0, rate steps 0, scale 1
events: 0, skipped 0, drain 0
operations: 0, entries 0
fullest link: none
finished
"""),
    ("six flows by item", "--switches 9 --flows 6 --events 60 --seed 3 --policy order", """trial: switches 9, links 18, flows 6, tunnels 12, k 4, seed 3
plan: steps 3, rate steps 2, scale 1
events: 60, skipped 8, drain 3
operations: 31, entries 62
fullest link: "s3">"s5" 1643 of 1867
finished
"""),
]
# The trial with all its defaults, as docs/COMMANDS.md has it.
DEFAULTS = """trial: switches 24, links 48, flows 24, tunnels 48, k 4, seed 1
plan: steps 5, rate steps 3, scale 3
events: 1000, skipped 5, drain 4
operations: 164, entries 328
fullest link: "s6">"s8" 8193 of 8337
finished
"""
LARGE = "--k 4 --switches 200 --flows 200 --seed 7 --events 20000"
# The one with most switches, flows and shares of a link.
LARGEST = "--k 64 --switches 1024 --flows 1024 --events 0"
# A trial of 31 operations in three steps, and at which ceilings some are left.
HELD = "--switches 9 --flows 6 --events 60 --seed 3 --policy freeze"
CEILINGS = [("0", 31), ("1", 25), ("2", 23), ("3", 0), ("257", 0), ("", 0)]
# Each number at both ends of its range, and just outside.
RANGES = [("--k", 2, 64), ("--switches", 3, 1024), ("--flows", 0, 1024), ("--seed", 0, 10**18), ("--events", 0, 100000)]
SMALL = {"--switches": "3", "--flows": "0", "--events": "0"}
USAGE = "usage: swanroll COMMAND [--NAME VALUE]\n"


def run(program, words, ceiling=None):
    environment = {name: value for name, value in os.environ.items() if name != "SWANROLL_CEILING"}
    if ceiling is not None:
        environment["SWANROLL_CEILING"] = ceiling
    done = subprocess.run([program, "trial"] + words, input=b"", capture_output=True, env=environment)
    return done.returncode, done.stdout.decode(), done.stderr.decode()


def told(program, words, text):
    """What was wrong with a trial that has this text, or None."""
    for _ in range(2):
        found = run(program, words)
        if found != (0, text, ""):
            return f"gives {found!r}"
    return None


def large(program):
    """What was wrong with a large trial: its text is the same at each run, ends finished, and its fullest link is at most full."""
    first, again = run(program, LARGE.split()), run(program, LARGE.split())
    lines = first[1].split("\n")
    most = re.search(r" (\d+) of (\d+)$", lines[4]) if len(lines) == 7 else None
    if first != again or first[0] != 0 or most is None or int(most[1]) > int(most[2]):
        return f"gives {first!r}, and then {again!r}"
    if (lines[0], lines[5:]) != ("trial: switches 200, links 400, flows 200, tunnels 400, k 4, seed 7", ["finished", ""]):
        return f"gives {first[1]!r}"
    return None


def largest(program):
    """What was wrong with the largest network, or None: it is drawn whole, has a plan, and its rollout ends finished."""
    status, out, notes = run(program, LARGEST.split())
    first = "trial: switches 1024, links 2048, flows 1024, tunnels 2048, k 64, seed 1\n"
    right = (status, notes) == (0, "") and out.startswith(first) and out.endswith("\nfinished\n")
    return None if right else f"status {status}, {out!r}, {notes!r}"


def held(program, ceiling, left):
    """What was wrong with a trial of which so many operations are left: its drain has a turn for each operation and one more, or, where none
    is left, the trial is that of the policy by chains."""
    status, out, notes = run(program, HELD.split(), ceiling)
    if left == 0:
        plain = run(program, HELD.replace("freeze", "critical").split())
        return None if (status, out, notes) == plain else f"gives {out!r}, and without a ceiling {plain!r}"
    numbers = re.search(r"drain (\d+)\noperations: (\d+), ", out)
    if (status, notes) != (0, "") or numbers is None or int(numbers[1]) != int(numbers[2]) + 1 or not out.endswith(f"\nunfinished: {left}\n"):
        return f"status {status}, {out!r}, {notes!r}"
    return None


def ranged(program, name, number, fits):
    """What was wrong with a number that fits its range, or doesn't, or None."""
    words = [word for pair in {**SMALL, name: str(number)}.items() for word in pair]
    status, _, notes = run(program, words)
    return None if (status, notes) == ((0, "") if fits else (2, USAGE)) else f"status {status}, {notes!r}"


def cases(program):
    for name, words, text in TEXTS:
        yield name, told(program, words.split(), text)
    yield "all defaults", told(program, [], DEFAULTS)
    yield "200 switches", large(program)
    yield "1024 switches and flows", largest(program)
    for ceiling, left in CEILINGS:
        yield f"a ceiling of {ceiling!r}", held(program, ceiling, left)
    for name, low, high in RANGES:
        for number, fits in ((low, True), (high, True), (high + 1, False)) + (((low - 1, False),) if low else ()):
            yield f"{name} {number}", ranged(program, name, number, fits)


if __name__ == "__main__":
    report("trials", "trials and ranges", cases(sys.argv[1]))
