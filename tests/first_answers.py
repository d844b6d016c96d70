"""The small program, which ./swanroll compiles for the commands that make a text of their input where nothing is proved, answers as the whole one: the same bytes,
notes and status, for each example and for words that are none. Other commands it doesn't know.

    python3 tests/first_answers.py PROGRAM SMALL
"""

import pathlib
import subprocess
import sys

from outcomes import report

EXAMPLES = pathlib.Path(__file__).resolve().parent.parent / "examples"
LINES = ["plan", "plan --planner fewest", "check", "loads", "explain", "back", "least", "sim", "sim --policy order", "rehearse --seed 3 --events 40", "rehearse --events 40 --policy freeze"]
NONE = ["", "plans", "plan --planner", "plan --planner best", "check --policy order", "sim --policy other", "sim --policy order --policy order", "rehearse --events 100001", "rehearse --seed -1"]
OTHERS = ["trial", "report", "run", "drain", "rollback", "held", "agent"]
USAGE = (2, b"", b"usage: swanroll COMMAND [--NAME VALUE]\n")


def answer(program, line, given, ceiling=None):
    environment = {} if ceiling is None else {"SWANROLL_CEILING": ceiling}
    done = subprocess.run([program, *line.split()], input=given, capture_output=True, env=environment)
    return done.returncode, done.stdout, done.stderr


def outcomes(program, small):
    inputs = {path.name: path.read_bytes() for path in sorted(EXAMPLES.glob("*.json"))}
    inputs |= {"nothing": b"", "no text": b"\xff{}", "half": b'{"switches":[', "above the limit": b" " * (16_777_216 + 1)}
    for name, given in inputs.items():
        for line in LINES if name != "above the limit" else LINES[:1]:
            yield f"{line} < {name}", None if answer(small, line, given) == answer(program, line, given) else "they differ"
    for ceiling in ("0", "1", "257"):
        line, given = "sim --policy freeze", inputs["rehearsal.json"]
        yield f"{line}, ceiling {ceiling}", None if answer(small, line, given, ceiling) == answer(program, line, given, ceiling) else "they differ"
    for line in NONE:
        yield f"no command line: {line}", None if answer(small, line, b"{}") == answer(program, line, b"{}") == USAGE else "it is one to one of them"
    for line in OTHERS:
        yield f"not its own: {line}", None if answer(small, line, b"{}") == USAGE else "it takes it"


if __name__ == "__main__":
    report("first answers", "answers", outcomes(*sys.argv[1:3]))
