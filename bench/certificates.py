"""Tells of each network how many rate steps are shown to be the fewest, and by what, and times the proof and its check beside `plan`.

    python3 bench/certificates.py [--program PROGRAM] [--drawn N] [--seed N] [--runs N]

Over `examples/networks` and over problems as `tests/planners.py` draws them, 50 by default. It prints a table: the network, its rate steps, what shows
that none fewer will do or why nothing does, and the processor's seconds of `plan`, of `least` and of `check`, the least of so many runs.
"""

import argparse
import collections
import glob
import json
import os
import random
import subprocess
import sys
import tempfile

HERE = os.path.dirname(os.path.abspath(__file__))
sys.path.insert(0, os.path.join(HERE, "..", "tests"))

from measure import PROGRAM, run_once
from planners import drawn


def networks(count, seed):
    """Names and problems."""
    for path in sorted(glob.glob(os.path.join(HERE, "..", "examples", "networks", "*.json"))):
        with open(path, encoding="utf-8") as file:
            given = json.load(file)
        if "problem" not in given:
            yield os.path.basename(path), given
    rng = random.Random(seed)
    for number in range(count):
        yield f"drawn {number}", drawn(rng)


def kind_of(said):
    return "link" if "link" in said else f"rows, {len(said['rows'])}" if "rows" in said else "nothing wanted"


def seconds(program, command, path, statuses, runs):
    return min(run_once([command], path, program, statuses)[1] for _ in range(runs))


def row_of(program, name, problem, runs, folder):
    """The cells of a network's row."""
    path, shown = os.path.join(folder, "problem.json"), os.path.join(folder, "shown.json")
    with open(path, "w", encoding="utf-8") as file:
        json.dump(problem, file)
    with open(path, "rb") as source:
        done = subprocess.run([program, "least"], stdin=source, capture_output=True)
    if done.returncode:
        return name, "", done.stderr.decode().strip(), "", "", ""
    said = json.loads(done.stdout)["least"]
    with open(shown, "wb") as file:
        file.write(done.stdout)
    planned, proved = (seconds(program, command, path, (0,), runs) for command in ("plan", "least"))
    checked = seconds(program, "check", shown, (0,), runs)
    return name, said["steps"] + 1, kind_of(said), f"{planned:.3f}", f"{proved:.3f}", f"{checked:.3f}"


def main():
    words = argparse.ArgumentParser(description=__doc__, formatter_class=argparse.RawDescriptionHelpFormatter)
    words.add_argument("--program", default=PROGRAM)
    words.add_argument("--drawn", type=int, default=50)
    words.add_argument("--seed", type=int, default=1)
    words.add_argument("--runs", type=int, default=5)
    given = words.parse_args()
    met = collections.Counter()
    print("| Network | Rate steps | Shown by | `plan`, s | `least`, s | `check`, s |")
    print("|---|---|---|---|---|---|")
    with tempfile.TemporaryDirectory() as folder:
        for name, problem in networks(given.drawn, given.seed):
            row = row_of(given.program, name, problem, given.runs, folder)
            met[str(row[2]).split(",")[0].split(":")[0]] += 1
            print("| " + " | ".join(map(str, row)) + " |", flush=True)
    print(f"in all: {dict(sorted(met.items()))}")


if __name__ == "__main__":
    main()
