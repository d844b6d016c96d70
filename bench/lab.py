"""What packets lose on each way from an old split to a new one, in the lab of examples/linux: some trials of each case, as rows of a table.

    python3 bench/lab.py [--trials N] [--only CASE] [--controller PROGRAM]

Where the controller goes all the way it is killed in the middle, and an agent after that. A trial's number is the seed of what commands take, the same on
each way. It fails where a way didn't come to the new split, or such a run lost a packet.
"""

import argparse
import json
import os
import subprocess
import sys
import tempfile

TOP = os.path.join(os.path.dirname(os.path.abspath(__file__)), "..")
LAB = os.path.join(TOP, "examples", "linux", "lab")
PROGRAM = os.path.join(TOP, "crates", "swanroll", "out", "swanroll")
SIX, TWO_THIRDS, NSFNET = (os.path.join(TOP, "examples", *path) for path in (("network", "problem.json"), ("networks", "two-thirds.json"), ("networks", "nsfnet.json")))
WAYS, KILLED_IN_SIX = ("push", "careful", "run"), ("--slow", "Dallas", "--kill", "6", "--kill-agent", "11")
# Each case's input, its ways, the lab's words besides, and whether its run may lose no packet.
CASES = {
    "six": (SIX, WAYS, KILLED_IN_SIX, True),
    "two-thirds": (TWO_THIRDS, WAYS, ("--kill", "2", "--kill-agent", "3"), True),
    "nsfnet": (NSFNET, WAYS, ("--kill", "15", "--kill-agent", "30"), True),
    "kernel": (SIX, WAYS, (*KILLED_IN_SIX, "--split", "kernel"), True),
    "at-once": (SIX, ("run",), ("--standing", "--settle", "0"), False),
    "waiting": (SIX, ("run",), ("--standing",), False),
}


def trial(controller, name, seed):
    """The figures of one trial's ways."""
    path, ways, words, _ = CASES[name]
    with tempfile.TemporaryDirectory() as folder:
        figures = os.path.join(folder, "figures")
        files = ("--picture", os.path.join(folder, "picture.svg"), "--json", figures)
        done = subprocess.run([sys.executable, "-B", LAB, path, *ways, *words, "--seed", str(seed), "--controller", controller, *files], capture_output=True, text=True)
        if done.returncode:
            raise SystemExit(f"lab: {name}, trial {seed}: {done.stderr.strip()}")
        with open(figures) as file:
            return [json.loads(line) for line in file]


def span(values, form):
    """The least and the greatest, or the one where both are printed alike."""
    least, most = form.format(min(values)), form.format(max(values))
    return least if least == most else f"{least}-{most}"


def row(name, way, trials):
    def total(key):
        return sum(one[key] for one in trials)

    columns = [f"{name}, {way}", span([100 * one["most"] for one in trials], "{:.0f}") + "%", span([one["above"] for one in trials], "{:.1f}"),
               f"{total('lost'):,} of {total('sent'):,}", f"{total('full'):,} / {total('no_entry'):,}", f"{sum(one['lost'] == 0 for one in trials)} of {len(trials)}",
               span([one["seconds"] for one in trials], "{:.1f}")]
    busy = f" the machine was too busy for {total('too_busy')} packets" if total("too_busy") else ""
    return f"| {' | '.join(columns)} |{busy}"


def main():
    words = argparse.ArgumentParser(description=__doc__, formatter_class=argparse.RawDescriptionHelpFormatter)
    words.add_argument("--trials", type=int, default=5)
    words.add_argument("--only", choices=CASES)
    words.add_argument("--controller", default=PROGRAM)
    given = words.parse_args()
    print("| Case, way | Greatest load | s above 105% | Lost of sent | Full link / no entry | Trials without a loss | Time, s |\n|---|---|---|---|---|---|---|", flush=True)
    lost = 0
    for name in [given.only] if given.only else CASES:
        _, ways, _, may_lose_none = CASES[name]
        trials = [trial(given.controller, name, seed) for seed in range(1, given.trials + 1)]
        for number, way in enumerate(ways):
            print(row(name, way, [one[number] for one in trials]), flush=True)
        lost += sum(one[-1]["lost"] for one in trials) if may_lose_none else 0
    if lost:
        raise SystemExit(f"lab: run lost {lost} packets")


if __name__ == "__main__":
    main()
