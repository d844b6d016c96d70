"""Times how long a rollout takes to come to a stand, beside how long it takes to finish, from where its controller was killed.

    python3 bench/draining.py [--program PROGRAM] [--drawn N] [--seed N]

Over `examples/networks` and over drawn networks as of `planners.py`. Each plan is rolled out by `run` over switches on loopback, which carry out what they are sent
20 ms later, and answer then; the controller is killed once they have carried out a quarter, a half or three quarters of the operations. Then `drain` is timed, and
once more where nothing is in flight, which is what a start takes; and, of another rollout that was killed there, `run`.
"""

import argparse
import glob
import importlib.util
import json
import os
import random
import statistics
import sys
import time

HERE = os.path.dirname(os.path.abspath(__file__))
sys.path.insert(0, os.path.join(HERE, "..", "tests"))

from carried import Items
from journal_files import BEGIN, DONE, entries_in
from measure import PROGRAM
from planners import run
from rolling import rollout

# The networks, switches and times of the planners, which stand beside this and have the name of a test.
PLACE = importlib.util.spec_from_file_location("beside", os.path.join(HERE, "planners.py"))
beside = importlib.util.module_from_spec(PLACE)
PLACE.loader.exec_module(beside)

PARTS = (0.25, 0.5, 0.75)


def carried_out(one):
    return sum(number for switch in one.switches.values() for _, number in list(switch.held.values()))


def killed(one, part):
    """Kills a run once its switches have carried out a part of the operations, and waits until they have dealt with what came."""
    started, wanted = one.fed(), part * Items(one.document).operations
    while started.poll() is None and carried_out(one) < wanted:
        time.sleep(0.001)
    started.kill()
    one.ended(started)
    for switch in one.switches.values():
        switch.settle()


def seconds(one, words):
    begun = time.perf_counter()
    end = one.ended(one.start(words))
    if end[0]:
        sys.exit(f"draining: {words} ended with {end}")
    return time.perf_counter() - begun


def stands(one):
    """How many operations the journal has as settled, and how many as in flight."""
    entries = entries_in(one.image() or b"")
    settled = sum(entry[0] == DONE for entry in entries)
    return settled, sum(entry[0] == BEGIN for entry in entries) - settled


def seconds_behind(program, text, part):
    """Behind a run that was killed there: what was settled and in flight, the seconds of a drain, of a drain with nothing in flight, and of a run to the end."""
    with rollout(program, text, fates=beside.far) as one:
        killed(one, part)
        stood = stands(one)
        drained, idle = seconds(one, "drain"), seconds(one, "drain")
    with rollout(program, text, fates=beside.far) as one:
        killed(one, part)
        return *stood, drained, idle, seconds(one, "run")


def documents(program, count, seed):
    """The documents of the published networks that have a plan, and of drawn ones, by name."""
    paths = sorted(glob.glob(os.path.join(HERE, "..", "examples", "networks", "*.json")))
    texts = [(os.path.basename(path), open(path, "rb").read()) for path in paths if not os.path.exists(path[:-5] + ".words")]
    texts += [(f"drawn {n}", json.dumps(beside.drawn(random.Random(seed + n))).encode()) for n in range(count)]
    for name, text in texts:
        status, out, _ = run(program, ["plan"], text)
        if status == 0:
            yield name, out.decode()


def main():
    parser = argparse.ArgumentParser()
    parser.add_argument("--program", default=PROGRAM)
    parser.add_argument("--drawn", type=int, default=10)
    parser.add_argument("--seed", type=int, default=61000)
    asked = parser.parse_args()
    ratios = {part: [] for part in PARTS}
    for name, text in documents(asked.program, asked.drawn, asked.seed):
        operations = Items(json.loads(text)).operations
        for part in PARTS:
            settled, flying, drained, idle, finished = seconds_behind(asked.program, text, part)
            if finished > idle:
                ratios[part].append((drained - idle) / (finished - idle))
            print(f"{name}: settled {settled} and flying {flying} of {operations}: drained in {drained:.2f} s, {idle:.2f} s with nothing in flight, finished in {finished:.2f} s")
    for part, row in ratios.items():
        print(f"killed at {part}: over {len(row)} rollouts a drain takes {statistics.median(row):.2f} of what finishing takes in the middle, both beside a start")


if __name__ == "__main__":
    main()
