"""Times `swanroll sim` on rehearsals of many events, alone and beside an unverified fast program where one is given, and shows how the
processor time grows with flows and with steps.

    python3 bench/rounds.py [--beside PROGRAM] [--check] [--runs N]

PROGRAM takes the same words and input and writes the same bytes. With --check it ends with status 1 where a ratio or a growth is above its
aim. Runs take turns, and the least time of each counts.
"""

import json
import math
import os
import sys
import tempfile
import subprocess

from measure import asked, peak_memory, run_once
from rehearsal import document

WORDS = ["sim", "--policy", "order"]
# What is rehearsed, and how many times the other program's time it may take.
BESIDE = [
    ("200 flows, 65 steps, 100,000 events without a start", dict(flows=200, events=100000, steps=65, script="steady"), 3),
    ("a straggler among 400 flows, 74,000 events", dict(flows=400, events=74000, steps=62, script="straggler"), 5),
    ("20 flows of 16 tunnels of 16 links, 62 steps", dict(flows=20, events=400, steps=62, tunnels=16, links=16, script="lockstep"), 5),
]
# What opens its journal again and again: each start is a recovery, which the other program doesn't make, so it has no aim.
STARTS = ("200 flows, 65 steps, 10,000 events, a start after each crash and stop", dict(flows=200, events=10000, steps=65))
# Cases that differ in one size, and how much faster than it the time may grow.
GROWTH = [
    ("flows", [dict(flows=flows, events=10000, steps=62, script="steady") for flows in (128, 1024)], lambda few, many: many / few * math.log(many) / math.log(few)),
    ("steps", [dict(flows=20, events=4 * steps, steps=steps, tunnels=16, links=16, script="lockstep") for steps in (31, 124)], lambda few, many: 1.3 * many / few),
]


def written(folder, number, given):
    path = os.path.join(folder, f"{number}.json")
    with open(path, "w", encoding="utf-8") as file:
        json.dump(document(**given), file, separators=(",", ":"))
    return path


def least(path, programs, runs):
    """The least processor time of each program on the input, in seconds."""
    times = [[] for _ in programs]
    for _ in range(runs):
        for program, found in zip(programs, times):
            found.append(run_once(WORDS, path, program)[1])
    return [min(found) for found in times]


def is_same(path, programs):
    texts = [subprocess.run([program] + WORDS, stdin=open(path, "rb"), capture_output=True).stdout for program in programs]
    return all(text == texts[0] for text in texts)


def main():
    given, programs = asked(__doc__, 3)
    failed = False
    with tempfile.TemporaryDirectory() as folder:
        for number, (title, sizes, most) in enumerate(BESIDE):
            path = written(folder, number, sizes)
            found = least(path, programs, given.runs)
            line = f"rounds: {title}: {found[0]:.3f} s of the processor, {peak_memory(WORDS, path)} at the most"
            if given.beside:
                ratio = found[0] / found[1]
                failed = failed or ratio > most or not is_same(path, programs)
                line += f"; beside {found[1]:.3f} s: {ratio:.1f} times, the aim is {most}" + ("" if is_same(path, programs) else "; ANOTHER TEXT")
            print(line, flush=True)
        title, sizes = STARTS
        path = written(folder, "starts", sizes)
        with open(path, encoding="utf-8") as file:
            starts = json.load(file)["script"].count(["start"])
        print(f"rounds: {title}: {least(path, programs[:1], given.runs)[0]:.3f} s of the processor, {starts} starts", flush=True)
        for size, cases, aim in GROWTH:
            few, many = (least(written(folder, "growth", case), programs[:1], given.runs)[0] for case in cases)
            most = aim(*(case[size] for case in cases))
            failed = failed or many / few > most
            print(f"rounds: {cases[0][size]} to {cases[1][size]} {size}: {few:.3f} s to {many:.3f} s, {many / few:.1f} times; the aim is {most:.1f}", flush=True)
    if given.check and failed:
        sys.exit("rounds: above an aim")


if __name__ == "__main__":
    main()
