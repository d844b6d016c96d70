"""Runs two builds of the program in turns, so that a change of the edge shows: rollouts over loopback, and the opening of a large journal.

    python3 bench/two_programs.py BEFORE AFTER

Both roll out over the same agents, which AFTER plays: 63 operations one after the other at each of three, and 20,160 at 40. Then both open the journal of
50,400 operations (100,800 entries), by `report`, and by a `run` that finds all done. Prints for each the least of some turns: seconds that passed,
seconds of the processor, and peak memory; and how many times BEFORE's AFTER's is.
"""

import json
import os
import shutil
import subprocess
import sys
import tempfile
import time

from loopback import Agents, moved

TURNS = 7


class Taken:
    """What one run of a program took: seconds that passed, seconds of the processor, bytes at the peak."""

    def __init__(self, words, text, environment):
        with tempfile.TemporaryFile() as given, tempfile.TemporaryFile() as told:
            given.write(text)
            given.seek(0)
            begun = time.perf_counter()
            child = subprocess.Popen(words, stdin=given, stdout=told, stderr=told, env=dict(os.environ, **environment))
            _, status, used = os.wait4(child.pid, 0)
            self.passed = time.perf_counter() - begun
            child.returncode = os.waitstatus_to_exitcode(status)
            if child.returncode:
                told.seek(0)
                raise SystemExit(f"two_programs: {words}: status {child.returncode}: {told.read().decode()}")
        self.used, self.peak = used.ru_utime + used.ru_stime, 1024 * used.ru_maxrss


def least(runs):
    """The least of each figure."""
    return min(it.passed for it in runs), min(it.used for it in runs), min(it.peak for it in runs)


def in_turns(programs, run):
    """The least figures of each program, over turns."""
    found = [[] for _ in programs]
    for _ in range(TURNS):
        for at, program in enumerate(programs):
            found[at].append(run(program))
    return [least(it) for it in found]


def rollouts(programs, switches, flows, steps, words):
    """A rollout from nothing over loopback, a new set of agents each time."""
    document = moved(switches, flows, steps)
    names, text = [switch["name"] for switch in document["problem"]["switches"]], json.dumps(document).encode()

    def run(program):
        with tempfile.TemporaryDirectory() as folder:
            agents = Agents(programs[1], folder, names)
            try:
                return Taken([program, "run", *words], text, {"SWANROLL_FLEET": f"{folder}/fleet", "SWANROLL_JOURNAL": f"{folder}/journal", "SWANROLL_TIMEOUT": "10000"})
            finally:
                agents.end()

    return in_turns(programs, run)


def openings(programs, words):
    """The opening of a journal that holds a whole rollout, by a command that opens it and ends."""
    document = moved(40, 20, 63)
    names, text = [switch["name"] for switch in document["problem"]["switches"]], json.dumps(document).encode()
    with tempfile.TemporaryDirectory() as folder:
        agents = Agents(programs[1], folder, names)
        try:
            kept, journal, fleet = f"{folder}/kept", f"{folder}/journal", f"{folder}/fleet"
            environment = {"SWANROLL_FLEET": fleet, "SWANROLL_JOURNAL": journal, "SWANROLL_TIMEOUT": "10000"}
            Taken([programs[1], "run", "--rounds", "100000"], text, environment)
            shutil.copy(journal, kept)

            def run(program):
                shutil.copy(kept, journal)
                return Taken([program, *words], text, environment)

            return in_turns(programs, run), os.path.getsize(kept)
        finally:
            agents.end()


def say(what, before, after):
    (passed, used, peak), (passed_after, used_after, peak_after) = before, after
    print(f"{what}: {passed:.3f} s before, {passed_after:.3f} s after ({passed_after / passed:.2f} times); processor {used:.3f} s, {used_after:.3f} s; "
          f"peak memory {peak / 1e6:.1f} MB, {peak_after / 1e6:.1f} MB", flush=True)


def main():
    if len(sys.argv) != 3:
        raise SystemExit(__doc__)
    programs = [os.path.abspath(it) for it in sys.argv[1:]]
    say("63 operations, one after the other, at each of 3 agents", *rollouts(programs, 3, 1, 63, ["--rounds", "1000"]))
    say("20,160 operations at 40 agents", *rollouts(programs, 40, 8, 63, ["--rounds", "100000"]))
    for words in (["report"], ["run", "--rounds", "100000"]):
        figures, size = openings(programs, words)
        say(f"opening 100,800 entries ({size / 1e6:.1f} MB) by {words[0]}", *figures)


if __name__ == "__main__":
    main()
