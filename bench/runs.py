"""Runs of `measure`, the program that is timed: what they print, and what they take."""

import os
import resource
import subprocess
import time

HERE = os.path.dirname(os.path.abspath(__file__))
PROGRAM = os.path.join(HERE, "..", "crates", "measure", "out", "measure")


def used_by(words, **given):
    """The processor's seconds of one run."""
    before = resource.getrusage(resource.RUSAGE_CHILDREN)
    subprocess.run(words, check=True, capture_output=True, **given)
    after = resource.getrusage(resource.RUSAGE_CHILDREN)
    return after.ru_utime + after.ru_stime - before.ru_utime - before.ru_stime


def passed_in(words, **given):
    """The seconds that pass in one run."""
    begun = time.perf_counter()
    subprocess.run(words, check=True, capture_output=True, **given)
    return time.perf_counter() - begun


def taken(cases, runs, seconds_of):
    """The seconds of so many runs of each case. The cases take turns, since a busy machine makes single runs slow."""
    found = {case: [] for case in cases}
    for _ in range(runs):
        for case in cases:
            found[case].append(seconds_of(case))
    return found


def printed(words, **given):
    """What one run prints."""
    return subprocess.run(words, check=True, capture_output=True, text=True, **given).stdout
