"""Times `swanroll trial` on two sizes, alone and beside an unverified fast program where one is given: the processor time and the peak memory.

    python3 bench/trials.py [--beside PROGRAM] [--check] [--runs N]

PROGRAM takes the same words and writes the same bytes. With --check it ends with status 1 where a ratio is above its aim, or where the
two write another text. Runs take turns, and the least time and the least peak of each count.
"""

import os
import subprocess
import sys

from measure import asked, peak_in, run_once

# The numbers of each trial.
TRIALS = [
    ("200 switches, 20,000 events", "--k 4 --switches 200 --flows 200 --seed 7 --events 20000"),
    ("1,024 switches, 100,000 events", "--k 4 --switches 1024 --flows 1024 --seed 7 --events 100000"),
]
# How many times the other program's processor time and memory a trial may take.
MOST_TIME, MOST_MEMORY = 3, 8


def text(words, program):
    return subprocess.run([program] + words, stdin=subprocess.DEVNULL, capture_output=True, check=True).stdout


def least(words, programs, runs):
    """The least processor time of each program, in seconds, and its least peak in megabytes, None where that isn't known."""
    times, peaks = [[] for _ in programs], [[] for _ in programs]
    for _ in range(runs):
        for number, program in enumerate(programs):
            times[number].append(run_once(words, os.devnull, program)[1])
            peaks[number].append(peak_in(words, os.devnull, program))
    return [min(found) for found in times], [None if None in found else min(found) for found in peaks]


def megabytes(peak):
    return "an unknown peak" if peak is None else f"{peak:.1f} MB at the most"


def beside(title, words, programs, runs):
    """Prints what a trial takes, and answers whether it is within the aims beside the other program, where there is one."""
    times, peaks = least(words, programs, runs)
    line = f"trials: {title}: {times[0]:.4f} s of the processor, {megabytes(peaks[0])}"
    if len(programs) == 1:
        print(line, flush=True)
        return True
    time = times[0] / times[1]
    line += f"; beside {times[1]:.4f} s, {megabytes(peaks[1])}: {time:.1f} times the time, the aim is {MOST_TIME}"
    memory = None if None in peaks else peaks[0] / peaks[1]
    if memory is not None:
        line += f"; {memory:.1f} times the memory, the aim is {MOST_MEMORY}"
    same = text(words, programs[0]) == text(words, programs[1])
    print(line + ("" if same else "; ANOTHER TEXT"), flush=True)
    return same and time <= MOST_TIME and (memory is None or memory <= MOST_MEMORY)


def main():
    given, programs = asked(__doc__, 9)
    within = [beside(title, ["trial"] + numbers.split(), programs, given.runs) for title, numbers in TRIALS]
    if given.check and not all(within):
        sys.exit("trials: above an aim")


if __name__ == "__main__":
    main()
