"""Times `swanroll plan` on the largest problem and on a quarter of it, and `swanroll check` on their documents of 64 stages, and shows the
time that passes, the processor time and the peak memory.

    python3 bench/measure.py [--check] [--runs N]

With --check it ends with status 1 where the whole takes more than five times the processor time of the quarter: the work of
reading, checking and writing grows with the input and no faster. Runs of both take turns, and the least time of each counts, since
a busy machine makes single runs slow.
"""

import argparse
import os
import subprocess
import sys
import tempfile
import time

HERE = os.path.dirname(os.path.abspath(__file__))
PROGRAM = os.path.join(HERE, "..", "crates", "swanroll", "out", "swanroll")
GNU_TIME = "/usr/bin/time"
MOST_TIMES = 5


def asked(description, runs):
    """What a measurement beside another program is asked for: its words, and the programs, ours first."""
    words = argparse.ArgumentParser(description=description, formatter_class=argparse.RawDescriptionHelpFormatter)
    words.add_argument("--beside")
    words.add_argument("--check", action="store_true")
    words.add_argument("--runs", type=int, default=runs)
    given = words.parse_args()
    return given, [PROGRAM] + ([os.path.abspath(given.beside)] if given.beside else [])


def run_once(words, path, program=PROGRAM, statuses=(0,)):
    """The seconds that passed and the processor's seconds of one run."""
    with open(path, "rb") as source, open(os.devnull, "wb") as sink:
        begun = time.perf_counter()
        child = subprocess.Popen([program] + words, stdin=source, stdout=sink, stderr=subprocess.DEVNULL)
        _, status, used = os.wait4(child.pid, 0)
        seconds = time.perf_counter() - begun
    if os.waitstatus_to_exitcode(status) not in statuses:
        sys.exit(f"measure: the program ended with {os.waitstatus_to_exitcode(status)} on {path}")
    return seconds, used.ru_utime + used.ru_stime


def peak_in(words, path, program=PROGRAM):
    """The peak memory of one run in megabytes, or None. The system counts as a child's peak what its parent had before, so the
    run has to be the child of a small program: GNU time (Debian's package time)."""
    if not os.path.exists(GNU_TIME):
        return None
    with open(path, "rb") as source, open(os.devnull, "wb") as sink:
        run = subprocess.run([GNU_TIME, "-f", "%M", program] + words, stdin=source, stdout=sink, stderr=subprocess.PIPE, check=True)
    return int(run.stderr.split()[-1]) / 1024


def peak_memory(words, path, program=PROGRAM):
    """The peak memory of one run in megabytes, as text."""
    peak = peak_in(words, path, program)
    return "unknown" if peak is None else f"{peak:.0f} MB"


def generate(folder, share, more):
    path = os.path.join(folder, f"input-{share}.json")
    with open(path, "wb") as file:
        subprocess.run([sys.executable, "-B", os.path.join(HERE, "generate.py"), "--share", str(share)] + more, stdout=file, check=True)
    return path


def growth_of(command, more, runs):
    """Prints what the command takes for a quarter and for the whole, and answers how many times the processor time the whole takes."""
    with tempfile.TemporaryDirectory() as folder:
        inputs = {title: generate(folder, share, more) for title, share in (("a quarter", 4), ("the largest", 1))}
        sizes = {title: os.path.getsize(path) / 1e6 for title, path in inputs.items()}
        results = {title: [] for title in inputs}
        for _ in range(runs):
            for title, path in inputs.items():
                results[title].append(run_once([command], path))
        peaks = {title: peak_memory([command], path) for title, path in inputs.items()}
    times = []
    for title, found in results.items():
        passed, busy = min(run[0] for run in found), min(run[1] for run in found)
        times.append(busy)
        print(f"measure: {command} of {title}: {sizes[title]:.1f} MB of text, {passed:.3f} s, {busy:.3f} s of the processor, {peaks[title]} at the most")
    print(f"measure: {command} of the largest takes {times[1] / times[0]:.1f} times the processor time of a quarter of it")
    return times[1] / times[0]


def main():
    words = argparse.ArgumentParser(description=__doc__, formatter_class=argparse.RawDescriptionHelpFormatter)
    words.add_argument("--check", action="store_true")
    words.add_argument("--runs", type=int, default=15)
    given = words.parse_args()
    growths = [growth_of(command, more, given.runs) for command, more in (("plan", []), ("check", ["--stages", "64"]))]
    if given.check and max(growths) > MOST_TIMES:
        sys.exit(f"measure: that is more than {MOST_TIMES} times")


if __name__ == "__main__":
    main()
