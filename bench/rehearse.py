"""Times `swanroll sim` against the number of events and against the number of flows, and shows the processor time and the peak
memory of each run.

    python3 bench/rehearse.py [--runs N]
"""

import argparse
import os
import subprocess
import sys
import tempfile

from measure import HERE, peak_memory, run_once

# How many flows and events, without a start, and with one after each crash and stop.
SIZES = [(20, 2500), (20, 5000), (20, 10000), (20, 20000), (40, 10000), (80, 10000), (160, 10000)]
CASES = [(*size, "steady") for size in SIZES] + [(20, 2500, "mixture"), (20, 10000, "mixture")]


def generate(folder, flows, events, script):
    path = os.path.join(folder, f"{flows}-{events}-{script}.json")
    words = ["--flows", str(flows), "--events", str(events), "--script", script]
    with open(path, "wb") as file:
        subprocess.run([sys.executable, "-B", os.path.join(HERE, "rehearsal.py"), *words], stdout=file, check=True)
    return path


def main():
    words = argparse.ArgumentParser(description=__doc__, formatter_class=argparse.RawDescriptionHelpFormatter)
    words.add_argument("--runs", type=int, default=5)
    given = words.parse_args()
    with tempfile.TemporaryDirectory() as folder:
        for flows, events, script in CASES:
            path = generate(folder, flows, events, script)
            runs = [run_once(["sim"], path) for _ in range(given.runs)]
            busy = min(run[1] for run in runs)
            print(f"rehearse: {flows} flows, {events} events, {script}: {busy:.3f} s of the processor, {peak_memory(['sim'], path)} at the most")


if __name__ == "__main__":
    main()
