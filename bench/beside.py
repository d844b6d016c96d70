"""Times `swanroll plan` on the largest problem that takes 63 steps beside an unverified fast program: the whole, and what comes after reading,
which is the whole less a run on the same problem that is refused right after reading.

    python3 bench/beside.py PROGRAM [--runs N]

PROGRAM takes the same words and input and writes the same bytes. Runs take turns, and the least time of each counts.
"""

import argparse
import os
import subprocess
import sys
import tempfile

from measure import HERE, PROGRAM, peak_memory, run_once


def generate(folder, name, more):
    path = os.path.join(folder, name)
    with open(path, "wb") as file:
        subprocess.run([sys.executable, "-B", os.path.join(HERE, "generate.py"), "--slack", "64"] + more, stdout=file, check=True)
    return path


def main():
    words = argparse.ArgumentParser(description=__doc__, formatter_class=argparse.RawDescriptionHelpFormatter)
    words.add_argument("program")
    words.add_argument("--runs", type=int, default=11)
    given = words.parse_args()
    programs = [PROGRAM, os.path.abspath(given.program)]
    with tempfile.TemporaryDirectory() as folder:
        inputs = [generate(folder, "planned.json", []), generate(folder, "refused.json", ["--refused"])]
        texts = [subprocess.run([program, "plan"], stdin=open(inputs[0], "rb"), capture_output=True) for program in programs]
        if texts[0].stdout != texts[1].stdout or texts[0].returncode != 0:
            sys.exit("beside: the two don't write the same plan")
        times = {(program, path): [] for program in programs for path in inputs}
        for _ in range(given.runs):
            for program, path in times:
                times[program, path].append(run_once(["plan"], path, program, statuses=(0, 4))[1])
        least = {case: min(found) for case, found in times.items()}
        peaks = [peak_memory(["plan"], inputs[0], program) for program in programs]
    (ours, ours_read), (theirs, theirs_read) = ([least[program, path] for path in inputs] for program in programs)
    print(f"beside: plan in 63 steps: {ours:.3f} s of the processor beside {theirs:.3f} s, {ours / theirs:.1f} times; {peaks[0]} beside {peaks[1]}")
    print(f"beside: reading: {ours_read:.3f} s beside {theirs_read:.3f} s, {ours_read / theirs_read:.1f} times")
    after, other = ours - ours_read, theirs - theirs_read
    print(f"beside: after reading: {after:.3f} s beside {other:.3f} s, {after / other:.1f} times")


if __name__ == "__main__":
    main()
