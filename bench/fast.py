"""Times the commands that make a text of their input beside an unverified fast program, all cases in one run.

    python3 bench/fast.py PROGRAM [--runs N] [--only WORD]

PROGRAM takes the same words and input and writes the same bytes. Prints a row of a table for each case: the processor's seconds of both (user
and system, the least of the runs, which take turns), how many times ours takes, the aim, the peaks, and the pages that each touched for the first time.
What lies after reading is the whole less a run on the same problem that is refused right after reading.
"""

import argparse
import json
import os
import subprocess
import sys
import tempfile

import generate
import rehearsal
from measure import PROGRAM, peak_in

SIM = ["sim", "--policy", "order"]
TRIAL = "trial --k 4 --switches 1024 --flows 1024 --seed 7 --events 100000".split()


def moved(share=1, slack=None, refused=False):
    problem = generate.problem(share)
    if slack is not None:
        generate.tighten(problem, slack)
    if refused:
        problem["links"][0]["capacity"] = 0
    return problem


def staged(share=1, stages=64, events=None):
    """A document whose plan has that many stages, with a script of acts with starts where it is asked for."""
    problem = moved(share)
    document = {"problem": problem, "plan": generate.plan(problem, stages)}
    if events is not None:
        document["script"] = rehearsal.mixture(len(problem["flows"]), events)
    return document


# What is run, on what, its words, and how many times the other program's time it may take.
CASES = [
    ("plan, the largest, 63 steps", lambda: moved(slack=64), ["plan"], 1.5),
    ("plan, of it reading", lambda: moved(slack=64, refused=True), ["plan"], None),
    ("plan, direct", lambda: moved(share=12), ["plan"], 1.5),
    ("check, direct", lambda: staged(share=12, stages=2), ["check"], 1.5),
    ("check, 64 stages, a quarter", lambda: staged(share=4), ["check"], 1.5),
    ("check, 64 stages, the largest", staged, ["check"], 1.5),
    ("sim, 100,000 events without a start", lambda: rehearsal.document(flows=200, events=100000, steps=65, script="steady"), SIM, 1.8),
    ("sim, a straggler among 400 flows", lambda: rehearsal.document(flows=400, events=74000, steps=62, script="straggler"), SIM, 2),
    ("sim, in lockstep, 16 tunnels of 16 links", lambda: rehearsal.document(flows=20, events=400, steps=62, tunnels=16, links=16, script="lockstep"), SIM, 2.5),
    ("sim, 10,000 events with starts", lambda: rehearsal.document(flows=200, events=10000, steps=65, script="mixture"), SIM, None),
    ("sim, 100,000 acts with starts, 1,024 flows, 64 stages", lambda: staged(events=100000), SIM, 3),
    ("trial, 1,024 switches", lambda: None, TRIAL, 1.8),
]


def once(program, words, path):
    """The processor's seconds of one run, and the pages that it touched for the first time."""
    with open(path, "rb") as source, open(os.devnull, "wb") as sink:
        child = subprocess.Popen([program] + words, stdin=source, stdout=sink, stderr=subprocess.DEVNULL)
        _, status, used = os.wait4(child.pid, 0)
    child.returncode = os.waitstatus_to_exitcode(status)
    if child.returncode not in (0, 4):
        sys.exit(f"fast: {program} {words}: status {child.returncode}")
    return used.ru_utime + used.ru_stime, used.ru_minflt


def is_same(programs, words, path):
    texts = [subprocess.run([program] + words, stdin=open(path, "rb"), capture_output=True) for program in programs]
    return texts[0].stdout == texts[1].stdout and texts[0].returncode == texts[1].returncode


def row(title, words, path, programs, runs, aim):
    """Takes the runs of a case in turns, prints its row, and answers the least seconds of both."""
    found = [[] for _ in programs]
    for _ in range(runs):
        for program, taken in zip(programs, found):
            taken.append(once(program, words, path))
    ours, theirs = (min(seconds for seconds, _ in taken) for taken in found)
    pages = [min(number for _, number in taken) for taken in found]
    peaks = ["" if peak is None else f"{peak:.1f} MB" for peak in (peak_in(words, path, program) if aim is not None else None for program in programs)]
    note = "" if is_same(programs, words, path) else " OTHER BYTES"
    print(f"| {title} | {theirs:.4f} s | {ours:.4f} s | {ours / theirs:.1f} | {'' if aim is None else aim} | {peaks[1]} | {peaks[0]} | {pages[1]:,} | {pages[0]:,} |{note}", flush=True)
    return ours, theirs


def main():
    words = argparse.ArgumentParser(description=__doc__, formatter_class=argparse.RawDescriptionHelpFormatter)
    words.add_argument("program")
    words.add_argument("--runs", type=int, default=21)
    words.add_argument("--only", default="")
    words.add_argument("--ours", default=PROGRAM)
    given = words.parse_args()
    programs = [os.path.abspath(given.ours), os.path.abspath(given.program)]
    print("| Case | It | Ours | Times | Aim | Its peak | Ours | Its pages | Ours |\n|---|---|---|---|---|---|---|---|---|")
    found = {}
    with tempfile.TemporaryDirectory() as folder:
        for number, (title, made, command, aim) in enumerate(case for case in CASES if given.only in case[0]):
            path = os.path.join(folder, f"{number}.json")
            with open(path, "w", encoding="utf-8") as file:
                json.dump(made(), file, separators=(",", ":"))
            found[title] = row(title, command, path, programs, given.runs, aim)
    if len(found) > 1 and CASES[0][0] in found and CASES[1][0] in found:
        (ours, theirs), (ours_read, theirs_read) = found[CASES[0][0]], found[CASES[1][0]]
        ratio = (ours - ours_read) / (theirs - theirs_read)
        print(f"| of it, after reading | {theirs - theirs_read:.4f} s | {ours - ours_read:.4f} s | {ratio:.1f} | 1.5 | | | | |")


if __name__ == "__main__":
    main()
