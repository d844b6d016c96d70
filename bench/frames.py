"""Times commands over bytes in memory, read in pieces, carried out and answered, with 1, 16 and 1,024 items.

    python3 bench/frames.py [--check] [--runs N]

Prints frames a second where the bytes come whole, and what a frame takes at each cut, beside the fastest. With --check it ends with
status 1 where a cut into pieces of 20 bytes or more takes more than twice as long as another: in shorter ones what each call of the
reader costs by itself shows. The processor times, the least of several runs that take turns, leave out
starting and making the bytes. The answers have to be the same at every cut.
"""

import argparse
import sys

from runs import PROGRAM, printed, taken, used_by

ITEMS = (1, 16, 1024)
FRAMES, FRAME = 100000, 34
WHOLE = FRAMES * FRAME
CUTS = (1, 7, 20, 4096, WHOLE)
TIMES = 20
MOST_TIMES = 2
LEAST_CHECKED = 20


def command_line(items, cut, times):
    return [PROGRAM, "frames", str(items), str(FRAMES), str(cut), str(times)]


def check_answers(items):
    found = {printed(command_line(items, cut, 1)) for cut in CUTS}
    if len(found) != 1:
        sys.exit(f"frames: {items} items: the answers hang on the cuts: {sorted(found)}")


def name(cut):
    return "whole" if cut == WHOLE else f"in pieces of {cut}"


def main():
    words = argparse.ArgumentParser(description=__doc__, formatter_class=argparse.RawDescriptionHelpFormatter)
    words.add_argument("--check", action="store_true")
    words.add_argument("--runs", type=int, default=7)
    given = words.parse_args()
    for items in ITEMS:
        check_answers(items)
    cases = [(items, cut, times) for items in ITEMS for cut in CUTS for times in (1, 1 + TIMES)]
    seconds = {case: min(all) for case, all in taken(cases, given.runs, lambda case: used_by(command_line(*case))).items()}
    slow = False
    for items in ITEMS:
        each = {cut: (seconds[items, cut, 1 + TIMES] - seconds[items, cut, 1]) / TIMES / FRAMES for cut in CUTS}
        fastest = min(each.values())
        slow = slow or max(each[cut] for cut in CUTS if cut >= LEAST_CHECKED) > MOST_TIMES * fastest
        print(f"frames: {items} items: {1e-6 / each[WHOLE]:.1f} million frames a second where the bytes come whole")
        print("  " + ", ".join(f"{name(cut)} {each[cut] * 1e9:.0f} ns a frame (ratio {each[cut] / fastest:.2f})" for cut in CUTS))
    if given.check and slow:
        sys.exit(f"frames: a cut into pieces of {LEAST_CHECKED} bytes or more takes more than {MOST_TIMES} times as long as another")


if __name__ == "__main__":
    main()
