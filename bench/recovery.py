"""Times the opening of a journal with 100,000 entries over memory, as `measure recovery` does it: the time of some openings less that of one.

    python3 bench/recovery.py [--check]

The journal is one of 200 flows that move in 250 steps, and is made by `measure journal`. Prints the milliseconds of an opening, and with
`--check` fails above 20.
"""

import argparse
import json
import sys

from rehearsal import network, plan
from runs import PROGRAM, printed, taken, used_by

FLOWS, STEPS, TIMES, RUNS, AIM = 200, 250, 11, 5, 20


def batch():
    """Every flow begins its next operation, and then each is done, step by step."""
    return [f"{kind}:{flow}:{step}" for step in range(1, STEPS + 1) for kind in "bd" for flow in range(FLOWS)]


def main():
    words = argparse.ArgumentParser(description=__doc__, formatter_class=argparse.RawDescriptionHelpFormatter)
    words.add_argument("--check", action="store_true")
    given = words.parse_args()
    document = json.dumps({"problem": network(FLOWS, STEPS, 2, 4), "plan": plan(FLOWS, STEPS, 2)})
    made = printed([PROGRAM, "journal"], input=f"{document}\n{' '.join(['recover 0 - -'] + batch())}\n")
    image = made.splitlines()[-1].split(" ")[3]
    text = f"{document}\n{image}\n"
    entries = printed([PROGRAM, "recovery", "1"], input=text).split()
    if entries != ["entries", str(2 * FLOWS * STEPS)]:
        sys.exit(f"recovery: the journal has {entries}")
    times = taken((1, TIMES), RUNS, lambda count: used_by([PROGRAM, "recovery", str(count)], input=text.encode()))
    each = 1000 * (min(times[TIMES]) - min(times[1])) / (TIMES - 1)
    print(f"recovery: a journal of {2 * FLOWS * STEPS} entries is opened in {each:.1f} ms of the processor's time")
    if given.check and each > AIM:
        sys.exit(f"recovery: more than {AIM} ms")


if __name__ == "__main__":
    main()
