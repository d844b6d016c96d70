"""Times threads that take turns at one value: under the turn lock, and under the lock of the standard library.

    python3 bench/turns.py [--runs N]

Prints turns a second for 1, 2 and 4 threads under each: the middle of several runs that take turns, the slowest and the fastest of
them, and how many times as long the turn lock takes. The times are those that pass, without those of a run with no turns. Where the
machine is busy some threads run after each other, and don't meet at the lock: so the least time would tell of luck.
"""

import argparse
import statistics

from runs import PROGRAM, passed_in, taken

THREADS = (1, 2, 4)
GUARDS = ("lock", "mutex")
TURNS = {"lock": 1000000, "mutex": 20000000}     # of all threads together


def command_line(threads, turns, guard):
    return [PROGRAM, "turns", str(threads), str(turns // threads), guard]


def turn_seconds(seconds, threads, guard):
    """The seconds of a turn in each run."""
    start = min(seconds[threads, 0, guard])
    return [(run - start) / TURNS[guard] for run in seconds[threads, TURNS[guard], guard]]


def in_millions(each):
    return f"{1e-6 / statistics.median(each):.2f} ({1e-6 / max(each):.2f} to {1e-6 / min(each):.2f})"


def main():
    words = argparse.ArgumentParser(description=__doc__, formatter_class=argparse.RawDescriptionHelpFormatter)
    words.add_argument("--runs", type=int, default=9)
    given = words.parse_args()
    cases = [(threads, turns, guard) for threads in THREADS for guard in GUARDS for turns in (0, TURNS[guard])]
    seconds = taken(cases, given.runs, lambda case: passed_in(command_line(*case)))
    for threads in THREADS:
        each = {guard: turn_seconds(seconds, threads, guard) for guard in GUARDS}
        rates = ", ".join(f"{guard} {in_millions(each[guard])}" for guard in GUARDS)
        ratio = statistics.median(each["lock"]) / statistics.median(each["mutex"])
        print(f"turns: {threads} threads: {rates} million a second; ratio {ratio:.1f}")


if __name__ == "__main__":
    main()
