"""Times a rollout's book and its workers over memory, as `measure rounds` and `measure workers` do it.

    python3 bench/workers.py [--runs N]

First rounds of a book in one thread, alone and as the one seat of a shared book: rounds that find nothing to do, beside a turn of the lock alone, and
rounds that end what the one before has begun. Then what a wait for work costs: the processor time of a run in which one thread waits a second for what
another begins, without that of a run in which it hardly waits. Then a rollout of 20,000 operations at 200 switches by 1, 2, 4 and 16 workers, over ports
that answer at once: operations a second, how many times the one worker's time that is, and how many batches and calls of the disk it took. Last the same
over ports that answer after a millisecond, beside its critical path: 100 operations one after the other, at each switch. Each is the middle of several
runs that take turns, with the slowest and the fastest; but for the wait the times are those that pass, without those of a run that makes no round.
"""

import argparse
import json
import statistics

from loopback import moved
from runs import PROGRAM, passed_in, printed, taken, used_by

WORKERS = (1, 2, 4, 16)
SLOW_WORKERS = (1, 4, 16)
SWITCHES, FLOWS, STEPS = 200, 1, 100
# How long a slow port takes to answer, in seconds.
A_WHILE = 0.001
# How long the wait for work is, in milliseconds.
A_WAIT = 1000
MANY = 1000000
LED = STEPS + 1
# What a batch takes of the disk, and what the opening of a blank journal does.
CALLS_A_BATCH, CALLS_TO_OPEN = 4, 9


def each_of(seconds, case, none, count):
    """The seconds of one of so many in each run, without those of a run that has none."""
    start = statistics.median(seconds[none])
    return [(run - start) / count for run in seconds[case]]


def shown(each, unit):
    return f"{unit * statistics.median(each):.2f} ({unit * min(each):.2f} to {unit * max(each):.2f})"


def show_rounds(text, runs):
    """A round of a book alone and of a shared one, in one thread, and a turn of the lock."""
    rounds = {(guard, answers): ["rounds", guard, answers] for guard in ("alone", "shared") for answers in ("idle", "led")}
    counts = {"idle": MANY, "led": LED}
    cases = [(case, count) for case in rounds for count in (0, counts[case[1]])] + [("turns", count) for count in (0, MANY)]

    def seconds_of(case):
        name, count = case
        words = ["turns", "1", str(count), "lock"] if name == "turns" else rounds[name] + [str(count)]
        return passed_in([PROGRAM, *words], input=text.encode())

    seconds = taken(cases, runs, seconds_of)
    turn = each_of(seconds, ("turns", MANY), ("turns", 0), MANY)
    print(f"workers: a turn of the lock takes {shown(turn, 1e6)} us")
    for answers, unit, name in (("idle", 1e6, "us"), ("led", 1e3, "ms")):
        alone, shared = (each_of(seconds, ((guard, answers), counts[answers]), ((guard, answers), 0), counts[answers]) for guard in ("alone", "shared"))
        ratio = statistics.median(shared) / statistics.median(alone)
        print(f"workers: a round, {answers}: alone {shown(alone, unit)} {name}, of a shared book {shown(shared, unit)} {name}: {ratio:.2f} times")
        if answers == "idle":
            print(f"workers: that is {statistics.median(shared) / statistics.median(turn):.2f} times a turn of the lock")


def awaited():
    """A document of one flow, which moves to a second path once the entries of that path are there."""
    tunnels = [{"path": ["A", "B"], "old": 4, "new": 1}, {"path": ["A", "C", "B"], "old": None, "new": 3}]
    problem = {
        "switches": [{"name": name, "table": 8} for name in "ABC"],
        "links": [{"from": one, "to": other, "capacity": 10} for one, other in ("AB", "AC", "CB")],
        "flows": [{"name": "f", "tunnels": tunnels}],
    }
    stages = [{"installed": [True, there], "rates": rates} for there, rates in ((False, [4, 0]), (True, [4, 0]), (True, [1, 3]))]
    return {"problem": problem, "plan": {"scale": 1, "stages": stages}}


def show_waiting(runs):
    """What a wait takes of the processor."""
    text = json.dumps(awaited())
    words = {wait: [PROGRAM, "waiting", str(wait)] for wait in (0, A_WAIT)}
    for wait in words.values():
        told = printed(wait, input=text)
        if not told.startswith("Work"):
            raise SystemExit(f"workers: who waits is told {told.strip()}")
    seconds = taken(list(words), runs, lambda wait: used_by(words[wait], input=text.encode()))
    print(f"workers: a wait of {A_WAIT} ms takes {shown(each_of(seconds, A_WAIT, 0, 1), 1e3)} ms of the processor", flush=True)


def rolled(workers, text, *pace):
    """How many operations a rollout settles, and how many calls its disk has."""
    words = printed([PROGRAM, "workers", str(workers), str(MANY), *pace], input=text).replace(",", "").split()
    if words[0] != "operations":
        raise SystemExit(f"workers: {workers} workers end with {' '.join(words)}")
    return int(words[1]), int(words[3])


def show_workers(text, runs):
    cases = [(workers, rounds) for workers in WORKERS for rounds in (0, MANY)]
    seconds = taken(cases, runs, lambda case: passed_in([PROGRAM, "workers", *map(str, case)], input=text.encode()))
    alone = None
    for workers in WORKERS:
        operations, calls = rolled(workers, text)
        each = each_of(seconds, (workers, MANY), (workers, 0), 1)
        middle = statistics.median(each)
        alone = alone or middle
        batches = (calls - CALLS_TO_OPEN) // CALLS_A_BATCH
        print(f"workers: {workers} workers: {operations / middle:,.0f} operations a second ({operations / max(each):,.0f} to {operations / min(each):,.0f}), "
              f"{middle / alone:.2f} times one worker's time; {batches} batches of {operations / batches:.1f} operations, {calls} calls of the disk", flush=True)


def show_slow_workers(text, runs):
    """A rollout over ports that answer after a while, beside its critical path."""
    cases = [(workers, rounds) for workers in SLOW_WORKERS for rounds in (0, MANY)]
    seconds = taken(cases, runs, lambda case: passed_in([PROGRAM, "workers", *map(str, case), "slow"], input=text.encode()))
    path = STEPS * A_WHILE
    for workers in SLOW_WORKERS:
        rolled(workers, text, "slow")
        each = each_of(seconds, (workers, MANY), (workers, 0), 1)
        print(f"workers: {workers} workers over slow ports: {shown(each, 1)} s, {statistics.median(each) / path:.2f} times the critical path of {path} s", flush=True)


def main():
    words = argparse.ArgumentParser(description=__doc__, formatter_class=argparse.RawDescriptionHelpFormatter)
    words.add_argument("--runs", type=int, default=7)
    given = words.parse_args()
    text = json.dumps(moved(SWITCHES, FLOWS, STEPS))
    show_rounds(text, given.runs)
    show_waiting(given.runs)
    show_workers(text, given.runs)
    show_slow_workers(text, given.runs)


if __name__ == "__main__":
    main()
