"""Switches that answer slowly or never hold up nothing but their own operations, and are offered them again once in a time limit.

    python3 tests/late.py PROGRAM

The times are those of this machine and of what else runs there. So there is room behind each of them; where one is passed all of them are tried again, some times as
long, delays and limits and room alike; and `bench/stragglers.py` takes the figures.
"""

import os
import sys

sys.path.insert(0, os.path.join(os.path.dirname(os.path.abspath(__file__)), "..", "bench"))
from outcomes import report  # noqa: E402
from stragglers import FLOWS, PROMPT, SLOWER, STEPS, SWITCHES, placed, rolled_out  # noqa: E402
from waiting import by_first_that_fits  # noqa: E402

OPERATIONS = SWITCHES * FLOWS * STEPS
# Milliseconds of a time limit, seconds of room for a busy machine and of a look at what stands still; and how many times as long all of it is, by tries.
LIMIT, ROOM, WATCHED, TIMES = 1000, 2, 3.5, (1, 4, 16)
SILENT, SLOW = [(2, None)], [(10, PROMPT + SLOWER)]


def wrong_end(run, operations=OPERATIONS):
    """What is wrong with the end of a run that is to finish, or None."""
    return None if (run.status, run.said) == (0, f"finished: operations {operations}, found 0") else f"status {run.status}: {run.said}"


def above(found, most, what="s"):
    return None if found is not None and found <= most else f"{found} {what}, above {most:.2f}"


def few_or_many(offers, limits):
    """A switch that never answers is offered all it has once at first, and again once in each time limit."""
    wrong = [len(came) for came in offers if not FLOWS * (limits // 2) <= len(came) <= FLOWS * (limits + 2)]
    return None if offers and not wrong else f"{wrong} commands in {limits:.1f} limits"


def played(program, delays, words=(), limit=LIMIT, times=1, **given):
    """A rollout over switches with these delays and with this time limit, all of them so many times as long."""
    return rolled_out(program, [delay and delay * times for delay in delays], words, limit=limit * times, **given)


def beside_the_others(given, times):
    """Two silent switches, and ten slow ones, beside none."""
    program, workers = given
    words = ["--workers", workers]
    prompt = played(program, placed([]), words, times=times)
    yield f"all prompt, {workers} workers", wrong_end(prompt)
    most = 1.5 * (prompt.others or 0) + ROOM * times
    silent = played(program, placed(SILENT), words, times=times, watched=WATCHED * times)
    yield f"two silent, {workers} workers, the end", None if silent.status == -9 else f"status {silent.status}: {silent.said}"
    yield f"two silent, {workers} workers, the others", above(silent.others, most)
    yield f"two silent, {workers} workers, what they are offered", few_or_many(silent.offers, silent.seconds * 1000 / (LIMIT * times))
    yield f"two silent, {workers} workers, the processor while nothing comes", above(silent.used, 0.3 * WATCHED * times)
    slow = played(program, placed(SLOW), words, times=times)
    yield f"ten slow, {workers} workers", wrong_end(slow)
    yield f"ten slow, {workers} workers, the others", above(slow.others, most)
    yield f"ten slow, {workers} workers, the whole", above(slow.seconds, (1.2 * STEPS * (PROMPT + SLOWER) + ROOM) * times)


def behind_the_limit(program, times):
    """A switch whose answers always come later than its limit gets each operation again, and is done all the same."""
    count, limit = 3, 200
    run = played(program, [PROMPT, PROMPT, 1.5 * limit / 1000], limit=limit, times=times, flows=1, steps=6)
    yield "later than the limit", wrong_end(run, count * 6)
    yield "later than the limit, the repeats", None if 3 <= run.repeats <= 6 * 4 else f"{run.repeats} repeats"
    run = played(program, [PROMPT, PROMPT, 0.5 * limit / 1000], limit=10 * limit, times=times, flows=2, steps=6)
    yield "within the limit", wrong_end(run, count * 12)
    yield "within the limit, the repeats", above(run.repeats, 0, "repeats")


def in_rounds(program, times):
    """A round is used where something is offered, and by no look."""
    run = played(program, [PROMPT, None, PROMPT], ["--workers", "1", "--rounds", "12"], limit=200, times=times, flows=1, steps=4)
    yield "a silent switch, the rounds", None if run.status == 5 and "rounds spent: rounds 12" in run.said else f"status {run.status}: {run.said}"
    offers = [len(came) for came in run.offers]
    yield "a silent switch, what it is offered", None if len(offers) == 1 and 4 <= offers[0] <= 12 else f"{offers} commands"
    run = played(program, [0.3] * 3, ["--workers", "1", "--rounds", "30"], limit=5000, times=times, flows=1, steps=4)
    yield "slow switches, the rounds", wrong_end(run, 12)


def outcomes(program):
    for workers in ("1", "2", "16"):
        yield from by_first_that_fits(beside_the_others, (program, workers), TIMES)
    for kind in (behind_the_limit, in_rounds):
        yield from by_first_that_fits(kind, program, TIMES)


if __name__ == "__main__":
    report("late", "cases", outcomes(os.path.abspath(sys.argv[1])))
