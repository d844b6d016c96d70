"""What the policy `freeze` holds back, by what the environment says in SWANROLL_CEILING. Rehearses the example `ceiling` under each: three flows
have two operations each, from stage 0 and from stage 1. And rolls such a plan out under a ceiling, by any number of workers, and then to its end.

    python3 tests/ceilings.py PROGRAM
"""

import os
import subprocess
import sys

from named import document
from outcomes import report
from rolling import finished, rollout, same, stopped

HERE = os.path.dirname(os.path.abspath(__file__))
EXAMPLE = os.path.join(HERE, "..", "examples", "ceiling.json")
# What is begun in the first round and in the third act, and what is left.
ALL_HELD, SECOND_HELD, NONE_HELD = (0, 0, 6), (3, 0, 3), (3, 3, 3)
CEILINGS = [
    (b"0", ALL_HELD), (b"00", ALL_HELD), (b"0000000000000000000", ALL_HELD),
    (b"1", SECOND_HELD), (b"01", SECOND_HELD), (b"0000000000000000001", SECOND_HELD),
    (b"2", NONE_HELD), (b"256", NONE_HELD),
]
# None of these says a ceiling.
UNREAD = [
    None, b"", b" ", b"x", b"0x0", b"-0", b"+0", b"+1", b"-1", b" 0", b"0 ", b"0\n", b"0.0", b"1e0", b"257", b"4294967296", b"18446744073709551616",
    b"00000000000000000000", b"00000000000000000001", b"9" * 19, b"\xff", b"0\xff", "\u0660".encode(),
]


def rehearsed(program, ceiling, policy):
    environment = {name: value for name, value in os.environb.items() if name != b"SWANROLL_CEILING"}
    if ceiling is not None:
        environment[b"SWANROLL_CEILING"] = ceiling
    with open(EXAMPLE, "rb") as source:
        done = subprocess.run([program, "sim", "--policy", policy], stdin=source, capture_output=True, env=environment)
    return done.returncode, done.stdout.decode(), done.stderr.decode()


def wrong(program, ceiling, wanted, policy="freeze"):
    """What was wrong with a rehearsal in which so many operations are to begin and to be left, or None."""
    begun, again, left = wanted
    status, out, notes = rehearsed(program, ceiling, policy)
    lines = out.split("\n")
    found = [f"0 round: dones 0, begins {begun}", f"1 all: {begun}", f"2 round: dones {begun}, begins {again}", f"unfinished: {left}"]
    return None if (status, notes) == (0, "") and lines[:3] + lines[-2:-1] == found else f"status {status}, {out!r}, {notes!r}"


def cases(program):
    for ceiling, wanted in CEILINGS:
        yield f"{ceiling}", wrong(program, ceiling, wanted)
    for ceiling in UNREAD:
        yield f"{ceiling}", wrong(program, ceiling, NONE_HELD)
    for policy in ("critical", "order"):
        yield f"{policy} with a ceiling", wrong(program, b"0", NONE_HELD, policy)


def rolled_out(program):
    """A rollout that is held at a ceiling, that goes on to a higher one, and that a policy which holds nothing ends."""
    ahead = document("ahead.json")
    for workers in (1, 2, 16):
        with rollout(program, ahead) as one:
            words = f"run --policy freeze --workers {workers}"
            yield f"a run held everywhere by {workers}", same(one.run(words, one.having(SWANROLL_CEILING="0")), stopped(14, "held: operations 6")) or same(one.commands(), 0)
            for starts in range(2):
                yield f"a run held at 1 by {workers}, start {starts}", same(one.run(words, one.having(SWANROLL_CEILING="1")), stopped(14, "held: operations 3"))
                yield f"a run held at 1 by {workers}, start {starts}, the commands", same(one.commands(), 3)
            yield f"a run that was held by {workers}, to its end", same(one.run(f"run --workers {workers}"), finished(6, 6)) or one.misses()
    with rollout(program, ahead) as one:
        yield "a run under no ceiling", same(one.run("run --policy freeze", one.having(SWANROLL_CEILING="x")), finished(6, 0)) or one.misses()


def all_cases(program):
    yield from cases(program)
    yield from rolled_out(program)


if __name__ == "__main__":
    report("ceilings", "ceilings", all_cases(sys.argv[1]))
