"""Times how long a rollout takes to go back from where it stands, beside levelling it first and beside finishing it first, from where its controller was killed; and
tells how often and how far it has to be levelled for that.

    python3 bench/turning.py [--program PROGRAM] [--drawn N] [--seed N] [--tight]

Over `examples/networks` and over drawn networks, as of `draining.py`. Each plan is rolled out by `run` over switches on loopback, which answer 20 ms later; the controller is
killed once they have carried out a quarter, a half or three quarters of the operations. Then, each of another rollout that was killed there, the seconds until the old split stands
again: by `rollback --from here`, by `rollback`, and by `run` and then `rollback`, each with the `run` of its way back behind it. With --tight each link and table is as large as
the plan's steps need, and no larger: else no way back has to be levelled for.
"""

import argparse
import json
import os
import statistics
import sys
import time

HERE = os.path.dirname(os.path.abspath(__file__))
sys.path.insert(0, os.path.join(HERE, "..", "tests"))

from carried import Items, backwards
from draining import PARTS, beside, documents, killed
from from_here import Turning, tightened
from journal_files import entries_in, text_of
from measure import PROGRAM
from rolling import rollout

WAYS = {"from here": ("rollback --from here",), "from a level": ("rollback",), "finished first": ("run", "rollback")}


def run_to_its_end(one, words, text=None):
    end = one.ended(one.start(words), text)
    if end[0]:
        sys.exit(f"turning: {words} ended with {end}")


def seconds_back(program, text, part, commands):
    """Of a rollout that was killed there: how it goes back from here, and the seconds until the old split stands again."""
    with rollout(program, text, fates=beside.far) as one:
        killed(one, part)
        turn = Turning(one.document, entries_in(one.image() or b""))
        begun = time.perf_counter()
        for words in commands:
            run_to_its_end(one, words)
        run_to_its_end(one, "run --migration 1", text_of(backwards(one.document)))
        return turn, time.perf_counter() - begun


def main():
    parser = argparse.ArgumentParser()
    parser.add_argument("--program", default=PROGRAM)
    parser.add_argument("--drawn", type=int, default=10)
    parser.add_argument("--seed", type=int, default=61000)
    parser.add_argument("--tight", action="store_true")
    asked = parser.parse_args()
    ratios = {(part, way): [] for part in PARTS for way in WAYS}
    turns = []
    for name, text in documents(asked.program, asked.drawn, asked.seed):
        value = json.loads(text)
        text = text_of(tightened(value) if asked.tight else value)
        for part in PARTS:
            seconds = {}
            for way, commands in WAYS.items():
                turn, seconds[way] = seconds_back(asked.program, text, part, commands)
                turns.append(turn)
                ratios[part, way].append(seconds[way] / seconds["from here"])
            told = ", ".join(f"{way} {one:.2f} s" for way, one in seconds.items())
            print(f"{name}: {Items(value).operations} operations, killed at {part}, at stage {turn.stage} of {turn.ceiling}: {told}")
    level = [turn for turn in turns if turn.stage]
    print(f"of {len(turns)} rollouts {len(level)} were levelled" + (f", at stage {statistics.mean(turn.stage for turn in level):.1f} of {statistics.mean(turn.ceiling for turn in level):.1f} in the mean" if level else ""))
    for (part, way), row in ratios.items():
        print(f"killed at {part}: {way} takes {statistics.median(row):.2f} of the seconds from here in the middle")


if __name__ == "__main__":
    main()
