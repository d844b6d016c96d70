"""Writes a document with a script of a given size to standard output: flows that move in equal steps from one path to another, all along
the same two paths, and a script over it.

    python3 bench/rehearsal.py [--flows N] [--events N] [--steps N] [--tunnels N] [--links N] [--script mixture|steady|straggler|lockstep]

`mixture` draws rounds, commands, deliveries, answers, crashes and restarts with a fixed seed; `steady` is the same without a crash, a stop or a
start; `straggler` never sends the first operation in
flight, as by one slow switch, while every other one goes on; `lockstep` is a round and all that it begins, again and again. Of more than two
tunnels a flow's further ones carry nothing.
"""

import argparse
import json
import random
import sys

STEADY = {"send": 45, "deliver": 38, "hand": 9, "round": 3, "all": 3}
ACTS = STEADY | {"crash": 1, "stop": 1}


def network(flows, steps, tunnels, links):
    """Rows of switches; each flow goes along every row, from the same first switch to the same last one."""
    rows = [["A"] + [f"r{row}s{at}" for at in range(links - 1)] + ["B"] for row in range(tunnels)]
    names = sorted({name for row in rows for name in row})
    splits = [(steps, 0), (0, steps)] + [(0, 0)] * (tunnels - 2)
    return {
        "switches": [{"name": name, "table": 1000000} for name in names],
        "links": [{"from": a, "to": b, "capacity": 1000000000} for row in rows for a, b in zip(row, row[1:])],
        "flows": [
            {"name": f"f{at}", "tunnels": [{"path": row, "old": old, "new": new} for row, (old, new) in zip(rows, splits)]}
            for at in range(flows)
        ],
    }


def plan(flows, steps, tunnels):
    rest = [0] * (tunnels - 2)
    return {"scale": 1, "stages": [{"installed": [True] * tunnels * flows, "rates": ([steps - at, at] + rest) * flows} for at in range(steps + 1)]}


def mixture(flows, events, acts=ACTS):
    """Mostly commands and deliveries; a controller that stopped starts at once."""
    draws = random.Random(1)
    written = [["round"]]
    sent = 1
    while len(written) < events:
        act = draws.choices(list(acts), acts.values())[0]
        if act == "send":
            written.append([act, draws.randrange(flows)])
            sent += 1
        elif act in ("deliver", "hand"):
            written.append([act, draws.randrange(sent)])
        elif act in ("crash", "stop"):
            written.append([act, draws.choice(["lost", "kept"])] if act == "crash" else [act])
            written.append(["start"])
        else:
            written.append([act])
    return written


def steady(flows, events):
    return mixture(flows, events, STEADY)


def straggler(flows, events):
    written, sent = [], 0
    while len(written) < events:
        written.append(["round"])
        for place in range(1, flows):
            written += [["send", place], ["deliver", sent], ["hand", sent]]
            sent += 1
    return written


def lockstep(_flows, events):
    return [["round"], ["all"]] * (events // 2 + 1)


SCRIPTS = {"mixture": mixture, "steady": steady, "straggler": straggler, "lockstep": lockstep}


def document(flows, events, steps=200, tunnels=2, links=4, script="mixture"):
    return {"problem": network(flows, steps, tunnels, links), "plan": plan(flows, steps, tunnels), "script": SCRIPTS[script](flows, events)[:events]}


def main():
    words = argparse.ArgumentParser(description=__doc__, formatter_class=argparse.RawDescriptionHelpFormatter)
    for name, value in (("flows", 20), ("events", 10000), ("steps", 200), ("tunnels", 2), ("links", 4)):
        words.add_argument(f"--{name}", type=int, default=value)
    words.add_argument("--script", choices=SCRIPTS, default="mixture")
    json.dump(document(**vars(words.parse_args())), sys.stdout)


if __name__ == "__main__":
    main()
