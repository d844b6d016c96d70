"""Writes a problem of a given size, that goes in one step, to standard output, or a document of it.

    python3 bench/generate.py [--share N] [--stages N] [--slack K] [--refused]

The largest has every count at its limit: 1,024 switches, 2,048 links, 1,024 flows, 4,096 tunnels, 16 links a path, names of
128 bytes. With --share N each count of rows is an N-th of that. With --stages it is a document whose plan has so many stages, which go from the
old rates to the new ones in equal steps. With --slack K the rates are large and each link has the least capacity of which both loads leave
a K-th free, so that it takes K - 1 steps where no linear program is small enough. With --refused the first link has no capacity, so that the
problem is refused right after reading.
"""

import argparse
import itertools
import json
import sys

SWITCHES, LINKS_OF_A_PATH, TUNNELS_OF_A_FLOW, NAME = 1024, 16, 4, 128


def name(kind, number):
    return f"{kind}{number}-".ljust(NAME, "x")


def paths(count, start, switches):
    """So many paths of one pair of ends: eight steps to the next switch and eight to the one behind it, in other orders."""
    half = LINKS_OF_A_PATH // 2
    for places in itertools.islice(itertools.combinations(range(LINKS_OF_A_PATH), half), count):
        at, path = start, [start]
        for hop in range(LINKS_OF_A_PATH):
            at = (at + (1 if hop in places else 2)) % switches
            path.append(at)
        yield path


def problem(share):
    switches = SWITCHES // share
    tunnels = []
    for flow in range(switches):
        split = [(3, 1), (1, 3), (2, 0), (0, 2)]
        tunnels.append([
            {"path": [name("s", at) for at in path], "old": old, "new": new}
            for path, (old, new) in zip(paths(TUNNELS_OF_A_FLOW, flow, switches), split)
        ])
    return {
        "switches": [{"name": name("s", at), "table": 1000000} for at in range(switches)],
        "links": [
            {"from": name("s", at), "to": name("s", (at + step) % switches), "capacity": 1000000000000}
            for at in range(switches) for step in (1, 2)
        ],
        "flows": [{"name": name("f", flow), "tunnels": tunnels[flow]} for flow in range(switches)],
    }


def tighten(moved, share):
    """Large rates, and of each link the least capacity with that share free of the old and of the new load."""
    loads = {}
    for flow in moved["flows"]:
        for tunnel in flow["tunnels"]:
            for side in ("old", "new"):
                tunnel[side] *= 300000000
                for ends in zip(tunnel["path"], tunnel["path"][1:]):
                    loads[ends, side] = loads.get((ends, side), 0) + tunnel[side]
    for link in moved["links"]:
        most = max(loads.get(((link["from"], link["to"]), side), 0) for side in ("old", "new"))
        link["capacity"] = -(-share * most // (share - 1))


def plan(moved, stages):
    """Stage s of so many has, at the scale of the steps, each rate a step nearer to the new one."""
    steps = stages - 1
    splits = [(tunnel["old"], tunnel["new"]) for flow in moved["flows"] for tunnel in flow["tunnels"]]
    return {"scale": steps, "stages": [
        {"installed": [True] * len(splits), "rates": [(steps - s) * old + s * new for old, new in splits]} for s in range(stages)
    ]}


def main():
    words = argparse.ArgumentParser(description=__doc__, formatter_class=argparse.RawDescriptionHelpFormatter)
    words.add_argument("--share", type=int, default=1)
    words.add_argument("--stages", type=int)
    words.add_argument("--slack", type=int)
    words.add_argument("--refused", action="store_true")
    given = words.parse_args()
    moved = problem(given.share)
    if given.slack is not None:
        tighten(moved, given.slack)
    if given.refused:
        moved["links"][0]["capacity"] = 0
    json.dump(moved if given.stages is None else {"problem": moved, "plan": plan(moved, given.stages)}, sys.stdout)


if __name__ == "__main__":
    main()
