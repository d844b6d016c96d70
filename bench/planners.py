"""Counts rate steps and operations of the plans that both planners give, rolls both out, and times the planners on the largest problem.

    python3 bench/planners.py [--program PROGRAM] [--drawn N] [--seed N] [--runs N] [--check]

Over `examples/networks` and over drawn networks of 12 to 40 switches with 60 to 300 flows and a fullest link of 80 to 100%. An operation is
an item that changes from one stage to the next: a flow's rates, or a tunnel's entry at a switch. Each plan is rolled out by `run` over switches
on loopback, which carry out what they are sent 20 ms later, and answer then. With --check it ends with status 1 where `fewest` has more rate
steps than `slack`, fewer than two thirds of the plans from scratch are bettered, their rollouts take more than 0.6 of the time in the middle,
or `fewest` takes more than 3 times the processor's seconds of `slack` on the largest problem.
"""

import argparse
import collections
import glob
import json
import os
import random
import statistics
import subprocess
import sys
import threading
import time

HERE = os.path.dirname(os.path.abspath(__file__))
sys.path.insert(0, os.path.join(HERE, "..", "tests"))

from measure import PROGRAM
from planners import Problem, rate_steps, run
from rolling import rollout
from runs import used_by
from switches import plain

# After how many seconds a switch carries out what it is sent.
AWAY = 0.02


def operations(document):
    """How many items change from a stage to the next."""
    stages, flows, first, made = document["plan"]["stages"], document["problem"]["flows"], 0, 0
    steps = list(zip(stages, stages[1:]))
    for flow in flows:
        rows = range(first, first + len(flow["tunnels"]))
        made += sum(any(a["rates"][t] != b["rates"][t] for t in rows) for a, b in steps)
        for t, tunnel in zip(rows, flow["tunnels"]):
            made += len(tunnel["path"]) * sum(a["installed"][t] != b["installed"][t] for a, b in steps)
        first += len(flow["tunnels"])
    return made


def drawn(rng):
    """A ring with chords, flows on their shortest paths before and after, and capacities by which the fullest link is so full."""
    count = rng.randint(12, 40)
    beside = collections.defaultdict(set)
    for a in range(count):
        beside[a].add((a + 1) % count)
        beside[(a + 1) % count].add(a)
    for _ in range(count):
        a, b = rng.sample(range(count), 2)
        beside[a].add(b)
        beside[b].add(a)
    flows = []
    for f in range(rng.randint(60, 300)):
        a, b = rng.sample(range(count), 2)
        paths = sorted({tuple(shortest(rng, beside, a, b)) for _ in range(rng.randint(2, 4))})
        rate, splits = rng.randint(10, 100), {}
        for side in ("old", "new"):
            cuts = sorted(rng.choice((0, rate, rng.randint(0, rate))) for _ in paths[1:])
            splits[side] = [b - a for a, b in zip([0] + cuts, cuts + [rate])]
        flows.append({"name": f"f{f}", "tunnels": [
            {"path": [f"s{n}" for n in path], "old": old, "new": new} for path, old, new in zip(paths, splits["old"], splits["new"])]})
    return sized(rng, beside, flows)


def shortest(rng, beside, a, b):
    """A path of the fewest links, or now and then one by way of any switch."""
    if rng.random() < 0.5:
        return reach(rng, beside, a, b, set())
    by = rng.choice([n for n in beside if n not in (a, b)])
    front = reach(rng, beside, a, by, {b})
    back = front and reach(rng, beside, by, b, set(front[:-1]))
    path = front + back[1:] if front and back else None
    return path if path and len(path) <= 17 else reach(rng, beside, a, b, set())


def reach(rng, beside, a, b, without):
    before, row = {a: None}, [a]
    for at in row:
        for n in rng.sample(sorted(beside[at]), len(beside[at])):
            if n not in before and n not in without:
                before[n] = at
                row.append(n)
    if b not in before:
        return None
    path = [b]
    while before[path[-1]] is not None:
        path.append(before[path[-1]])
    return path[::-1]


def sized(rng, beside, flows):
    loads = collections.Counter()
    for flow in flows:
        for tunnel in flow["tunnels"]:
            for side in ("old", "new"):
                for ends in zip(tunnel["path"], tunnel["path"][1:]):
                    loads[ends, side] += tunnel[side]
    full, links = rng.uniform(0.8, 1.0), []
    for a in sorted(beside):
        for b in sorted(beside[a]):
            most = max(loads[(f"s{a}", f"s{b}"), side] for side in ("old", "new"))
            links.append({"from": f"s{a}", "to": f"s{b}", "capacity": int(-(-most // (full * rng.choice((1, 1, 0.9, 0.7)))))})
    return {"flows": flows, "links": links, "switches": [{"name": f"s{n}", "table": 100000} for n in sorted(beside)]}


def far(switch, guest, command):
    """The command comes, and is carried out and answered some time later."""
    def answered():
        try:
            plain(switch, guest, command)
        except OSError:  # the controller is gone
            pass
    threading.Timer(AWAY, answered).start()


def seconds_of_run(program, text):
    """How long a plan takes to be rolled out."""
    with rollout(program, text, fates=far) as it:
        begun = time.perf_counter()
        end = it.ended(it.start())
        if end[0]:
            sys.exit(f"planners: run ended with {end}")
        return time.perf_counter() - begun


def figures(program, text):
    """Rate steps, operations and seconds of the rollout by both planners, or the line of the notes where there is no plan."""
    found = []
    for words in (["plan"], ["plan", "--planner", "fewest"]):
        status, out, err = run(program, words, text)
        document = json.loads(out) if status == 0 else None
        found.append((rate_steps(document["plan"]), operations(document), seconds_of_run(program, out.decode())) if document else err.decode().strip())
    return found


def told(found):
    return found if isinstance(found, str) else f"{found[0]} rate steps, {found[1]} operations, {found[2]:.1f} s"


def largest(program, runs):
    """The least processor's seconds of each planner on the largest problem that takes 63 steps from scratch."""
    text = subprocess.run([sys.executable, "-B", os.path.join(HERE, "generate.py"), "--slack", "64"], capture_output=True, check=True).stdout
    return [min(used_by([program] + words, input=text) for _ in range(runs)) for words in (["plan"], ["plan", "--planner", "fewest"])]


def main():
    words = argparse.ArgumentParser(description=__doc__, formatter_class=argparse.RawDescriptionHelpFormatter)
    words.add_argument("--program", default=PROGRAM)
    words.add_argument("--drawn", type=int, default=50)
    words.add_argument("--seed", type=int, default=61000)
    words.add_argument("--runs", type=int, default=5)
    words.add_argument("--check", action="store_true")
    given = words.parse_args()
    faults, shares, times, scratch, bettered, sums, missed = [], [], [], 0, 0, [[0, 0], [0, 0]], collections.Counter()
    networks = [path for path in sorted(glob.glob(os.path.join(HERE, "..", "examples", "networks", "*.json"))) if not os.path.exists(path[:-5] + ".words")]
    texts = [(os.path.basename(path), open(path, "rb").read()) for path in networks]
    texts += [(f"drawn {n}", json.dumps(drawn(random.Random(given.seed + n))).encode()) for n in range(given.drawn)]
    for name, text in texts:
        slack, fewest = figures(given.program, text)
        print(f"planners: {name}: slack {told(slack)}; fewest {told(fewest)}")
        if isinstance(slack, str):
            missed["planned" if not isinstance(fewest, str) else "none exists" if "none exists" in fewest else "none found"] += 1
        elif isinstance(fewest, str) or fewest[0] > slack[0]:
            faults.append(f"{name}: fewest has more")
        else:
            for sum_of, found in zip(sums, (slack, fewest)):
                sum_of[0] += found[0]
                sum_of[1] += found[1]
            if Problem(json.loads(text)).least_slack() == slack[0] + 1 and slack[0] > 1:
                scratch += 1
                bettered += fewest[0] < slack[0]
                shares.append(fewest[0] / slack[0])
                times.append(fewest[2] / slack[2])
    print(f"planners: rate steps {sums[0][0]} and {sums[1][0]}, operations {sums[0][1]} and {sums[1][1]}, by slack and by fewest")
    if scratch:
        print(f"planners: {bettered} of {scratch} plans from scratch bettered; in the middle {statistics.median(shares):.2f} of their rate steps, and {statistics.median(times):.2f} of the seconds")
    print(f"planners: {sum(missed.values())} refused by slack, of which fewest plans {missed['planned']} and says of {missed['none exists']} that none exists")
    ours, theirs = largest(given.program, given.runs)
    print(f"planners: the largest problem: slack {ours:.3f} s of the processor, fewest {theirs:.3f} s, {theirs / ours:.1f} times")
    if 3 * bettered < 2 * scratch:
        faults.append(f"only {bettered} of {scratch} bettered")
    if times and statistics.median(times) > 0.6:
        faults.append("the rollouts take too long")
    if theirs > 3 * ours:
        faults.append("fewest takes too long")
    if given.check and faults:
        sys.exit("planners: " + "; ".join(faults))


if __name__ == "__main__":
    main()
