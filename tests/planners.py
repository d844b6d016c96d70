"""Compares `plan --planner fewest` with the same definition in plain Python.

    python3 tests/planners.py PROGRAM [--count N] [--seed N]

Draws that many problems with a fixed seed, 2,000 by default: small networks, wide and narrow ones, rates that fill links wholly or in part.
The definition reads the least slack from the problem, what is chosen without the greedy rule from `plan` itself, and goes the rule's steps
tunnel by tunnel. The document that `fewest` writes has to be the one of the plan that the definition gives, byte for byte; `check` accepts each.
Where there is none, the line has to say so, and name the link that the definition finds stuck, where it finds one.
"""

import argparse
import collections
import json
import random
import subprocess
import sys

PARTS = (1, 2, 12)
MOST_RATE_STEPS = 252

Tunnel = collections.namedtuple("Tunnel", "flow links old new had has width path")


class Problem:
    """What the rule asks of a problem: capacities by link, tunnels with their links, and flows with their tunnels."""

    def __init__(self, given):
        self.given = given
        numbers = {(link["from"], link["to"]): l for l, link in enumerate(given["links"])}
        self.capacities = [link["capacity"] for link in given["links"]]
        self.tables = {switch["name"]: switch["table"] for switch in given["switches"]}
        self.tunnels, self.flows = [], []
        for f, flow in enumerate(given["flows"]):
            self.flows.append([])
            for row in flow["tunnels"]:
                self.flows[-1].append(len(self.tunnels))
                self.tunnels.append(Tunnel(
                    f, [numbers[ends] for ends in zip(row["path"], row["path"][1:])],
                    row.get("old") or 0, row.get("new") or 0, row.get("old") is not None, row.get("new") is not None,
                    row.get("width", 1), row["path"]))
        self.growths = [self.growths_of(f) for f in range(len(self.flows))]

    def growths_of(self, f):
        """What a step of 1 in the flow's share adds on each link on which it grows."""
        growths = collections.Counter()
        for t in self.flows[f]:
            for l in self.tunnels[t].links:
                growths[l] += max(0, self.tunnels[t].new - self.tunnels[t].old)
        return {l: growth for l, growth in sorted(growths.items()) if growth > 0}

    def loads(self, rates):
        sums = [0] * len(self.capacities)
        for tunnel, rate in zip(self.tunnels, rates):
            for l in tunnel.links:
                sums[l] += rate
        return sums

    def rates(self, parts, shares):
        return [(parts - shares[t.flow]) * t.old + shares[t.flow] * t.new for t in self.tunnels]

    def split_loads(self):
        """The loads of the old split and of the new one."""
        return self.loads([t.old for t in self.tunnels]), self.loads([t.new for t in self.tunnels])

    def least_slack(self):
        old, new = self.split_loads()
        for k in range(2, 65):
            if all(k * load <= (k - 1) * capacity for sums in (old, new) for load, capacity in zip(sums, self.capacities)):
                return k
        return None


def rate_step(problem, parts, order, before):
    """Each flow in turn goes as far as the tops let it: the sums of the larger rates, with those not yet moved where they are."""
    after = list(before)
    for f in order:
        tops = problem.loads([max(a, b) for a, b in zip(problem.rates(parts, before), problem.rates(parts, after))])
        far = parts - after[f]
        for l, growth in problem.growths[f].items():
            far = min(far, max(0, problem.capacities[l] * parts - tops[l]) // growth)
        after[f] += far
    return after


def walk(problem, parts, order, most):
    """The rates between, where all flows arrive within so many rate steps."""
    shares, rows = [0] * len(problem.flows), []
    for _ in range(most):
        after = rate_step(problem, parts, order, shares)
        if all(share == parts for share in after):
            return rows
        if after == shares:
            return None
        rows.append(problem.rates(parts, after))
        shares = after
    return None


def frame(problem, scale, between):
    """The plan over the rates between: idle tunnels go, new ones come, rates move, and those that are no longer wanted go."""
    tunnels = problem.tunnels
    old, new = [scale * t.old for t in tunnels], [scale * t.new for t in tunnels]
    used = [t.has or t.old > 0 for t in tunnels]
    stages = [{"installed": [t.had for t in tunnels], "rates": old}]
    if any(t.had and not u for t, u in zip(tunnels, used)):
        stages.append({"installed": [t.had and u for t, u in zip(tunnels, used)], "rates": old})
    if any(t.has and not t.had for t in tunnels):
        stages.append({"installed": used, "rates": old})
    for row in between + [new]:
        stages.append({"installed": used, "rates": row})
    if any(u and not t.has for t, u in zip(tunnels, used)):
        stages.append({"installed": [t.has for t in tunnels], "rates": new})
    return {"scale": scale, "stages": stages}


def fits(problem, plan):
    """Whether the tables hold each stage's entries with those of the stage behind it; the rule itself keeps the links."""
    for here, behind in zip(plan["stages"], plan["stages"][1:] + plan["stages"][-1:]):
        entries = collections.Counter()
        for tunnel, a, b in zip(problem.tunnels, here["installed"], behind["installed"]):
            for switch in tunnel.path if a or b else ():
                entries[switch] += tunnel.width
        if any(entries[switch] > table for switch, table in problem.tables.items()):
            return False
    return True


def fullest(problem):
    """The links that are at least four fifths as full as each link is, in the fuller split."""
    most = [max(both) for both in zip(*problem.split_loads())]
    count, capacities = len(most), problem.capacities
    return {l for l in range(count) if all(4 * most[m] * capacities[l] <= 5 * most[l] * capacities[m] for m in range(count))}


def relief(problem):
    """How much more each flow loads the fullest links with in the end."""
    links, more = fullest(problem), [0] * len(problem.flows)
    for tunnel in problem.tunnels:
        more[tunnel.flow] += (tunnel.new - tunnel.old) * sum(l in links for l in tunnel.links)
    return more


def orders(problem):
    """By item, and those first that relieve the fullest links of most."""
    items, more = list(range(len(problem.flows))), relief(problem)
    return [items, sorted(items, key=lambda f: (more[f], f))]


def by_rule(problem, most):
    """The plan of the rule with the fewest rate steps, no more than so many, and the first of several."""
    found = None
    for order in orders(problem):
        for parts in PARTS:
            fewer = most if found is None else min(most, found[0] - 1)
            between = walk(problem, parts, order, fewer)
            if between is not None:
                plan = frame(problem, parts, between)
                if fits(problem, plan):
                    found = (len(between) + 1, plan)
    return found


def stay_full(problem, links):
    """Whether the flows take all of these links at each stage: each flow the smaller of its totals, once for each link that every one of its tunnels has."""
    kept = 0
    for tunnels in problem.flows:
        rows = [problem.tunnels[t] for t in tunnels]
        if rows:
            often = min(sum(l in links for l in row.links) for row in rows)
            kept += often * min(sum(row.old for row in rows), sum(row.new for row in rows))
    return sum(problem.capacities[l] for l in links) <= kept


def stuck(problem):
    """The first link that stays full, by itself or with those that leave its first switch or enter its second, though something on it is to move."""
    ends = [(link["from"], link["to"]) for link in problem.given["links"]]
    for l, (old, new, capacity) in enumerate(zip(*problem.split_loads(), problem.capacities)):
        moves = any(l in t.links and t.old != t.new for t in problem.tunnels)
        groups = [{l}] + [{k for k in range(len(ends)) if ends[k][side] == ends[l][side]} for side in (0, 1)]
        if old == new == capacity and moves and any(stay_full(problem, links) for links in groups):
            return l
    return None


def run(program, words, text):
    done = subprocess.run([program] + words, input=text, capture_output=True)
    return done.returncode, done.stdout, done.stderr


def rate_steps(plan):
    """How many steps of a plan that was chosen move rates."""
    stages = plan["stages"]
    return sum(a["rates"] != b["rates"] for a, b in zip(stages, stages[1:]))


def written(problem, plan):
    """The bytes of a problem's document."""
    return json.dumps({"plan": plan, "problem": problem.given}, separators=(",", ":"), sort_keys=True).encode() + b"\n"


def room(problem, steps):
    """How many rate steps the rule may have in place of a plan with so many: as many where that is from scratch, else fewer."""
    slack = problem.least_slack()
    return min(MOST_RATE_STEPS, steps if slack is not None and slack - 1 == steps else max(0, steps - 1))


def wanted(problem, chosen):
    """What `fewest` has to answer, from what `plan` answered."""
    status, out, err = chosen
    if status == 0:
        found = by_rule(problem, room(problem, rate_steps(json.loads(out)["plan"])))
        return (0, written(problem, found[1]), b"") if found else chosen
    if b"leaves no slack" not in err:
        return chosen
    found = by_rule(problem, MOST_RATE_STEPS)
    return (0, written(problem, found[1]), b"") if found else (4, b"", refused(problem, err))


def refused(problem, err):
    link = stuck(problem)
    if link is None:
        return err.replace(b"no plan: ", b"no plan: none found, ")
    ends = [json.dumps(problem.given["links"][link][side]) for side in ("from", "to")]
    return f"no plan: none exists, link {ends[0]}>{ends[1]} stays full\n".encode()


def drawn(rng):
    """A network of a ring with chords, flows over its paths, and links that hold the larger load of each with a share more."""
    count = rng.randint(3, 9)
    names = [f"s{n}" for n in range(count)]
    ends = {(a, (a + 1) % count) for a in range(count)} | {((a + 1) % count, a) for a in range(count)}
    for _ in range(rng.randint(0, count)):
        a, b = rng.sample(range(count), 2)
        ends |= {(a, b), (b, a)}
    beside = collections.defaultdict(list)
    for a, b in sorted(ends):
        beside[a].append(b)
    flows = []
    for f in range(rng.randint(1, 12)):
        a, b = rng.sample(range(count), 2)
        paths = sorted({tuple(path) for path in (any_path(rng, beside, a, b) for _ in range(rng.randint(1, 4))) if path})
        if paths:
            flows.append({"name": f"f{f}", "tunnels": [any_tunnel(rng, [names[n] for n in path]) for path in paths]})
            level(rng, flows[-1])
    links = [{"from": names[a], "to": names[b], "capacity": 0} for a, b in sorted(ends)]
    widen(rng, links, flows)
    table = rng.choice((1000, 1000, 1000, rng.randint(1, 30)))
    return {"flows": flows, "links": links, "switches": [{"name": name, "table": table} for name in names]}


def any_path(rng, beside, a, b):
    path = [a]
    while path[-1] != b:
        further = [n for n in beside[path[-1]] if n not in path]
        if not further or len(path) > 8:
            return None
        path.append(rng.choice(further))
    return path


def any_tunnel(rng, path):
    tunnel = {"path": path}
    for side in ("old", "new"):
        tunnel[side] = rng.choice((0, rng.randint(1, 12), rng.randint(1, 12))) if rng.random() < 0.85 else None
    return tunnel


def level(rng, flow):
    """Mostly as much traffic after as before."""
    if rng.random() < 0.8:
        old, new = (sum(t[side] or 0 for t in flow["tunnels"]) for side in ("old", "new"))
        tunnel = rng.choice(flow["tunnels"])
        side = "old" if old < new else "new"
        tunnel[side] = (tunnel[side] or 0) + abs(new - old)


def widen(rng, links, flows):
    share = rng.choice((0, 0, rng.random() * 0.25))
    loads = collections.Counter()
    for flow in flows:
        for tunnel in flow["tunnels"]:
            for side in ("old", "new"):
                for ends in zip(tunnel["path"], tunnel["path"][1:]):
                    loads[ends, side] += tunnel[side] or 0
    for link in links:
        most = max(loads[(link["from"], link["to"]), side] for side in ("old", "new"))
        link["capacity"] = int(most * (1 + share)) + rng.choice((0, 0, 0, rng.randint(0, 3)))


def compare(program, given, counts):
    text = json.dumps(given, separators=(",", ":"), sort_keys=True).encode()
    problem = Problem(given)
    chosen = run(program, ["plan"], text)
    if chosen[0] not in (0, 4):
        return f"plan ends with {chosen} on {text.decode()}"
    found = run(program, ["plan", "--planner", "fewest"], text)
    answer = wanted(problem, chosen)
    counts["as chosen" if answer == chosen else "by the rule" if answer[0] == 0 else "none exists" if b"none exists" in answer[2] else "none found"] += 1
    if found != answer:
        return f"{found} is not {answer} on {text.decode()}"
    if found[0] == 0 and run(program, ["check"], found[1])[0] != 0:
        return f"check refuses {found[1].decode()}"
    return None


def main():
    words = argparse.ArgumentParser(description=__doc__, formatter_class=argparse.RawDescriptionHelpFormatter)
    words.add_argument("program")
    words.add_argument("--count", type=int, default=2000)
    words.add_argument("--seed", type=int, default=43000)
    given = words.parse_args()
    counts = collections.Counter()
    for number in range(given.count):
        fault = compare(given.program, drawn(random.Random(given.seed + number)), counts)
        if fault:
            sys.exit(f"planners: problem {number}: {fault}")
    lacking = [end for end in ("as chosen", "by the rule", "none found", "none exists") if 50 * counts[end] < given.count]
    if lacking:
        sys.exit(f"planners: hardly a problem of {given.count} ends {', '.join(lacking)}")
    print(f"planners: {given.count} problems as the definition says, {counts['by the rule']} by the greedy rule and {counts['as chosen']} as chosen without it; "
          f"none found for {counts['none found']}, and none exists for {counts['none exists']}")


if __name__ == "__main__":
    main()
