"""What `swanroll explain` prints, beside the same in Python as docs/TEXTS.md says it: over the examples and over drawn documents. And that the numbers
mean the same elsewhere: a rehearsal sends each operation that is told, once, and none before the items that it needs stand where it needs them.

    python3 tests/explained.py PROGRAM
"""

import functools
import glob
import json
import os
import random
import re
import subprocess
import sys

from outcomes import report

TOP = os.path.join(os.path.dirname(os.path.abspath(__file__)), "..")
DRAWN, SEED, MOST_TURNS = 400, 61_000, 400


def quoted(name):
    """A name as its JSON text, in which only what has to be escaped is."""
    return json.dumps(name, ensure_ascii=False)


def run_start(holds, stage):
    """The first of the stages in a row up to this one, all but this one of which pass the test."""
    while stage and holds(stage - 1):
        stage -= 1
    return stage


class Explained:
    """A document's items, each a home, what it is, its content at each stage, and what its operation to a stage needs."""

    def __init__(self, document):
        problem, plan = document["problem"], document["plan"]
        self.scale, self.stages = plan["scale"], plan["stages"]
        self.homes, self.kinds, self.contents, self.needs = [], [], [], []
        tunnels = [(flow, place, tunnel["path"]) for flow, one in enumerate(problem["flows"]) for place, tunnel in enumerate(one["tunnels"])]
        entries = {}
        number = len(problem["flows"])
        for tunnel, (_, _, path) in enumerate(tunnels):
            entries[tunnel] = range(number, number + len(path))
            number += len(path)
        for flow, one in enumerate(problem["flows"]):
            own = [tunnel for tunnel, row in enumerate(tunnels) if row[0] == flow]
            home = quoted(tunnels[own[0]][2][0]) if own else "none"
            self.add(home, f"flow {quoted(one['name'])} at {home}", [[stage["rates"][tunnel] for tunnel in own] for stage in self.stages],
                     lambda to, own=own: [(entry, run_start(self.installed(tunnel), to)) for tunnel in own if self.stages[to]["rates"][tunnel] for entry in entries[tunnel]])
        for tunnel, (flow, place, path) in enumerate(tunnels):
            for switch in path:
                what = f"entry at {quoted(switch)} of flow {quoted(problem['flows'][flow]['name'])} tunnel {place} {'>'.join(map(quoted, path))}"
                self.add(quoted(switch), what, [stage["installed"][tunnel] for stage in self.stages],
                         lambda to, flow=flow, tunnel=tunnel: [] if self.stages[to]["installed"][tunnel] else [(flow, run_start(self.idle(tunnel), to - 1))])
        self.operations = [[to for to in range(1, len(self.stages)) if row[to] != row[to - 1]] for row in self.contents]

    def add(self, home, kind, contents, needs):
        self.homes.append(home)
        self.kinds.append(kind)
        self.contents.append(contents)
        self.needs.append(needs)

    def installed(self, tunnel):
        return lambda stage: self.stages[stage]["installed"][tunnel]

    def idle(self, tunnel):
        return lambda stage: self.stages[stage]["rates"][tunnel] == 0

    @functools.cached_property
    def followers(self):
        """The operations that need one, by its item and the stage to which it leads."""
        found = {}
        for item, row in enumerate(self.operations):
            for before, to in enumerate(row):
                for need in set(self.needs[item](to)):
                    found.setdefault(need, []).append((item, before))
        return found

    @functools.lru_cache(maxsize=None)
    def chain(self, item, before):
        row = self.operations[item]
        behind = [(item, before + 1)] if before + 1 < len(row) else []
        return 1 + max((self.chain(*one) for one in behind + self.followers.get((item, row[before]), [])), default=0)

    def what(self, item, to):
        before, after = self.contents[item][to - 1:to + 1]
        if isinstance(after, list):
            return f"rates {' '.join(map(str, before))} to {' '.join(map(str, after))}"
        return "install" if after else "remove"

    def lines(self):
        yield f"items {len(self.kinds)}, operations {sum(map(len, self.operations))}, stages {len(self.stages) - 1}, scale {self.scale}"
        for item, row in enumerate(self.operations):
            yield f"item {item}: {self.kinds[item]}, operations {len(row)}"
            for before, to in enumerate(row):
                needs = "".join(f", needs item {other} at stage {stage}" for other, stage in self.needs[item](to) if stage)
                yield f"item {item} operation {before + 1}: to stage {to}, {self.what(item, to)}, chain {self.chain(item, before)}{needs}"

    def text(self):
        return "".join(f"{line}\n" for line in self.lines())


# Documents that are drawn: links and tables have room for all, so that a plan is valid where it begins and ends as the problem says, where a tunnel that
# carries is installed before and behind, and where a flow's total lies between its old and its new one.

def marks(draw, count):
    """Whether a tunnel is installed at each stage: mostly as at the one before."""
    row = [draw.random() < 0.6]
    while len(row) < count:
        row.append(row[-1] if draw.random() < 0.6 else not row[-1])
    return row


def parts(draw, total, places, count):
    """A total over some of so many places."""
    row = [0] * count
    for place in draw.sample(places, min(len(places), draw.randint(1, 3))) if total else []:
        row[place] = draw.randint(0, total)
        total -= row[place]
    if total:
        row[draw.choice(places)] += total
    return row


def drawn_flow(draw, number, switches, count, scale):
    """A flow with its tunnels' rates and marks at each stage."""
    names = draw.sample(switches, 2)
    between = [name for name in switches if name not in names]
    paths = [[names[0], *draw.sample(between, draw.randint(0, min(3, len(between)))), names[1]] for _ in range(draw.randint(0, 4))]
    installed = [marks(draw, count) for _ in paths]
    if paths and draw.random() < 0.7:
        installed[draw.randrange(len(paths))] = [True] * count
    carried = [[tunnel for tunnel in range(len(paths)) if all(installed[tunnel][max(0, stage - 1):stage + 2])] for stage in range(count)]
    ends = [draw.choice([0, draw.randint(1, 9)]) if carried[stage] else 0 for stage in (0, count - 1)]
    if min(ends) and not all(carried):
        ends[draw.randint(0, 1)] = 0  # so that it may carry nothing in between
    totals = [scale * ends[0]] + [draw.randint(scale * min(ends), scale * max(ends)) if carried[stage] else 0 for stage in range(1, count - 1)] + [scale * ends[1]]
    rates = [parts(draw, totals[stage], carried[stage], len(paths)) for stage in range(count)]
    for stage, end in ((0, ends[0]), (count - 1, ends[1])):
        rates[stage] = [scale * rate for rate in parts(draw, end, carried[stage], len(paths))]
    sides = [[rate // scale if row[stage] else None for rate, row in zip(rates[stage], installed)] for stage in (0, count - 1)]
    tunnels = [{"path": path, "old": old, "new": new} for path, old, new in zip(paths, *sides)]
    return {"name": draw.choice(["f", "flow ", "\"q\" ", "é\n"]) + str(number), "tunnels": tunnels}, rates, installed


def drawn(seed):
    draw = random.Random(seed)
    count, scale = draw.randint(2, 9), draw.choice([1, 1, 2, 3])
    switches = [draw.choice(["s", "S ", "\\"]) + str(number) for number in range(draw.randint(2, 7))]
    flows = [drawn_flow(draw, number, switches, count, scale) for number in range(draw.randint(0, 5))]
    wide = draw.random() < 0.3
    if wide:
        for flow, _, _ in flows:
            for tunnel in flow["tunnels"]:
                tunnel["width"] = draw.randint(1, 16)
    problem = {
        "format": 2 if wide else 1,
        "switches": [{"name": name, "table": 10_000} for name in switches],
        "links": [{"from": one, "to": other, "capacity": 10_000} for one in switches for other in switches if one != other],
        "flows": [flow for flow, _, _ in flows],
    }
    stages = [{"installed": [row[stage] for _, _, installed in flows for row in installed], "rates": [rate for _, rates, _ in flows for rate in rates[stage]]}
              for stage in range(count)]
    return {"problem": problem, "plan": {"scale": scale, "stages": stages}}


# What is held to it.

def run(program, word, text):
    done = subprocess.run([program, word], input=text.encode(), capture_output=True)
    return done.returncode, done.stdout.decode(), done.stderr.decode()


def documents(program):
    """The documents of the examples, and those that `plan` makes of their problems, by name."""
    for path in sorted(glob.glob(f"{TOP}/examples/**/*.json", recursive=True)) + sorted(glob.glob(f"{TOP}/examples/networks/*.out")):
        with open(path, encoding="utf-8") as file:
            text = file.read()
        if not text.startswith("{"):
            continue
        name, value = os.path.relpath(path, TOP), json.loads(text)
        if "plan" not in value:
            status, text, _ = run(program, "plan", text)
            if status:
                continue
            value = json.loads(text)
        if not run(program, "check", text)[0]:
            yield name, value
    for number in range(DRAWN):
        yield f"drawn {number}", drawn(SEED + number)


def explained(program, document):
    wanted = Explained(document).text()
    found = run(program, "explain", json.dumps(document))
    if found == (0, wanted, ""):
        return None
    differing = next(((line, other) for line, other in zip(found[1].split("\n"), wanted.split("\n")) if line != other), None)
    return f"status {found[0]}, {found[2] or differing}"


# What a rehearsal sends, one operation at a time, beside what is told of it.

TOLD = re.compile(r"item (\d+) operation (\d+): to stage (\d+), .*?, chain \d+((?:, needs item \d+ at stage \d+)*)$", re.M)


def rehearsed(program, document):
    text = run(program, "explain", json.dumps(document))[1]
    told = {(int(item), int(number)): (int(to), [tuple(map(int, need)) for need in re.findall(r"item (\d+) at stage (\d+)", needs)])
            for item, number, to, needs in TOLD.findall(text)}
    if len(told) > MOST_TURNS:
        return None
    script = [act for turn in range(len(told)) for act in (["round"], ["send", 0], ["deliver", turn], ["hand", turn])] + [["round"]]
    status, lines, notes = run(program, "sim", json.dumps(dict(document, script=script)))
    if status or not lines.endswith("\nfinished\n"):
        return f"status {status}, {notes or lines[-40:]}"
    settled = {}
    for pair in re.findall(r"send 0: item (\d+) operation (\d+)", lines):
        item, number = map(int, pair)
        if (item, number) not in told or number != settled.get(item, 0) + 1:
            return f"item {item} operation {number} isn't told, or not the next"
        for other, stage in told[item, number][1]:
            behind = told.get((other, settled.get(other, 0) + 1))
            if behind and behind[0] <= stage:
                return f"item {item} operation {number} begins before item {other} stands at stage {stage}"
        settled[item] = number
    return None if sum(settled.values()) == len(told) else f"{sum(settled.values())} of {len(told)} are sent"


def outcomes(program):
    for name, document in documents(program):
        yield f"{name}, explained", explained(program, document)
        yield f"{name}, rehearsed", rehearsed(program, document)


if __name__ == "__main__":
    report("explained", "documents", outcomes(sys.argv[1]))
