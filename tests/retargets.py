"""The command `left`: the problem that a rollout leaves where it stands, and what comes of it.

    python3 tests/retargets.py PROGRAM

At each drained moment of rollouts, and of plans and lists that are drawn: the problem is held to a plain Python of its definition, byte by byte; `plan` reads it, never refuses its
old side, and begins with what the switches hold; each link in turn is shed in one step. From such moments rollouts go on over sockets, with switches that hold the first migration,
to the target that they had, to the old split and to a third one. What flies, tunnels of which some entries are there alone, numbers on both sides of their limits, words and files.
"""

import json
import math
import os
import random
import subprocess
import sys

from carried import Items
from drains import canonical, listed
from explained import drawn
from from_here import AHEAD, DRAWN, MOST_OPERATIONS, PASSING, SEED, Standing, begun, tightened, walked
from journal_files import BEGIN, DONE, text_of
from named import EXCHANGE, FULL_TABLES, LATE, ONE, TWO
from outcomes import report
from rollbacks import journal
from rolling import finished, planned, rollout, same, stopped

USAGE = (2, "", "usage: swanroll COMMAND [--NAME VALUE]\n")
FAULT = stopped(8, "journal device fault")
LARGEST_RATE, LARGEST_CAPACITY = 1_000_000_000, 1_000_000_000_000


# The definition.

class Left:
    """What a rollout with this list leaves: the problem, or the line that says why none."""

    def __init__(self, value, entries):
        items = Items(value)
        self.items, self.settled = items, [0] * items.count
        flying = set()
        for kind, item, number in entries:
            flying ^= {item}
            self.settled[item] += kind == DONE
        there = Standing(value)
        self.stands = [there.stands(item, number) for item, number in enumerate(self.settled)]
        self.rates = [items.stages[self.stands[flow]]["rates"][tunnel] for flow, own in enumerate(items.own) for tunnel in own]
        marks = [[] for _ in items.tunnels]
        for number, (tunnel, _) in enumerate(items.entries):
            marks[tunnel].append(items.stages[self.stands[len(items.flows) + number]]["installed"][tunnel])
        self.marks = [row[0] for row in marks]
        partly = next((tunnel for tunnel, row in enumerate(marks) if len(set(row)) > 1), None)
        self.unit = math.gcd(items.scale, *self.rates)
        self.factor = items.scale // self.unit
        if flying:
            item = min(flying)
            self.line = f"flying: item {item} operation {self.settled[item] + 1}"
        elif partly is not None:
            self.line = f"partly: tunnel {partly}"
        else:
            self.line = self.too_large()

    def old(self):
        return [rate // self.unit if mark else None for rate, mark in zip(self.rates, self.marks)]

    def new(self):
        return [None if tunnel["new"] is None else tunnel["new"] * self.factor for tunnel in self.items.tunnels]

    def too_large(self):
        capacities = [link["capacity"] * self.factor for link in self.items.problem["links"]]
        for what, numbers, most in (("capacity of link", capacities, LARGEST_CAPACITY), ("old rate of tunnel", self.old(), LARGEST_RATE), ("new rate of tunnel", self.new(), LARGEST_RATE)):
            for number, found in enumerate(numbers):
                if found is not None and found > most:
                    return f"too large: {what} {number}: {found} above {most}"
        return None

    def problem(self, new=None):
        """The problem, with its own new rates or these."""
        old, new = iter(self.old()), iter(self.new() if new is None else new)
        flows = [dict(flow, tunnels=[dict(tunnel, old=next(old), new=next(new)) for tunnel in flow["tunnels"]]) for flow in self.items.flows]
        links = [dict(link, capacity=link["capacity"] * self.factor) for link in self.items.problem["links"]]
        return dict(self.items.problem, flows=flows, links=links)

    def shed(self, link):
        """The old rates, but for 0 on each tunnel over a link."""
        over = [(link["from"], link["to"]) in zip(tunnel["path"], tunnel["path"][1:]) for tunnel in self.items.tunnels]
        return [0 if crosses and rate is not None else rate for rate, crosses in zip(self.old(), over)]

    def text(self):
        return text_of(self.problem()) + "\n"

    def answer(self):
        return stopped(16, self.line) if self.line else (0, self.text(), "")


# What `left` says, and `plan` makes of it.

def said(one, words="left", text=None, path=None):
    return one.ended(one.start(words, one.having(SWANROLL_JOURNAL=path or one.journal)), text)


def chosen(program, problem):
    done = subprocess.run([program, "plan"], input=text_of(problem), capture_output=True, text=True)
    return done.returncode, json.loads(done.stdout) if done.returncode == 0 else None, done.stderr


def begins_there(left, document):
    """What the first stage of a plan differs in from what the switches hold, or None."""
    scale, first = document["plan"]["scale"], document["plan"]["stages"][0]
    return same([rate * left.unit for rate in first["rates"]], [rate * scale for rate in left.rates]) or same(first["installed"], left.marks)


def sheds(program, left):
    """The first link that isn't shed in one step, or None."""
    for link in left.items.problem["links"]:
        status, document, notes = chosen(program, left.problem(left.shed(link)))
        if status or len(document["plan"]["stages"]) > 2 or document["plan"]["scale"] != 1:
            return f"{link['from']}>{link['to']}: status {status}, {notes or len(document['plan']['stages'])}"
    return None


def shed_by_tool(program):
    """`tools/shed` writes the same, for each link of a network."""
    tool = os.path.join(os.path.dirname(os.path.abspath(__file__)), "..", "tools", "shed")
    left = Left(AHEAD, [])
    for link in left.items.problem["links"]:
        done = subprocess.run([tool, link["from"], link["to"]], input=left.text(), capture_output=True, text=True)
        yield f"tools/shed {link['from']} {link['to']}", same((done.returncode, done.stdout), (0, text_of(left.problem(left.shed(link))) + "\n"))
    for given in ([], ["A"], ["A", "nowhere"]):
        done = subprocess.run([tool, *given], input=left.text(), capture_output=True, text=True)
        yield f"tools/shed {given}", same((done.returncode, done.stdout), (1, ""))


def tells(program, name, value, front, shed=False):
    left = Left(value, front)
    with rollout(program, value, journal(value, front)) as one:
        before = one.image()
        yield name, same(said(one), left.answer()) or same(one.image(), before)
    if left.line is None:
        status, document, notes = chosen(program, left.problem())
        refused = " old " in notes or "first" in notes
        yield f"{name}, its plan", begins_there(left, document) if status == 0 else None if status == 4 and not refused else f"status {status}: {notes}"
        if shed:
            yield f"{name}, shed", sheds(program, left)


def documents(program):
    return (("one", json.loads(ONE)), ("two", TWO), ("late", LATE), ("ahead", AHEAD), ("passing", PASSING), ("full tables", planned(program, FULL_TABLES)), ("exchange", planned(program, EXCHANGE)))


def examples(program):
    for name, value in documents(program):
        entries = listed(program, value)
        for count in range(len(entries) + 1):
            yield from tells(program, f"{name} behind {count} entries", value, entries[:count], shed=True)


def drawn_plans(program):
    """Of each of some plans that are drawn, each front of a list that is drawn; and whether all answers were among them."""
    found, lines = 0, set()
    for seed in range(SEED, SEED + 20 * DRAWN):
        value = drawn(seed)
        if found == DRAWN or not 0 < Items(value).operations <= MOST_OPERATIONS:
            continue
        found += 1
        value, draw = canonical(program, tightened(value)), random.Random(seed)
        entries = walked(value, draw)
        drained = [count for count in range(len(entries) + 1) if len(entries[:count]) == 2 * sum(kind == DONE for kind, _, _ in entries[:count])]
        for count in drained + [draw.randint(0, len(entries))]:
            lines.add((Left(value, entries[:count]).line or "").split(":")[0])
            yield from tells(program, f"drawn {seed} behind {count} entries", value, entries[:count], shed=count == drained[-1])
    yield "plans that were drawn, and what was said of them", same(found, DRAWN) or same(lines >= {"", "flying"}, True)


# Going on.

def goes_on(program, name, value, front, new):
    """A rollout stands behind this list; another one goes on from there, as the next migration, to this target."""
    left = Left(value, front)
    status, document, notes = chosen(program, left.problem(new))
    if status == 4 and " old " not in notes:
        yield f"{name}, no plan", None
        return
    yield f"{name}, its plan", begins_there(left, document) if status == 0 else f"status {status}: {notes}"
    with rollout(program, value, journal(value, front)) as one:
        begun(one, front)
        one.document, one.text = document, text_of(document)
        refused = one.run("run --migration 1")
        yield f"{name}, over the first journal", same(refused[0], 10) or same(one.commands(), 0)
        one.journal += ".1"
        one.environment["SWANROLL_JOURNAL"] = one.journal
        end = one.run("run --migration 1 --workers 2")
        yield name, same(end, finished(Items(document).operations, 0)) or one.misses(1)


def targets(program):
    """To the target that it had, to the old split, and to one between, each in the units of what is left."""
    for name, value in documents(program):
        entries = listed(program, value)
        for count in sorted({0, 2, len(entries) // 4 * 2, len(entries)}):
            front = [entry for entry in entries[:count] if entry[0] == BEGIN and (DONE, *entry[1:]) in entries[:count] or entry[0] == DONE]
            left = Left(value, front)
            if left.line is not None:
                continue
            back = [None if tunnel["old"] is None else tunnel["old"] * left.factor for tunnel in left.items.tunnels]
            third = [rate if rate is None else rate // 2 for rate in left.old()]
            for target, new in (("on", left.new()), ("back", back), ("to a third", third)):
                yield from goes_on(program, f"{name} behind {count}, {target}", value, front, new)


# Limits, words and files.

def scaled(capacity, rate):
    """A flow that moves in two halves over links of this capacity, with this much of it on a third way that stays."""
    link = [{"from": a, "to": b, "capacity": capacity} for a, b in (("A", "B"), ("A", "C"), ("C", "B"), ("A", "D"), ("D", "B"))]
    tunnels = [{"path": ["A", "B"], "old": 1, "new": 0}, {"path": ["A", "C", "B"], "old": 0, "new": 1}, {"path": ["A", "D", "B"], "old": rate, "new": rate}]
    problem = {"format": 1, "switches": [{"name": name, "table": 8} for name in "ABCD"], "links": link, "flows": [{"name": "f", "tunnels": tunnels}]}
    stages = [{"installed": [True] * 3, "rates": [2 - moved, moved, 2 * rate]} for moved in range(3)]
    return {"problem": problem, "plan": {"scale": 2, "stages": stages}}


def limits(program):
    half, whole = [(BEGIN, 0, 1), (DONE, 0, 1)], [(BEGIN, 0, 1), (DONE, 0, 1), (BEGIN, 0, 2), (DONE, 0, 2)]
    for name, value, front, line in (
        ("half way, the largest capacity that fits", scaled(LARGEST_CAPACITY // 2, 1), half, None),
        ("half way, a larger one", scaled(LARGEST_CAPACITY // 2 + 1, 1), half, f"too large: capacity of link 0: {LARGEST_CAPACITY + 2} above {LARGEST_CAPACITY}"),
        ("all the way, a larger one", scaled(LARGEST_CAPACITY, 1), whole, None),
        ("half way, the largest rate that fits", scaled(LARGEST_RATE, LARGEST_RATE // 2), half, None),
        ("half way, a larger rate", scaled(LARGEST_RATE * 2, LARGEST_RATE // 2 + 1), half, f"too large: old rate of tunnel 2: {LARGEST_RATE + 2} above {LARGEST_RATE}"),
        ("all the way, a larger rate", scaled(LARGEST_RATE * 2, LARGEST_RATE), whole, None),
    ):
        yield name, same(Left(value, front).line, line)
        yield from tells(program, name, canonical(program, value), front)


def words(program):
    with rollout(program, TWO, journal(TWO, [])) as one:
        before = one.image()
        for given in ("left", "left --migration 0"):
            yield given, same(said(one, given), Left(TWO, []).answer())
        for given in ("left --migration", "left --migration x", "left --migration 0 --migration 0", "left --rounds 3", "left 0", "left --live", "left --policy critical", "left --migration=0"):
            yield given, same(said(one, given), USAGE)
        yield "left --migration 1", same(said(one, "left --migration 1")[0], 10)
        yield "an input that is none", same(said(one, text="{")[0], 3)
        yield "an input whose plan isn't valid", same(said(one, text=text_of(dict(TWO, plan=dict(TWO["plan"], stages=TWO["plan"]["stages"][::-1]))))[0], 3)
        yield "the journal of another document", same(said(one, text=ONE)[0], 10)
        yield "nothing of the file was changed", same(one.image(), before)


def files(program):
    with rollout(program, TWO, None) as one:
        yield "no file", same(said(one), FAULT) or same(one.image(), None)
        yield "a folder", same(said(one, path=os.path.dirname(one.journal)), FAULT)
        one.put(b"")
        yield "no byte", same(said(one), Left(TWO, []).answer()) or same(one.image(), b"")
        one.put(b"x" * 100)
        yield "another file", same(said(one)[0], 10)


def cases(program):
    yield from examples(program)
    yield from limits(program)
    yield from words(program)
    yield from files(program)
    yield from shed_by_tool(program)
    yield from targets(program)
    yield from drawn_plans(program)


if __name__ == "__main__":
    report("retargets", "cases", cases(sys.argv[1]))
