"""The command `retarget`: a rollout in which nothing is in flight goes on from where it stands to another target.

    python3 tests/new_targets.py PROGRAM

At each drained moment of rollouts, and of plans and lists that are drawn, to the target that they had, to the old split and to a third one: what is written is what `plan` makes of
the problem by its definition in Python, the journal is that of the new document, the next migration with an empty list, and where there is no plan it is as it was, byte by byte.
Each link in turn is shed and then gets capacity 0. Rollouts go on over sockets to the end; each call of the journal's file fails or is the last; bad targets by their place; words.
"""

import json
import os
import random
import subprocess
import sys

from carried import Items
from disk_calls import FAULT, MOST_CALLS, calls_of, ways_of
from explained import drawn
from from_here import DRAWN, MOST_OPERATIONS, SEED, begun, tightened, walked
from drains import canonical, listed
from journal_files import BEGIN, DONE, text_of
from named import ONE, TWO
from outcomes import report
from retargets import LARGEST_CAPACITY, LARGEST_RATE, Left, documents, scaled
from rollbacks import LAST, journal
from rolling import finished, rollout, same, stopped

USAGE = (2, "", "usage: swanroll COMMAND [--NAME VALUE]\n")


def target(value, new, capacities=()):
    """A target of these rates, one for each tunnel, as a document has it."""
    rates = iter(new)
    flows = [{"name": flow["name"], "new": [next(rates) for _ in flow["tunnels"]]} for flow in value["problem"]["flows"]]
    return {"flows": flows, **({"capacities": [dict(link) for link in capacities]} if capacities else {})}


def aimed(left, new, capacities=()):
    """The problem from where a rollout stands to these rates and capacities, in the plan's units."""
    problem = left.problem([rate if rate is None else rate * left.factor for rate in new])
    for given in capacities:
        for link in problem["links"]:
            if (link["from"], link["to"]) == (given["from"], given["to"]):
                link["capacity"] = given["capacity"] * left.factor
    return problem


def large(left, problem):
    """The line of the first number of a problem that is too large, or None."""
    tunnels = [tunnel for flow in problem["flows"] for tunnel in flow["tunnels"]]
    for what, numbers, most in (
        ("capacity of link", [link["capacity"] for link in problem["links"]], LARGEST_CAPACITY), ("old rate of tunnel", left.old(), LARGEST_RATE),
        ("new rate of tunnel", [tunnel["new"] for tunnel in tunnels], LARGEST_RATE),
    ):
        for number, found in enumerate(numbers):
            if found is not None and found > most:
                return f"too large: {what} {number}: {found} above {most}"
    return None


def planned_of(one, problem, words="plan"):
    """What `plan` says of a problem: its status, its document and its line."""
    return one.ended(one.start(words), text_of(problem))


def answer(one, left, problem, planner=""):
    """What `retarget` is to say where it makes this problem."""
    line = left.line if left.line and not left.line.startswith("too large") else large(left, problem)
    return stopped(16, line) if line else planned_of(one, problem, f"plan{planner}")


def placed(one, end, before, migration=1):
    """The journal behind a start that ended so: that of the new document, or the one before."""
    if end[0]:
        return same(one.image(), before)
    document = json.loads(end[1])
    found = one.ended(one.start(f"report --migration {migration}"), end[1])
    operations = Items(document).operations
    wrong = same((found[0], found[1].split(",")[0], found[1].split(", ")[1]), (0, "entries 0", f"settled 0 of {operations}"))
    one.put(journal(document, [], migration)) if wrong is None else None
    return wrong


def moved(program, name, value, front, new, capacities=(), words="retarget"):
    left = Left(value, front)
    given = dict(value, target=target(value, new, capacities))
    with rollout(program, value, journal(value, front)) as one:
        before = one.image()
        end = one.ended(one.start(words), text_of(given))
        yield name, same(end, answer(one, left, aimed(left, new, capacities), words.removeprefix("retarget")))
        yield f"{name}, the journal", placed(one, end, before)


def targets_of(left):
    """The target that a rollout had, the old split, and one between."""
    tunnels = left.items.tunnels
    yield "on", [tunnel["new"] for tunnel in tunnels]
    yield "back", [tunnel["old"] for tunnel in tunnels]
    yield "to a third", [None if tunnel["new"] is None else tunnel["new"] // 2 for tunnel in tunnels]


def shedding(one, link):
    """How it ends where this link is to be shed: a name may have spaces."""
    done = subprocess.run([one.program, "retarget", "--shed", link], input=one.text.encode(), env=one.environment, capture_output=True)
    return done.returncode, done.stdout.decode(), done.stderr.decode()


def sheds(program, name, value, front):
    """Each link in turn is shed, in one step, and then gets capacity 0."""
    left = Left(value, front)
    for link in left.items.problem["links"]:
        at = f"{link['from']}>{link['to']}"
        if "\0" in at or at.startswith("-"):
            continue
        with rollout(program, value, journal(value, front)) as one:
            before = one.image()
            end = shedding(one, at)
            wanted = stopped(16, left.line) if left.line else planned_of(one, left.problem(left.shed(link)))
            yield f"{name}, shed {at}", same(end, wanted) or placed(one, end, before)
            if end[0]:
                continue
            document = json.loads(end[1])
            yield f"{name}, shed {at}, its steps", None if len(document["plan"]["stages"]) <= 2 else f"{len(document['plan']['stages'])} stages"
            # Once that is done the link gets capacity 0, and the rest stays.
            there = Left(document, [entry for entry in listed(program, document)])
            rates = [tunnel["new"] for tunnel in there.items.tunnels]
            one.put(journal(document, listed(program, document), 1))
            gone = [dict(link, capacity=0)]
            given = dict(document, target=target(document, rates, gone))
            end = one.ended(one.start("retarget --migration 1"), text_of(given))
            yield f"{name}, capacity 0 for {at}", same(end, answer(one, there, aimed(there, rates, gone))) or same(end[0], 0)


def moments(program, name, value, entries):
    """The fronts of a list behind which nothing is in flight, and one with something in flight."""
    for count in range(len(entries) + 1):
        front = entries[:count]
        if len(front) == 2 * sum(kind == DONE for kind, _, _ in front) or count == 1:
            yield f"{name} behind {count} entries", front


def examples(program):
    for name, value in documents(program):
        for at, front in moments(program, name, value, listed(program, value)):
            left = Left(value, front)
            for to, new in targets_of(left):
                yield from moved(program, f"{at}, {to}", value, front, new)
            yield from sheds(program, at, value, front)


def drawn_plans(program):
    found = 0
    for seed in range(SEED, SEED + 20 * DRAWN):
        value = drawn(seed)
        if found == DRAWN // 4 or not 0 < Items(value).operations <= MOST_OPERATIONS:
            continue
        found += 1
        value, draw = canonical(program, tightened(value)), random.Random(seed)
        fronts = list(moments(program, f"drawn {seed}", value, walked(value, draw)))
        for at, front in draw.sample(fronts, min(3, len(fronts))):
            left = Left(value, front)
            for to, new in targets_of(left):
                yield from moved(program, f"{at}, {to}", value, front, new, words=draw.choice(["retarget", "retarget --planner fewest"]))
            yield from list(sheds(program, at, value, front))[:6]
    yield "plans that were drawn", same(found, DRAWN // 4)


def goes_on(program):
    """Over sockets, with switches that hold the first migration, to the end of the next one."""
    for name, value in documents(program):
        entries = listed(program, value)
        for count in sorted({0, len(entries) // 4 * 2, len(entries)}):
            front = [entry for entry in entries[:count] if entry[0] == BEGIN and (DONE, *entry[1:]) in entries[:count] or entry[0] == DONE]
            left = Left(value, front)
            if left.line is not None:
                continue
            for to, new in targets_of(left):
                case = f"{name} behind {count}, {to}, rolled out"
                with rollout(program, value, journal(value, front)) as one:
                    begun(one, front)
                    end = one.run("retarget", text=text_of(dict(value, target=target(value, new))))
                    if end[0]:
                        yield case, same(end[0], 4)
                        continue
                    one.text, one.document = end[1], json.loads(end[1])
                    yield f"{case}, over the old document", same(one.run("run", text=text_of(value))[0], 10) or same(one.commands(), 0)
                    yield case, same(one.run("run --migration 1 --workers 2"), finished(Items(one.document).operations, 0)) or one.misses(1)


def crashes(program):
    """Each call of the journal's file fails or is the last one: the old journal stands, or the new one."""
    entries = listed(program, TWO)
    front = [entry for entry in entries[:len(entries) // 2] if (DONE, *entry[1:]) in entries[:len(entries) // 2]]
    new = [tunnel["old"] for tunnel in Items(TWO).tunnels]
    text = text_of(dict(TWO, target=target(TWO, new)))

    def asked(one):
        begun(one, front)
        one.text = text
    image = journal(TWO, front)
    count = calls_of(program, TWO, image, "retarget", asked)
    if count is None:
        yield "calls can't be seen on this machine", None
        return
    yield "its calls", None if 4 < count <= MOST_CALLS else f"there are {count}"
    for case, one, end, fault in ways_of(program, TWO, image, "retarget", count, asked):
        document = answer(one, Left(TWO, front), aimed(Left(TWO, front), new))[1]
        old = one.ended(one.start("report"), text_of(TWO))
        now = one.ended(one.start("report --migration 1"), document)
        yield case, None if end[::2] == fault[::2] or end[0] == 0 else f"{end}"
        yield f"{case}, the journal", None if (old[0] == 0) != (now[0] == 0) and (now[0] == 0 or old[1].startswith(f"entries {len(front)},")) else f"{old}, {now}"


def bad(program):
    """Bad targets, each by its place."""
    value = json.loads(ONE)
    good = target(value, [1, 3])
    flow, link = good["flows"][0], {"from": "A", "to": "B", "capacity": 7}

    def having(**changes):
        return dict(good, **changes)
    for given, line in (
        (None, "target: wrong kind"), ([], "target: wrong kind"), ({}, 'target: missing "flows"'), (having(flows=3), "target.flows: wrong kind"), (having(flows=[]), "target.flows: 0 below 1"),
        (having(flows=[flow, flow]), "target.flows: 2 above 1"), (having(flows=[4]), "target.flows[0]: wrong kind"), (having(flows=[{}]), 'target.flows[0]: missing "name"'),
        (having(flows=[dict(flow, name=1)]), "target.flows[0].name: wrong kind"), (having(flows=[dict(flow, name="g")]), "target.flows[0].name: not the name of this flow"),
        (having(flows=[{"name": flow["name"]}]), 'target.flows[0]: missing "new"'), (having(flows=[dict(flow, new={})]), "target.flows[0].new: wrong kind"),
        (having(flows=[dict(flow, new=[1])]), "target.flows[0].new: 1 below 2"), (having(flows=[dict(flow, new=[1, 1, 1])]), "target.flows[0].new: 3 above 2"),
        (having(flows=[dict(flow, new=[1, "1"])]), "target.flows[0].new[1]: wrong kind"), (having(flows=[dict(flow, new=[-1, 1])]), "target.flows[0].new[0]: not a whole number"),
        (having(flows=[dict(flow, new=[1.5, 1])]), "target.flows[0].new[0]: not a whole number"), (having(flows=[dict(flow, new=[LARGEST_RATE + 1, 1])]), f"target.flows[0].new[0]: {LARGEST_RATE + 1} above {LARGEST_RATE}"),
        (having(capacities={}), "target.capacities: wrong kind"), (having(capacities=[link] * 4), "target.capacities: 4 above 3"), (having(capacities=[1]), "target.capacities[0]: wrong kind"),
        (having(capacities=[{"from": "A", "to": "B"}]), 'target.capacities[0]: missing "capacity"'), (having(capacities=[dict(link, to="Z")]), "target.capacities[0].to: unknown switch"),
        (having(capacities=[dict(link, **{"from": 1})]), "target.capacities[0].from: wrong kind"), (having(capacities=[{"from": "B", "to": "A", "capacity": 1}]), "target.capacities[0]: no such link"),
        (having(capacities=[link, link]), "target.capacities[1]: link twice"), (having(capacities=[dict(link, capacity=-1)]), "target.capacities[0].capacity: not a whole number"),
        (having(capacities=[dict(link, capacity=LARGEST_CAPACITY + 1)]), f"target.capacities[0].capacity: {LARGEST_CAPACITY + 1} above {LARGEST_CAPACITY}"),
    ):
        with rollout(program, value, journal(value, [])) as one:
            before = one.image()
            end = one.ended(one.start("retarget"), text_of(dict(value, target=given)))
            yield f"{given}", same(end, stopped(3, f"input: {line}")) or same(one.image(), before)
    with rollout(program, value, journal(value, [])) as one:
        before = one.image()
        yield "no target", same(one.ended(one.start("retarget")), stopped(3, 'input: top: missing "target"')) or same(one.image(), before)
        for name in ("A>Z", "B>A", "A", ">", "A>B>C"):
            yield f"shed {name}", same(one.ended(one.start(f"retarget --shed {name}")), stopped(3, f"shed: no such link: {name}")) or same(one.image(), before)


def words(program):
    with rollout(program, TWO, journal(TWO, [])) as one:
        before = one.image()
        text = text_of(dict(TWO, target=target(TWO, [tunnel["new"] for tunnel in Items(TWO).tunnels])))
        for given in (
            "retarget --migration", "retarget --migration x", f"retarget --migration {LAST}", "retarget --planner best", "retarget --rounds 3", "retarget 0", "retarget --shed A>B --shed A>B",
            "retarget --policy critical", "retarget --migration=0",
        ):
            yield given, same(one.ended(one.start(given), text), USAGE)
        yield "another migration", same(one.ended(one.start("retarget --migration 7"), text)[0], 10)
        yield "an input that is none", same(one.ended(one.start("retarget"), "{")[0], 3)
        yield "the journal of another document", same(one.ended(one.start("retarget --shed A>B"), ONE)[0], 10)
        yield "nothing of the file was changed", same(one.image(), before)
    with rollout(program, TWO, journal(TWO, [], LAST - 1)) as one:
        end = one.ended(one.start(f"retarget --migration {LAST - 1}"), text)
        yield "the last migration but one", same(end[0], 0) or placed(one, end, None, LAST)
    with rollout(program, TWO, None) as one:
        end = one.ended(one.start("retarget"), text)
        yield "no file yet", same(end[0], 0) or placed(one, end, None)
    with rollout(program, TWO, journal(TWO, [])) as one:
        before = one.image()
        with open("/dev/full", "wb") as full:
            end = one.ended(one.start("retarget", stdout=full), text)
        yield "standard output that is full", same(end, (7, "", "write fault\n")) or same(one.image(), before)


def limits(program):
    half = [(BEGIN, 0, 1), (DONE, 0, 1)]
    for name, value, new in (
        ("half way, the largest rate that fits", scaled(LARGEST_RATE, 1), [0, 1, LARGEST_RATE // 2]), ("half way, a larger one", scaled(LARGEST_RATE, 1), [0, 1, LARGEST_RATE // 2 + 1]),
        ("half way, the largest capacity that fits", scaled(LARGEST_CAPACITY // 2, 1), [0, 1, 1]), ("half way, a larger capacity", scaled(LARGEST_CAPACITY // 2 + 1, 1), [0, 1, 1]),
    ):
        yield from moved(program, name, canonical(program, value), half, new)


def cases(program):
    yield from bad(program)
    yield from words(program)
    yield from limits(program)
    yield from crashes(program)
    yield from goes_on(program)
    yield from examples(program)
    yield from drawn_plans(program)


if __name__ == "__main__":
    report("new targets", "cases", cases(os.path.abspath(sys.argv[1])))
