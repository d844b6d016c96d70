"""The command `held` over sockets: what switches hold of a document's items, whatever that is, beside the same in Python as docs/TEXTS.md says it; that
each is asked about its own items alone, by commands that it doesn't carry out, and holds afterwards what it held; switches that answer late, twice or in
part; and each status with its line, by what causes it.

    python3 tests/held.py PROGRAM
"""

import json
import os
import random
import subprocess
import sys

from agents import ended, started
from carried import Items
from journal_files import text_of
from named import EXCHANGE, FULL_TABLES, LATE, ONE, TWO, document
from outcomes import report
from rolling import finished, planned, rollout, same, stopped
from switches import answer, plain, silent
from waiting import LIMITS, by_first_that_fits

USAGE = (2, "", "usage: swanroll COMMAND [--NAME VALUE]\n")
LAST, DRAWN = 2 ** 32 - 1, 20
# Ten items, seven of which have an operation: four at A, two at B, one at C. The eighth of A has none, and the third has no home.
MIXED = document("explain.json")
MOVES_NOTHING = document("unmoved.json")


def asked(value):
    """By switch, in the order of the problem, the items that it is asked about."""
    items = Items(value)
    homes = {switch["name"]: [item for item in range(items.count) if items.changes[item] and items.homes[item] == switch["name"]] for switch in value["problem"]["switches"]}
    return {name: own for name, own in homes.items() if own}


def told(value, pairs):
    """What is printed where the switches hold these pairs."""
    items = Items(value)
    work = [item for item in range(items.count) if items.changes[item]]
    held = [pairs.get(item, (0, 0)) for item in work]
    lines = [f"item {item} {json.dumps(items.homes[item])}: migration {pair[0]}, number {pair[1]} of {len(items.changes[item])}\n" for item, pair in zip(work, held)]
    return 0, "".join(lines) + f"held: items {len(work)}, greatest migration {max((pair[0] for pair in held), default=0)}\n", ""


def stands(one):
    """What all switches hold and carry."""
    return {name: (dict(switch.held), dict(switch.content)) for name, switch in one.switches.items()}


def moved(one, before):
    """A question that isn't one, or a switch that doesn't hold what it held, or None."""
    homes = asked(one.document)
    for name, switch in one.switches.items():
        for command in switch.commands:
            if (command.migration, command.number) != (0, 0) or command.item not in homes.get(name, []):
                return f"{name} was asked by {command}"
        if switch.wrong:
            return switch.wrong[0]
    return same(stands(one), before) or same(one.image(), None)


def each_once(one):
    """A switch that was asked otherwise than once about each of its items, in their order, or None."""
    homes = asked(one.document)
    found = {name: [command.item for command in switch.commands] for name, switch in one.switches.items() if switch.commands}
    return same(found, homes) or same(one.guests(), set(homes))


def documents(program):
    yield from (("one", json.loads(ONE)), ("two", TWO), ("late", LATE), ("mixed", MIXED), ("full tables", planned(program, FULL_TABLES)), ("exchange", planned(program, EXCHANGE)))


def pairs_drawn(rng, value):
    """Of some items the operations of this change, of others those of another."""
    items = Items(value)
    drawn = {}
    for item in range(items.count):
        if items.changes[item] and rng.random() < 0.8:
            drawn[item] = rng.choice(((0, rng.randint(1, len(items.changes[item]))), (rng.randint(1, LAST), rng.randint(1, LAST)), (LAST, LAST)))
    return drawn


def held(program):
    """Nothing; some pairs that are drawn; and all of the new split, behind a run. The journal isn't looked at: it may be there or not."""
    rng = random.Random(4)
    for name, value in documents(program):
        with rollout(program, value) as one:
            before = stands(one)
            yield f"{name}, nothing", same(one.run("held", one.without("SWANROLL_JOURNAL")), told(value, {})) or moved(one, before) or each_once(one)
        for turn in range(DRAWN):
            with rollout(program, value) as one:
                pairs = pairs_drawn(rng, value)
                for item, pair in pairs.items():
                    one.switches[Items(value).homes[item]].held[item] = pair
                before = stands(one)
                yield f"{name}, drawn {turn}", same(one.run("held"), told(value, pairs)) or moved(one, before) or each_once(one)
        with rollout(program, value) as one:
            items = Items(value)
            yield f"{name}, a run", same(one.run("run --migration 7"), finished(items.operations, 0))
            before, image = stands(one), one.image()
            pairs = {item: (7, len(items.changes[item])) for item in range(items.count) if items.changes[item]}
            yield f"{name}, behind it", same(one.run("held"), told(value, pairs)) or same(stands(one), before) or same(one.image(), image)


def none_asked(program):
    """Where nothing is to move no switch is asked, and no fleet is wanted."""
    with rollout(program, MOVES_NOTHING) as one:
        yield "nothing to move", same(one.run("held", one.without("SWANROLL_FLEET")), (0, "held: items 0, greatest migration 0\n", "")) or same(one.guests(), set())


# Switches that answer otherwise than at once.

def half(switch, guest, command):
    """Of the questions that come first about an item every second one is lost."""
    if sum(c.item == command.item for c in switch.commands) > 1 or len(switch.commands) % 2:
        plain(switch, guest, command)


def twice(switch, guest, command):
    plain(switch, guest, command)
    plain(switch, guest, command)


def slow(switch, guest, command):
    switch.tell(guest, switch.carry_out(command), pause=0.005)


def ways(program, short):
    """Of what is lost alone the limit is short: on a busy machine it passes between two bytes."""
    pairs = {0: (0, 1), 1: (0, 1), 5: (0, 1), 4: (3, 2)}
    for name, fate, limit, at_a in (("half is lost", half, {"SWANROLL_TIMEOUT": short}, [0, 1, 3, 5, 1, 5]), ("all is told twice", twice, {}, None), ("byte by byte", slow, {}, [0, 1, 3, 5])):
        with rollout(program, MIXED, None, fate) as one:
            one.hold({item: pair for item, pair in pairs.items() if item != 4})
            one.switches["B"].held[4] = pairs[4]
            before = stands(one)
            yield name, same(one.run("held", one.having(**limit)), told(MIXED, pairs)) or moved(one, before)
            yield f"{name}, at A", at_a and same([command.item for command in one.switches["A"].commands], at_a)


def several(program):
    """An agent of the program's own serves a run and then a question, which it counts as a command."""
    value = json.loads(ONE)
    with rollout(program, value) as one, started(program, ("--guests", "2")) as (place, agent):
        with open(one.fleet, "w", encoding="utf-8") as fleet:
            fleet.write("A 127.0.0.1:%d\n" % place.getsockname()[1])
        yield "an agent, a run", same(one.run("run --migration 3"), finished(1, 0))
        yield "an agent, held", same(one.run("held"), told(value, {0: (3, 1)}))
        yield "the agent", same(ended(agent), (0, "agent: guests 2, commands 2, refused 0\n", ""))


# Words, and each status by its cause.

def words(program):
    for given in ("--rounds 1", "--rounds 200000", "--rounds 0000000000000000010"):
        with rollout(program, TWO) as one:
            yield f"held {given}", same(one.run(f"held {given}"), told(TWO, {}))
    with rollout(program, TWO) as one:
        for given in ("--rounds 0", "--rounds 200001", "--rounds -1", "--rounds", "--rounds 1 --rounds 1", "--rounds=1", "--migration 0", "--workers 1", "--policy critical", "--guests 1", "by"):
            yield f"held {given}", same(one.run(f"held {given}"), USAGE)
        yield "words that are refused ask nothing", same(one.guests(), set())


def refused(program):
    broken = dict(TWO, plan=dict(TWO["plan"], scale=0))
    with rollout(program, TWO) as one:
        yield "no document", same(one.run("held", text="{}"), stopped(3, 'input: top: missing "problem"'))
        status, out, notes = one.run("held", text=text_of(broken))
        yield "a plan that isn't valid", same((status, out, notes[:7]), (3, "", "input: "))
        yield "no fleet", same(one.run("held", one.without("SWANROLL_FLEET")), stopped(9, 'port fault at "A"'))
        yield "what is refused asks nothing", same(one.guests(), set())
        yield "no address of the second", same(fleet_of_first(one), stopped(9, 'port fault at "B"')) or same(one.guests(), {"A"})


def fleet_of_first(one):
    with open(one.fleet, encoding="utf-8") as file:
        lines = file.readlines()
    with open(one.fleet, "w", encoding="utf-8") as file:
        file.writelines(line for line in lines if line.startswith("A "))
    return one.run("held")


def silence(program, limit):
    """A switch that is silent: no further one is asked, and nothing is printed."""
    with rollout(program, MIXED, None, {"B": silent}) as one:
        before = stands(one)
        yield "silent", same(one.run("held --rounds 3", one.having(SWANROLL_TIMEOUT=limit)), stopped(5, "rounds spent: rounds 3, item 4 operation 0")) or moved(one, before)
        yield "silent, its questions", same([command.item for command in one.switches["B"].commands], [4, 7] * 3)
        yield "silent, those behind it", same(one.guests(), {"A", "B"})
        one.switches["B"].fate = plain
        yield "silent, and then not", same(one.run("held"), told(MIXED, {}))


def untold(program):
    """A switch that tells what can't be: no further one is asked, and nothing is printed."""
    for name, said, line in (
        ("another one's item", answer(0, 4, 1), 'alien: item 4 not of "A"'), ("an item without an operation", answer(0, 8, 0), 'alien: item 8 not of "A"'),
        ("an item without a home", answer(0, 2, 0), 'alien: item 2 not of "A"'), ("no item", answer(0, 10, 0), 'alien: item 10 not of "A"'),
        ("the last number", answer(0, LAST, 0), f'alien: item {LAST} not of "A"'), ("a byte", b"A", 'alien: byte 65 is no answer from "A"'),
        ("a byte behind an answer", answer(0, 0, 0) + b"\0", 'alien: byte 0 is no answer from "A"'),
    ):
        with rollout(program, MIXED, None, {"A": lambda switch, guest, command, said=said: switch.tell(guest, said)}) as one:
            yield name, same(one.run("held"), stopped(11, line)) or same(one.guests(), {"A"})


def unwritten(program):
    with rollout(program, TWO) as one, open("/dev/full", "wb") as full:
        status, _, notes = one.run("held", stdout=full)
        yield "a full device", same((status, notes), (7, "write fault\n"))


def unread(program):
    folder = os.open(os.path.dirname(os.path.abspath(__file__)), os.O_RDONLY)  # a folder can be opened, and not be read
    with rollout(program, TWO) as one:
        done = subprocess.run([program, "held"], env=one.environment, stdin=folder, capture_output=True, text=True, check=False)
        yield "a source that can't be read", same((done.returncode, done.stdout, done.stderr), (6, "", "read fault\n")) or same(one.guests(), set())
    os.close(folder)


def outcomes(program):
    for part in (held, none_asked, several, words, refused, untold, unwritten, unread):
        yield from part(program)
    for part in (ways, silence):
        yield from by_first_that_fits(part, program, LIMITS)


if __name__ == "__main__":
    report("held", "cases", outcomes(os.path.abspath(sys.argv[1])))
