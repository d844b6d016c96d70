"""The command `rollback --from here` over sockets: rollouts that were stopped anywhere go back from where they stand, and are levelled only where their way back
can't begin so, and no further than that. What is settled, what went out, the journal of the way back and where it begins are held to a plain Python of the definitions,
and so is the way back itself, to the old split. Its words; each call of the journal's file in turn fails, or the controller is killed before it or after it, and then the
rollout goes back all the same.

    python3 tests/from_here.py PROGRAM [REFERENCE]

With the folder of the reference, in place of these cases, which starts are sound is held to it.
"""

import functools
import json
import os
import random
import sys

from carried import Items, backwards
from disk_calls import MOST_CALLS, calls_of, ways_of
from drains import canonical, counts, listed
from explained import Explained, drawn
from journal_files import BEGIN, DONE, digest_of, entries_in, kept_in
from named import EXCHANGE, FULL_TABLES, LATE, ONE, TWO, document
from outcomes import report
from rollbacks import came_to, carries, journal, past, placed, run_back, taken_back
from rolling import planned, rollout, same, stopped
from switches import plain, silent
from waiting import LIMITS, by_first_that_fits

USAGE = (2, "", "usage: swanroll COMMAND [--NAME VALUE]\n")
AHEAD, PASSING = document("ahead.json"), document("passing.json")
# Drawn plans, and how many operations they have at the most; some walks through each for the comparison of starts.
DRAWN, SEED, MOST_OPERATIONS, COMPARED, WALKS = 50, 90_000, 40, 120, 3


# The definitions.

class Standing:
    """Of a document: what each item takes at a stage and in a step, and which starts are sound."""

    def __init__(self, value):
        self.items, self.needs = Items(value), Explained(value).needs
        self.last = len(self.items.stages) - 1
        places = [((link["from"], link["to"]), link["capacity"] * self.items.scale) for link in self.items.problem["links"]]
        self.most = dict(places + [(switch["name"], switch["table"]) for switch in self.items.problem["switches"]])

    @functools.lru_cache(maxsize=None)
    def takes(self, item, content):
        """What a content takes of each link and each table."""
        found, items = {}, self.items
        if item < len(items.flows):
            for tunnel, rate in zip(items.own[item], content):
                path = items.tunnels[tunnel]["path"]
                for link in zip(path, path[1:]):
                    found[link] = found.get(link, 0) + rate
        elif content[0]:
            tunnel, switch = items.entries[item - len(items.flows)]
            found[switch] = items.tunnels[tunnel].get("width", 1)
        return found

    @functools.lru_cache(maxsize=None)
    def in_step(self, item, stage):
        """What an item takes at the most while it makes the step from a stage to the next."""
        return self.takes(item, tuple(map(max, self.items.content(item, stage), self.items.content(item, stage + 1))))

    def stands(self, item, settled):
        """The stage before its next change, or the last one."""
        changes = self.items.changes[item]
        return changes[settled] - 1 if settled < len(changes) else self.last

    def fits(self, stands, stage, flying=()):
        """Whether there is room at a stage: for the step of what stands there or before, for that of what is in flight, and for what has passed."""
        found = {}
        for item, at in enumerate(stands):
            taken = self.in_step(item, max(at, stage)) if at <= stage or item in flying else self.takes(item, self.items.content(item, at))
            for place, amount in taken.items():
                found[place] = found.get(place, 0) + amount
        return all(amount <= self.most[place] for place, amount in found.items())

    def is_sound(self, start):
        """Each operation exists and has what it needs, and at each stage from the least one on there is room."""
        changes = self.items.changes
        if any(number > len(row) for number, row in zip(start, changes)):
            return False
        stands = [self.stands(item, number) for item, number in enumerate(start)]
        met = all(stands[other] >= least for item, number in enumerate(start) for to in changes[item][:number] for other, least in self.needs[item](to))
        return met and all(self.fits(stands, stage) for stage in range(min(stands, default=self.last), self.last))

    def may_begin(self, settled, flying, item):
        """Whether the next operation of an item may begin where these are in flight."""
        stands = [self.stands(other, number) for other, number in enumerate(settled)]
        if settled[item] == len(self.items.changes[item]):
            return False
        met = all(stands[other] >= least for other, least in self.needs[item](self.items.changes[item][settled[item]]))
        return met and all(self.fits(stands, stage, flying | {item}) for stage in range(min(stands), self.last))


@functools.lru_cache(maxsize=4)
def standing_back(text):
    return Standing(backwards(json.loads(text)))


class Turning:
    """How a rollout with this list goes back from here: the stage at which it is levelled, how much of each item is settled then, and where the way back begins."""

    def __init__(self, value, entries):
        self.items = Items(value)
        self.back, self.begun = standing_back(json.dumps(value)), counts(self.items, entries, BEGIN)
        self.ceiling = came_to(value, entries)
        self.stage = next(stage for stage in range(self.ceiling + 1) if self.back.is_sound(self.start(stage)))
        self.settled = self.comes_to(self.stage)

    def comes_to(self, stage):
        return [max(begun, sum(at <= stage for at in changes)) for begun, changes in zip(self.begun, self.items.changes)]

    def start(self, stage):
        return [len(changes) - number for changes, number in zip(self.items.changes, self.comes_to(stage))]


# What a rollback from here comes to.

def kept(one, turn, migration=0):
    """What the journal of the way back keeps differs in, or None."""
    return same(kept_in(one.image()), (digest_of(backwards(one.document)), migration + 1, turn.start(turn.stage), []))


def holds(one, turn, migration=0):
    """The first item that doesn't hold what is settled, or None; and a command that went out and goes further, or None."""
    items = turn.items
    for item, number in enumerate(turn.settled):
        switch = one.switches.get(items.homes[item])
        if switch and number and (switch.held.get(item), switch.content[item]) != ((migration, number), (items.brings(item, number), items.scale)):
            return f"item {item} holds {switch.held.get(item)} with {switch.content[item]}, not {(migration, number)}"
        if switch and not number and item in switch.held:
            return f"item {item} holds {switch.held[item]}, and nothing of it was to be begun"
    late = [command for switch in one.switches.values() for command in switch.commands if command.migration == migration and command.number > turn.settled[command.item]]
    return f"{late[0]}" if late else next((wrong for switch in one.switches.values() for wrong in switch.wrong), None)


def begun(one, front):
    """The switches hold what the list has as done."""
    one.hold({item: (0, number) for kind, item, number in front if kind == DONE})


def goes_back(program, name, value, front, words="rollback --from here"):
    turn = Turning(value, front)
    with rollout(program, value, journal(value, front)) as one:
        begun(one, front)
        yield name, same(one.run(words), taken_back(value)) or holds(one, turn)
        yield f"{name}, the journal", kept(one, turn)
        yield f"{name}, back", run_back(one)


# Rollouts that were stopped somewhere.

def examples(program):
    """From each list on the way of a rollout by one worker, from before its first entry to behind its last."""
    for name, value in (("one", json.loads(ONE)), ("two", TWO), ("late", LATE), ("ahead", AHEAD), ("passing", PASSING), ("full tables", planned(program, FULL_TABLES)),
                        ("exchange", planned(program, EXCHANGE))):
        entries = listed(program, value)
        for count in range(len(entries) + 1):
            yield from goes_back(program, f"{name} behind {count} entries", value, entries[:count], f"rollback --from here --workers {1 + count % 3}")


def walked(value, draw):
    """A list from nothing to the end, each entry of which may follow those before it, drawn entry by entry."""
    there, entries = Standing(value), []
    items = there.items
    settled, flying = [0] * items.count, set()
    while sum(settled) < items.operations:
        item = draw.choice([item for item in range(items.count) if item in flying or there.may_begin(settled, flying, item)])
        entries.append((DONE if item in flying else BEGIN, item, settled[item] + 1))
        settled[item] += item in flying
        flying ^= {item}
    return entries


def tightened(value):
    """The same document, with each link and each table as large as its steps need, and no larger."""
    value = json.loads(json.dumps(value))
    there = Standing(value)
    steps = [[there.in_step(item, stage) for item in range(there.items.count)] for stage in range(there.last)]
    most = {place: max((sum(taken.get(place, 0) for taken in row) for row in steps), default=0) for place in there.most}
    for link in value["problem"]["links"]:
        link["capacity"] = max(1, -(-most[link["from"], link["to"]] // there.items.scale))
    for switch in value["problem"]["switches"]:
        switch["table"] = max(1, most[switch["name"]])
    return value


def fronts(value, draw):
    """Two fronts of lists that are drawn, of which one has to be levelled where one of them has."""
    lists = [walked(value, draw) for _ in range(WALKS)]
    all_of_them = [entries[:count] for entries in lists for count in range(len(entries) + 1)]
    level = [front for front in all_of_them if Turning(value, front).stage]
    return [draw.choice(level or all_of_them), draw.choice(all_of_them)]


def drawn_plans(program):
    """Of each of some plans that are drawn, from two lists that are; and whether any of them had to be levelled."""
    found = levelled = 0
    for seed in range(SEED, SEED + 20 * DRAWN):
        value = drawn(seed)
        if found == DRAWN or not 0 < Items(value).operations <= MOST_OPERATIONS:
            continue
        found += 1
        value, draw = canonical(program, tightened(value)), random.Random(seed)
        for number, front in enumerate(fronts(value, draw)):
            levelled += Turning(value, front).stage > 0
            yield from goes_back(program, f"drawn {seed}, list {number}", value, front)
    yield f"plans that were drawn, {levelled} of whose lists level", same(found, DRAWN) or (None if levelled else "none had to be levelled")


def levels_below_its_ceiling(program):
    """Two flows leave a link one after the other, and a third one comes there with the second: with both of these moved the first has to move, too."""
    front = [(BEGIN, 1, 1), (DONE, 1, 1), (BEGIN, 2, 1)]
    turn = Turning(PASSING, front)
    yield "below its ceiling, the stages", same((turn.stage, turn.ceiling), (1, 2))
    for words, stage, going in (("rollback --from here", 1, 2), ("rollback", 2, 2)):
        with rollout(program, PASSING, journal(PASSING, front)) as one:
            begun(one, front)
            yield f"below its ceiling, {words}", same(one.run(words), taken_back(PASSING)) or same(one.commands(), going) or carries(one, 2)
            yield f"below its ceiling, {words}, back", run_back(one)
    with rollout(program, PASSING, journal(PASSING, front[:2])) as one:
        begun(one, front[:2])
        yield "at once", same(one.run("rollback --from here"), taken_back(PASSING)) or same(one.commands(), 0) or kept(one, Turning(PASSING, front[:2]))
        yield "at once, back", run_back(one) or same(one.commands(), 1)


def from_no_journal(program):
    for name, image in (("no file", None), ("no byte", b""), ("a zero", b"\0")):
        with rollout(program, TWO, image) as one:
            yield f"from {name}", same(one.run("rollback --from here"), taken_back(TWO)) or placed(one, 0) or same(one.commands(), 0)
            yield f"from {name}, back", run_back(one)


def there_and_back_again(program):
    """A way back is itself gone back from, as the next migration, from where it stands."""
    front = [(BEGIN, 0, 1), (DONE, 0, 1), (BEGIN, 1, 1)]
    with rollout(program, TWO, journal(TWO, front)) as one:
        begun(one, front)
        yield "there", same(one.run("rollback --from here --migration 0"), taken_back(TWO))
        back = backwards(TWO)
        again = one.run("rollback --migration 1 --from here", text=json.dumps(back))
        yield "and again", same(again, taken_back(back)) or same(kept_in(one.image())[:2], (digest_of(backwards(back)), 2)) or same(sum(kept_in(one.image())[2]), 2)


# Words, and a switch that is silent.

def words(program):
    begun_one = [(BEGIN, 0, 1)]
    for given in ("--from level", "--from level --workers 3", "--migration 0 --from level"):
        with rollout(program, AHEAD, journal(AHEAD, begun_one)) as one:
            yield f"rollback {given}", same(one.run(f"rollback {given}"), taken_back(AHEAD)) or placed(one, 1) or past(one, 1)
    for given in ("--from here", "--from here --workers 16 --rounds 200000", "--rounds 3 --from here"):
        with rollout(program, AHEAD, journal(AHEAD, begun_one)) as one:
            yield f"rollback {given}", same(one.run(f"rollback {given}"), taken_back(AHEAD)) or kept(one, Turning(AHEAD, begun_one)) or same(one.commands(), 1)
    with rollout(program) as one:
        for given in ("rollback --from there", "rollback --from", "rollback --from Here", "rollback --from here --from here", "rollback --from here --from level", "rollback --from=here",
                      "rollback here", "run --from here", "drain --from here", "report --from level", "rollback --from here --policy critical"):
            yield given, same(one.run(given), USAGE)
        yield "words that are refused touch nothing", same((one.image(), one.guests()), (None, set()))


def silence(program, limit):
    """One of two switches is silent, and an operation of it was begun: nothing is placed until it has answered, and nothing else begins."""
    front = [(BEGIN, 0, 1), (BEGIN, 1, 1)]
    with rollout(program, TWO, journal(TWO, front), {"B": silent}) as one:
        quick = one.having(SWANROLL_TIMEOUT=limit)
        yield "one is silent", same(one.run("rollback --from here --rounds 2 --workers 1", quick), stopped(5, "rounds spent: rounds 2, item 1 operation 1"))
        yield "one is silent, the journal", same(entries_in(one.image()), front + [(DONE, 0, 1)]) or same(kept_in(one.image())[:2], (digest_of(TWO), 0))
        one.switches["B"].fate = plain
        yield "once it has answered", same(one.run("rollback --from here"), taken_back(TWO)) or kept(one, Turning(TWO, front))
        yield "once it has answered, back", run_back(one)


# Each call of the journal's file.

def gone_on(one, front):
    """Takes a rollout back of which a rollback was cut off: what is wrong, or None. It comes no further than the first one would have."""
    digest, migration, start, entries = kept_in(one.image())
    first = Turning(one.document, front)
    if (digest, migration) == (digest_of(one.document), 0):
        again = Turning(one.document, entries)
        further = [item for item, number in enumerate(again.settled) if number > first.settled[item]]
        return (same(entries[:len(front)], front) or same(further, []) or same(one.run("rollback --from here"), taken_back(one.document)) or kept(one, again)
                or holds(one, again) or run_back(one))
    return kept(one, first) or holds(one, first) or run_back(one)


def calls(program, name, value, front):
    image = journal(value, front)
    def prepared(one):
        begun(one, front)
    count = calls_of(program, value, image, "rollback --from here", prepared)
    if count is None:
        yield "calls can't be seen on this machine", None
        return
    yield f"{name}, its calls", None if count > 8 else f"there are {count}"
    for case, one, end, fault in ways_of(program, value, image, "rollback --from here", min(2 * MOST_CALLS, count), prepared):
        yield f"{name}, {case}", None if end in (fault, taken_back(value)) else f"{end}"
        yield f"{name}, {case}, gone on with", gone_on(one, front)


# Which starts are sound, beside the reference.

def beside_the_reference(reference):
    sys.dont_write_bytecode = True
    sys.path.insert(0, os.path.abspath(reference))
    import gen
    from oracle.graph import sound
    compared = turned = levelled = 0
    for seed in range(SEED, SEED + COMPARED):
        value = tightened(drawn(seed))
        if not 0 < Items(value).operations <= MOST_OPERATIONS:
            continue
        back, draw = gen.static_for(backwards(value)), random.Random(seed)
        for number, front in enumerate(fronts(value, draw)):
            turn = Turning(value, front)
            starts = [turn.start(stage) for stage in range(turn.ceiling + 1)]
            found = [sound(back, start) is None for start in starts]
            compared, turned, levelled = compared + len(starts), turned + 1, levelled + (turn.stage > 0)
            yield f"drawn {seed}, list {number}, its starts", same([turn.back.is_sound(start) for start in starts], found)
    yield f"{compared} starts of {turned} lists, of which {levelled} level", None if levelled else "none had to be levelled"


def outcomes(program):
    for part_of in (examples, levels_below_its_ceiling, from_no_journal, there_and_back_again, words, drawn_plans):
        yield from part_of(program)
    yield from by_first_that_fits(silence, program, LIMITS)
    yield from calls(program, "ahead", AHEAD, [(BEGIN, 0, 1)])
    yield from calls(program, "passing", PASSING, [(BEGIN, 1, 1), (DONE, 1, 1), (BEGIN, 2, 1)])


if __name__ == "__main__":
    report("from here", "cases", beside_the_reference(sys.argv[2]) if len(sys.argv) > 2 else outcomes(os.path.abspath(sys.argv[1])))
