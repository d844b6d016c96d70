"""The command `rollback` over sockets: rollouts that were stopped anywhere are levelled at the stage to which they had come and taken back, to the
old split; its words; each status with its line, by what causes it; and each call of the journal's file in turn fails, alone or with all behind it,
or the controller is killed before it or after it, and then the rollout is taken back all the same.

    python3 tests/rollbacks.py PROGRAM
"""

import json
import os
import sys

from carried import Items, backwards
from disk_calls import FAULT, MOST_CALLS, calls_of, ways_of
from journal_files import BEGIN, DONE, PARTS, SLOT, digest_of, entries_in, kept_in, part, size_of, slot, text_of
from named import EXCHANGE, FULL_TABLES, LATE, ONE, TWO, document
from outcomes import report
from rolling import finished, planned, rollout, same, stopped
from switches import plain, silent
from waiting import LIMITS, by_first_that_fits

USAGE = (2, "", "usage: swanroll COMMAND [--NAME VALUE]\n")
LAST = 2 ** 32 - 1
# Two flows change places over links of 9, and a third one moves beside them; each has two operations.
AHEAD = document("ahead.json")


def journal(value, entries, migration=0):
    """A journal of a document with this list, one batch an entry, from a start at which nothing is settled."""
    items = Items(value)
    size = size_of(items.count, items.operations)
    return b"\x54" + slot(PARTS, size) + bytes(SLOT) + part(digest_of(value), [0] * items.count, [], [[entry] for entry in entries], migration)


def came_to(value, entries):
    """The stage to which a list from nothing has come."""
    items = Items(value)
    return max((items.changes[item][number - 1] for kind, item, number in entries if kind == BEGIN), default=0)


def start_back(value, stage):
    """How many operations of the way back each item has made at the stage that has this stage's content."""
    back = Items(backwards(value))
    return [sum(at <= len(back.stages) - 1 - stage for at in changes) for changes in back.changes]


def taken_back(value):
    return 0, text_of(backwards(value)) + "\n", ""


def carries(one, stage):
    """The first item that doesn't carry its content of this stage, or None."""
    items = Items(one.document)
    for item in range(items.count):
        switch = one.switches.get(items.homes[item])
        content = switch.content.get(item, (items.content(item, 0), items.scale)) if switch else None
        if switch and content != (items.content(item, stage), items.scale):
            return f"item {item} carries {content}, not {items.content(item, stage)}"
    return next((wrong for switch in one.switches.values() for wrong in switch.wrong), None)


def placed(one, stage, migration=0):
    """What the journal of the way back from this stage keeps differs in, or None."""
    back = backwards(one.document)
    return same(kept_in(one.image()), (digest_of(back), migration + 1, start_back(one.document, stage), []))


def past(one, stage):
    """A command of an operation that leads past this stage, or None."""
    items = Items(one.document)
    late = [command for switch in one.switches.values() for command in switch.commands if items.changes[command.item][command.number - 1] > stage]
    return f"{late[0]}" if late else None


def run_back(one, migration=0):
    """What the run of the way back comes to that differs from the old split, or None."""
    back = backwards(one.document)
    return same(one.run(f"run --migration {migration + 1}", text=text_of(back)), finished(Items(back).operations, 0)) or carries(one, 0)


# Rollouts that were stopped somewhere.

def one_begun(program):
    """Of the first flow's first operation the Begin alone stands in the journal. Then the stage is 1: the other two flows come there, and go no further."""
    with rollout(program, AHEAD, journal(AHEAD, [(BEGIN, 0, 1)])) as one:
        yield "one begun", same(one.run("rollback"), taken_back(AHEAD))
        yield "one begun, the switches", carries(one, 1) or past(one, 1) or same(one.commands(), 3)
        yield "one begun, the journal", placed(one, 1) or same(kept_in(one.image())[2][:3], [1, 1, 1]) or same(sum(kept_in(one.image())[2]), 3)
        back = backwards(AHEAD)
        yield "one begun, back", same(one.run("run --migration 1", text=text_of(back)), finished(6, 0))
        held = [one.switches[home].content[item] for item, home in enumerate("AAC")]
        yield "one begun, what is held", same([rates for rates, _ in held], [(12, 0), (0, 12), (12, 0)]) or carries(one, 0)


def levels(program):
    """From each list on the way of a rollout by one worker, from before its first entry to behind its last; what the switches hold follows from the list."""
    for name, value in (("one", json.loads(ONE)), ("two", TWO), ("late", LATE), ("ahead", AHEAD), ("full tables", planned(program, FULL_TABLES)), ("exchange", planned(program, EXCHANGE))):
        with rollout(program, value) as one:
            one.run("run --workers 1")
            entries = entries_in(one.image())
        for count in range(len(entries) + 1):
            front = entries[:count]
            stage = came_to(value, front)
            with rollout(program, value, journal(value, front)) as one:
                one.hold({item: (0, number) for kind, item, number in front if kind == DONE})
                case = f"{name} behind {count} entries"
                yield case, same(one.run(f"rollback --workers {1 + count % 3}"), taken_back(value)) or carries(one, stage) or past(one, stage)
                yield f"{case}, the journal", placed(one, stage)
                yield f"{case}, back", run_back(one)


def from_no_journal(program):
    """Nothing was begun: the stage is 0, no command goes out, and all of the way back is settled at its start."""
    for name, image in (("no file", None), ("no byte", b""), ("a zero", b"\0")):
        with rollout(program, TWO, image) as one:
            yield f"from {name}", same(one.run("rollback"), taken_back(TWO)) or placed(one, 0) or same(one.commands(), 0)
            yield f"from {name}, back", run_back(one) or same(one.commands(), 0)


def there_and_back(program):
    """A rollout is frozen, taken back, rolled out anew as a later migration, and taken back from its end."""
    value = planned(program, EXCHANGE)
    operations = Items(value).operations
    with rollout(program, value) as one:
        frozen = one.run("run --policy freeze", one.having(SWANROLL_CEILING="1"))
        yield "frozen", None if frozen[0] == 14 else f"{frozen}"
        yield "frozen, taken back", same(one.run("rollback"), taken_back(value)) or run_back(one)
        os.remove(one.journal)
        yield "there, as a later migration", same(one.run("run --migration 2"), finished(operations, 0)) or one.misses(2)
        yield "there, taken back", same(one.run("rollback --migration 2"), taken_back(value)) or placed(one, len(value["plan"]["stages"]) - 1, 2)
        yield "there and back", run_back(one, 2)


# Words, and each status by its cause.

def words(program):
    for given, migration in (("--workers 1", 0), ("--workers 16 --rounds 1", 0), ("--rounds 200000", 0), ("--migration 0", 0), (f"--migration {LAST - 1}", LAST - 1),
                             ("--migration 7 --rounds 3 --workers 3", 7)):
        with rollout(program) as one:
            yield f"rollback {given}", same(one.run(f"rollback {given}"), taken_back(one.document)) or placed(one, 0, migration)
    with rollout(program) as one:
        for given in (f"--migration {LAST}", f"--migration {LAST + 1}", "--migration -1", "--migration", "--policy critical", "--policy freeze", "--rounds 0", "--rounds 200001",
                      "--workers 0", "--workers 17", "--workers 2 --workers 2", "--rounds=1", "--guests 1", "back"):
            yield f"rollback {given}", same(one.run(f"rollback {given}"), USAGE)
        yield "words that are refused touch nothing", same((one.image(), one.guests()), (None, set()))


def refused(program):
    begun = journal(TWO, [(BEGIN, 0, 1)])
    with rollout(program, TWO, begun) as one:
        own, back = digest_of(TWO).hex(), digest_of(backwards(TWO)).hex()
        yield "a document that is refused", same(one.run("rollback", text="{}"), stopped(3, 'input: top: missing "problem"'))
        yield "another migration", same(one.run("rollback --migration 1"), stopped(10, f"journal: other plan {own}/0 {own}/1"))
        yield "another document", same(one.run("rollback", text=text_of(backwards(TWO))), stopped(10, f"journal: other plan {own}/0 {back}/0"))
        yield "no journal", same(one.run("rollback", one.without("SWANROLL_JOURNAL")), FAULT)
        yield "what is refused touches nothing", same((one.image(), one.guests()), (begun, set()))
        yield "no fleet", same(one.run("rollback", one.without("SWANROLL_FLEET")), stopped(9, 'port fault at "A"')) or same(entries_in(one.image()), [(BEGIN, 0, 1)])
        one.switches["A"].held[0] = (0, 3)
        yield "a switch that holds too much", same(one.run("rollback"), stopped(11, "alien: item 0 held 3 above 1")) or same(kept_in(one.image())[:2], (digest_of(TWO), 0))
    with rollout(program, TWO, begun) as one:
        yield "taken back", same(one.run("rollback"), taken_back(TWO))
        image = one.image()
        yield "taken back twice", same(one.run("rollback"), stopped(10, f"journal: other plan {back}/1 {own}/0")) or same(one.image(), image)


def not_level(program, limit):
    """One of two switches is silent, and an operation of it was begun: nothing is placed until it has answered."""
    begun = journal(TWO, [(BEGIN, 0, 1), (BEGIN, 1, 1)])
    with rollout(program, TWO, begun, {"B": silent}) as one:
        quick = one.having(SWANROLL_TIMEOUT=limit)
        yield "one in flight", same(one.run("rollback --rounds 2 --workers 1", quick), stopped(5, "rounds spent: rounds 2, item 1 operation 1"))
        yield "one in flight, the journal", same(kept_in(one.image())[:2], (digest_of(TWO), 0))
        one.switches["B"].fate = plain
        yield "one in flight, once it has answered", same(one.run("rollback"), taken_back(TWO)) or placed(one, 1)
        yield "one in flight, back", run_back(one)


def unwritten(program):
    """Where the document can't be written the journal of the way back stands, and `back` has the document."""
    with rollout(program, TWO, journal(TWO, [(BEGIN, 0, 1)])) as one, open("/dev/full", "wb") as full:
        status, _, notes = one.run("rollback", stdout=full)
        yield "a full device", same((status, notes), (7, "write fault\n")) or placed(one, 1)
        yield "a full device, the document", same(one.run("back"), taken_back(TWO)) or run_back(one)


# Each call of the journal's file.

def gone_on(one, front, stage):
    """Takes a rollout back of which a rollback was cut off: what is wrong, or None."""
    digest, migration, _, entries = kept_in(one.image())
    if (digest, migration) == (digest_of(one.document), 0):
        wrong = same(entries[:len(front)], front) or same(came_to(one.document, entries), stage) or same(one.run("rollback"), taken_back(one.document))
        if wrong:
            return wrong
    return placed(one, stage) or run_back(one) or past_there(one, stage)


def past_there(one, stage):
    """A command of migration 0 of an operation that leads past this stage, or None."""
    items = Items(one.document)
    late = [c for switch in one.switches.values() for c in switch.commands if c.migration == 0 and items.changes[c.item][c.number - 1] > stage]
    return f"{late[0]}" if late else None


def calls(program, name, value, front):
    image, stage = journal(value, front), came_to(value, front)
    count = calls_of(program, value, image, "rollback")
    if count is None:
        yield "calls can't be seen on this machine", None
        return
    yield f"{name}, its calls", None if count > 8 else f"there are {count}"
    for case, one, end, fault in ways_of(program, value, image, "rollback", min(2 * MOST_CALLS, count)):
        yield f"{name}, {case}", None if end in (fault, taken_back(value)) else f"{end}"
        yield f"{name}, {case}, gone on with", gone_on(one, front, stage)


def outcomes(program):
    for part_of in (one_begun, levels, from_no_journal, there_and_back, words, refused, unwritten):
        yield from part_of(program)
    yield from by_first_that_fits(not_level, program, LIMITS)
    yield from calls(program, "ahead", AHEAD, [(BEGIN, 0, 1)])
    yield from calls(program, "two", TWO, [(BEGIN, 0, 1), (DONE, 0, 1)])


if __name__ == "__main__":
    report("rollbacks", "cases", outcomes(os.path.abspath(sys.argv[1])))
