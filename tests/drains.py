"""The command `drain` over sockets: rollouts that were stopped anywhere begin nothing, and what they have in flight is awaited: the line, the journal, what the
switches hold, and that the rollout goes on from there, or back. Its words; each status with its line, by what causes it; and each call of the journal's file in
turn fails, alone or with all behind it, or the controller is killed before it or after it, and then the rollout is drained all the same.

    python3 tests/drains.py PROGRAM
"""

import json
import os
import random
import subprocess
import sys

from carried import Items
from disk_calls import FAULT, MOST_CALLS, calls_of, ways_of
from explained import drawn
from journal_files import BEGIN, DONE, digest_of, entries_in, kept_in
from named import EXCHANGE, FULL_TABLES, LATE, ONE, TWO, document
from outcomes import report
from rollbacks import came_to, journal, taken_back
from rolling import finished, planned, rollout, same, stopped
from switches import plain, silent
from waiting import LIMITS, by_first_that_fits

USAGE = (2, "", "usage: swanroll COMMAND [--NAME VALUE]\n")
LAST = 2 ** 32 - 1
AHEAD = document("ahead.json")
DRAWN, SEED, MOST_OPERATIONS = 50, 71_000, 40


# What a drain comes to, by its definitions: a list, and what is begun and settled in it.

def counts(items, entries, kind):
    """How many entries of this kind each item has."""
    row = [0] * items.count
    for entry in entries:
        row[entry[1]] += entry[0] == kind
    return row


def drained(value, entries):
    """The end of a drain of this list from nothing: whatever is begun is settled then, and nothing else."""
    items = Items(value)
    return 0, f"drained: operations {items.operations}, settled {sum(counts(items, entries, BEGIN))}\n", ""


def unlike(one, entries, migration=0):
    """What the journal has behind a drain that it shouldn't, or None: the list found, and behind it a Done for each operation in flight, in some order."""
    items = Items(one.document)
    begun, settled = counts(items, entries, BEGIN), counts(items, entries, DONE)
    awaited = [(DONE, item, begun[item]) for item in range(items.count) if begun[item] != settled[item]]
    digest, number, start, now = kept_in(one.image())
    return (same((digest, number, start), (digest_of(one.document), migration, [0] * items.count)) or same(now[:len(entries)], entries)
            or same(sorted(now[len(entries):]), sorted(awaited)))


def carries(one, entries, migration=0):
    """The first item that doesn't hold what is settled, or None: by what the list begins, of which all is settled then."""
    items = Items(one.document)
    for item, number in enumerate(counts(items, entries, BEGIN)):
        switch = one.switches.get(items.homes[item])
        if switch and number and switch.held.get(item) != (migration, number):
            return f"item {item} holds {switch.held.get(item)}, not {(migration, number)}"
        if switch and number and switch.content[item] != (items.brings(item, number), items.scale):
            return f"item {item} carries {switch.content[item]}"
        if switch and not number and item in switch.held:
            return f"item {item} holds {switch.held[item]}, and nothing of it was begun"
    return next((wrong for switch in one.switches.values() for wrong in switch.wrong), None)


def begins(one, entries):
    """A command that went out and that the list hasn't begun, or None."""
    begun = {entry[1:] for entry in entries if entry[0] == BEGIN}
    late = [command for switch in one.switches.values() for command in switch.commands if (command.item, command.number) not in begun]
    return f"{late[0]}" if late else None


def still(one, entries):
    """What a report tells of a rollout that is drained that it shouldn't, or None."""
    items = Items(one.document)
    begun = sum(counts(items, entries, BEGIN))
    status, out, notes = one.run("report")
    return same((status, out.split("\n")[0], notes), (0, f"entries {2 * begun}, settled {begun} of {items.operations}, flying 0", ""))


def goes_on(one, entries):
    """What a run behind a drain of this list comes to that differs from the new split, or None."""
    items = Items(one.document)
    return same(one.run(), finished(items.operations, 2 * sum(counts(items, entries, BEGIN)))) or one.misses()


# Rollouts that were stopped somewhere.

def begun(one, front):
    """The switches hold what the list has as done."""
    one.hold({item: (0, number) for kind, item, number in front if kind == DONE})


def cases_of(program, name, value, entries, counted):
    """A drain from each of these fronts of a list."""
    for count in counted:
        front = entries[:count]
        with rollout(program, value, journal(value, front)) as one:
            begun(one, front)
            case = f"{name} behind {count} entries"
            yield case, same(one.run(f"drain --workers {1 + count % 3}"), drained(value, front)) or carries(one, front) or begins(one, front)
            yield f"{case}, the journal", unlike(one, front) or still(one, front)
            if count % 2:
                yield f"{case}, again", same(one.run("drain"), drained(value, front)) or unlike(one, front)
                yield f"{case}, gone on with", goes_on(one, front)
            else:
                yield f"{case}, taken back", same(one.run("rollback"), taken_back(value))


def listed(program, value, words="run --workers 1"):
    with rollout(program, value) as one:
        one.run(words)
        return entries_in(one.image())


def examples(program):
    """From each list on the way of a rollout by one worker, from before its first entry to behind its last."""
    for name, value in (("one", json.loads(ONE)), ("two", TWO), ("late", LATE), ("ahead", AHEAD), ("full tables", planned(program, FULL_TABLES)), ("exchange", planned(program, EXCHANGE))):
        entries = listed(program, value)
        yield from cases_of(program, name, value, entries, range(len(entries) + 1))


def canonical(program, value):
    """A document as the program writes it, which tells it by its digest: turned round twice."""
    for _ in range(2):
        value = json.loads(subprocess.run([program, "back"], input=json.dumps(value), capture_output=True, text=True, check=True).stdout)
    return value


def drawn_plans(program):
    """From some lists on the way of rollouts that are drawn, by two workers."""
    found = 0
    for seed in range(SEED, SEED + 20 * DRAWN):
        value = drawn(seed)
        if found == DRAWN or not 0 < Items(value).operations <= MOST_OPERATIONS:
            continue
        found += 1
        value = canonical(program, value)
        entries = listed(program, value, "run --workers 2")
        draw = random.Random(seed)
        yield from cases_of(program, f"drawn {seed}", value, entries, sorted(draw.sample(range(len(entries) + 1), 2)))
    yield "plans that were drawn", same(found, DRAWN)


def from_no_journal(program):
    """Nothing was begun: nothing goes out, and a journal with an empty list is made."""
    for name, image in (("no file", None), ("no byte", b""), ("a zero", b"\0")):
        with rollout(program, TWO, image) as one:
            yield f"from {name}", same(one.run("drain"), drained(TWO, [])) or unlike(one, []) or same(one.commands(), 0)
            yield f"from {name}, gone on with", goes_on(one, [])


def beside_freeze(program):
    """As a run that is frozen at stage 0, but for its end."""
    front = [(BEGIN, 0, 1), (BEGIN, 1, 1), (DONE, 1, 1)]
    with rollout(program, AHEAD, journal(AHEAD, front)) as one:
        begun(one, front)
        yield "frozen at stage 0", same(one.run("run --policy freeze", one.having(SWANROLL_CEILING="0")), stopped(14, f"held: operations {Items(AHEAD).operations - 2}")) or unlike(one, front)
        yield "drained where it was frozen", same(one.run("drain", one.having(SWANROLL_CEILING="1")), drained(AHEAD, front)) or unlike(one, front)


# Words, and each status by its cause.

def words(program):
    for given, migration in (("--workers 1", 0), ("--workers 16 --rounds 1", 0), ("--rounds 200000", 0), ("--migration 0", 0), (f"--migration {LAST}", LAST), ("--migration 7 --rounds 3 --workers 3", 7)):
        with rollout(program) as one:
            yield f"drain {given}", same(one.run(f"drain {given}"), drained(one.document, [])) or unlike(one, [], migration)
    with rollout(program) as one:
        for given in (f"--migration {LAST + 1}", "--migration -1", "--migration", "--policy critical", "--policy freeze", "--rounds 0", "--rounds 200001",
                      "--workers 0", "--workers 17", "--workers 2 --workers 2", "--rounds=1", "--guests 1", "here"):
            yield f"drain {given}", same(one.run(f"drain {given}"), USAGE)
        yield "words that are refused touch nothing", same((one.image(), one.guests()), (None, set()))


def refused(program):
    image = journal(TWO, [(BEGIN, 0, 1)])
    with rollout(program, TWO, image) as one:
        own = digest_of(TWO).hex()
        yield "a document that is refused", same(one.run("drain", text="{}"), stopped(3, 'input: top: missing "problem"'))
        yield "another migration", same(one.run("drain --migration 1"), stopped(10, f"journal: other plan {own}/0 {own}/1"))
        yield "no journal", same(one.run("drain", one.without("SWANROLL_JOURNAL")), FAULT)
        yield "what is refused touches nothing", same((one.image(), one.guests()), (image, set()))
        yield "no fleet", same(one.run("drain", one.without("SWANROLL_FLEET")), stopped(9, 'port fault at "A"')) or same(entries_in(one.image()), [(BEGIN, 0, 1)])
        one.switches["A"].held[0] = (0, 3)
        yield "a switch that holds too much", same(one.run("drain"), stopped(11, "alien: item 0 held 3 above 1")) or same(entries_in(one.image()), [(BEGIN, 0, 1)])


def silence(program, limit):
    """One of two switches is silent, and an operation of it was begun: it stays in flight until that switch has answered, and of the others nothing begins meanwhile."""
    front = [(BEGIN, 0, 1), (BEGIN, 1, 1)]
    with rollout(program, TWO, journal(TWO, front), {"B": silent}) as one:
        quick = one.having(SWANROLL_TIMEOUT=limit)
        yield "one is silent", same(one.run("drain --rounds 2 --workers 1", quick), stopped(5, "rounds spent: rounds 2, item 1 operation 1"))
        yield "one is silent, the journal", same(entries_in(one.image()), front + [(DONE, 0, 1)]) or begins(one, front)
        one.switches["B"].fate = plain
        yield "once it has answered", same(one.run("drain"), drained(TWO, front)) or unlike(one, front) or carries(one, front)
        yield "once it has answered, gone on with", goes_on(one, front)


def unwritten(program):
    """Where the line can't be written the rollout is drained all the same."""
    front = [(BEGIN, 0, 1)]
    with rollout(program, TWO, journal(TWO, front)) as one, open("/dev/full", "wb") as full:
        status, _, notes = one.run("drain", stdout=full)
        yield "a full device", same((status, notes), (7, "write fault\n")) or unlike(one, front) or carries(one, front)


# Each call of the journal's file.

def calls(program, name, value, front):
    image = journal(value, front)
    def prepared(one):
        begun(one, front)
    count = calls_of(program, value, image, "drain --workers 1", prepared)
    if count is None:
        yield "calls can't be seen on this machine", None
        return
    yield f"{name}, its calls", None if count > 2 else f"there are {count}"
    for way, one, end, fault in ways_of(program, value, image, "drain --workers 1", min(MOST_CALLS, count), prepared):
        case, now = f"{name}, {way}", entries_in(one.image())
        yield case, None if end in (fault, drained(value, front)) else f"{end}"
        yield f"{case}, what stands", same(now[:len(front)], front) or same([entry for entry in now[len(front):] if entry[0] == BEGIN], []) or begins(one, front)
        yield f"{case}, again", same(one.run("drain"), drained(value, front)) or unlike(one, front) or carries(one, front)
        yield f"{case}, gone on with", goes_on(one, front)


def outcomes(program):
    for part_of in (examples, drawn_plans, from_no_journal, beside_freeze, words, refused, unwritten):
        yield from part_of(program)
    yield from by_first_that_fits(silence, program, LIMITS)
    yield from calls(program, "ahead", AHEAD, [(BEGIN, 0, 1), (BEGIN, 1, 1)])
    yield from calls(program, "two", TWO, [(BEGIN, 0, 1), (DONE, 0, 1), (BEGIN, 1, 1)])


if __name__ == "__main__":
    report("drains", "cases", outcomes(os.path.abspath(sys.argv[1])))
