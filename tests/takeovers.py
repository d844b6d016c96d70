"""The commands `takeover` and `run --term` over sockets, with switches that have a floor: where a takeover begins, what it refuses, and that the older controller changes nothing behind
it, whether it goes on, hangs meanwhile, or is gone. A takeover that is killed at each command, and whose journal's file fails at each call, is gone on with or begun again, to the target.
Its words.

    python3 tests/takeovers.py PROGRAM
"""

import collections
import json
import os
import signal
import struct
import sys
import time

from carried import Items
from disk_calls import MOST_CALLS, calls_of, rolled, Turn, WAYS
from journal_files import entries_in, kept_in
from named import FULL_TABLES, LATE, TWO, document, read
from outcomes import report
from rolling import Rollout, finished, planned, rollout, same, stopped
from switches import Switch, next_command, plain
from waiting import until

ONE, AHEAD, PASSING = json.loads(read("one.out")), document("ahead.json"), document("passing.json")
USAGE = (2, "", "usage: swanroll COMMAND [--NAME VALUE]\n")
FENCED, KILLED = 0x46, -signal.SIGKILL
Termed = collections.namedtuple("Termed", "migration item number scale rates term")


class Floored(Switch):
    """A switch that hears several controllers: a command of a term below the highest heard changes nothing, and is answered with what is held."""

    floor = 0

    def serve(self, guest):
        data = b""
        try:
            while piece := guest.recv(1 << 16):
                data += piece
                while data:
                    term, head = (None, 0) if data[0] != FENCED else (struct.unpack_from(">I", data, 1)[0] if len(data) >= 5 else None, 5)
                    command, end = next_command(data[head:]) if len(data) > head else (None, 0)
                    if not end:
                        break
                    data = data[head + end:]
                    self.take(guest, Termed(*command, term))
        except OSError:  # the controller is gone
            pass
        except ValueError as fault:
            self.wrong.append(f"{self.name}: {fault}")
        finally:
            with self.speaks:
                guest.close()

    def carry_out(self, command):
        with self.lock:
            term = command.term or 0
            if term < self.floor:
                migration, number = self.held.get(command.item, (0, 0))
                answer = struct.pack(">BIII", 0x4E, migration, command.item, number)
            else:
                self.floor = term
                answer = super().carry_out(command)
            return answer if command.term is None else struct.pack(">BI", FENCED, self.floor) + answer


class Taken(Rollout):
    """A rollout over switches that hear several controllers."""

    plays = Floored

    def terms(self):
        """The terms of the commands that came."""
        return {command.term for switch in self.switches.values() for command in switch.commands}

    def held(self):
        return {(name, item): pair for name, switch in self.switches.items() for item, pair in switch.held.items()}

    def asked(self):
        """Which commands came that may be carried out."""
        return [command for switch in self.switches.values() for command in switch.commands if command.number]

    def questions(self):
        """Migration, scale and rates of the commands that came and can't be carried out."""
        return {(command.migration, command.scale, command.rates) for switch in self.switches.values() for command in switch.commands if not command.number}

    def beside(self, words, environment):
        """How a command ends while another controller may be connected."""
        return self.ended(self.start(words, environment))

    def begin(self, numbers):
        """From now on the switches hold so many operations of these items, of migration 0."""
        self.hold({item: (0, number) for item, number in numbers.items()})


def taken(program, value, image=None, fates=plain):
    return rollout(program, value, image, fates, of=Taken)


def line(operations, start):
    return 0, f"taken: operations {operations}, start {start}\n", ""


def operations_of(value):
    return sum(len(changes) for changes in Items(value).changes)


def first(*found):
    """The first thing that was wrong."""
    return next((wrong for wrong in found if wrong), None)


def placed(one, start, migration=0):
    """What differs in the journal from one that begins at this start."""
    _, of, begins, _ = kept_in(one.image())
    return None if (of, begins) == (migration, start) else f"the journal begins as {of} {begins}"


def untouched(one, image=None):
    return None if one.image() == image else "the journal's file was touched"


def only_asked(one, term):
    return first(one.asked() and f"commands went out: {one.asked()[0]}", None if one.terms() <= {term} else f"terms {one.terms()}")


# Where it begins.

def row_ahead(program):
    """The row of a takeover: C holds number 1 of item 2."""
    with taken(program, AHEAD) as one:
        one.begin({2: 1})
        end = one.run("takeover --term 1")
        start = [0] * Items(AHEAD).count
        start[2] = 1
        return first(same(end, line(6, 1)), one.misses(), placed(one, start), same(len(entries_in(one.image())), 10), None if one.terms() == {1} else f"terms {one.terms()}")


MEETS, TABLE_A, TABLE_B = 'room at stage 1, link "A">"L": 4 against 2', 'room at stage 0, table "A": 3 against 2', 'room at stage 0, table "B": 3 against 2'
# How many operations of some items are held, and what such a start breaks first; None where it is one. An item of which more is held than it has is told of before any start.
# The flows of the first network have three operations and one, and would meet at a link.
STARTS_OF_LATE = (
    ({}, None), ({1: 1}, MEETS), ({0: 1, 1: 1}, MEETS), ({0: 3, 1: 1}, None), ({1: 2}, (1, 2, 1)), ({0: 4, 1: 2}, (0, 4, 3)),
)
# The flow of the second needs the entries 7, 8 and 9, and the tables of A and B have no place for 7 and 9 before 4 and 6 are gone.
STARTS_OF_TABLES = (
    ({4: 1}, None), ({0: 1}, "item 0 operation 1 lacks its needs"), ({7: 1}, TABLE_A), ({7: 1, 9: 1}, TABLE_A), ({4: 1, 9: 1}, TABLE_B),
    ({0: 1, 7: 1}, "item 0 operation 1 lacks its needs"), ({0: 1, 4: 2}, (4, 2, 1)), ({7: 1, 8: 3}, (8, 3, 1)),
)


def start_of(program, value, numbers, broken):
    """A takeover where so much is held."""
    with taken(program, value) as one:
        items = Items(value)
        one.begin({item: number for item, number in numbers.items() if items.has(item, number)})
        for item, number in numbers.items():
            one.switches[items.homes[item]].held[item] = 0, number
        end = one.run("takeover --term 1")
        if broken is None:
            return first(same(end, line(items.operations, sum(numbers.values()))), one.misses(), placed(one, [numbers.get(item, 0) for item in range(items.count)]))
        wanted = stopped(13, f"start: {broken}") if isinstance(broken, str) else stopped(11, "alien: item %d held %d above %d" % broken)
        return first(same(end, wanted), only_asked(one, 1), untouched(one))


def starts(program):
    """What is held is a start, or breaks a need, or has no room at a link or a table."""
    for name, value, rows in (("late", LATE, STARTS_OF_LATE), ("full tables", planned(program, FULL_TABLES), STARTS_OF_TABLES)):
        for numbers, broken in rows:
            yield f"a start of {name} with {numbers}", start_of(program, value, numbers, broken)


def anew(program):
    """Where nothing was begun, and where all was."""
    with taken(program, ONE) as one:
        count = operations_of(one.document)
        begun = one.run("takeover --term 4294967295")
        again = one.run("takeover --term 4294967295")
        return first(same(begun, line(count, 0)), same(again, line(count, count)), one.misses())


def moments(program, value):
    """Each moment of a rollout that is stopped by its rounds: what is held there is a start, and the takeover ends at the target. Each takeover has another journal."""
    count = operations_of(value)
    with taken(program, value) as one:
        for turn in range(1, 40):
            end = one.run(f"run --workers 1 --rounds {turn}")
            if end[0] == 0:
                return None
            with taken(program, value) as other:
                for name, switch in one.switches.items():
                    other.switches[name].held, other.switches[name].content = dict(switch.held), dict(switch.content)
                numbers = [pair[1] for pair in other.held().values()]
                wrong = first(same(other.run("takeover --term 3 --workers 4"), line(count, sum(numbers))), other.misses())
                if wrong:
                    return f"behind {turn} rounds: {wrong}"
            os.remove(one.journal)
            for switch in one.switches.values():
                switch.held.clear()
                switch.content.clear()
        return None


# The older controller.

def older(program, value, means):
    """It goes on over plain ports behind the takeover, and no pair that is held changes by it: whether it ran on meanwhile, was stopped and went on, or was killed."""
    hears = {"plain": False}

    def fate(switch, guest, command):
        # an older command is lost until the takeover is done, but for the first of each switch
        if command.term is None and not hears["plain"] and len([c for c in switch.commands if c.term is None]) > 1:
            return
        plain(switch, guest, command)

    with taken(program, value, fates=fate) as one:
        old = one.fed("run --rounds 200000 --workers 1", one.having(SWANROLL_TIMEOUT="50"))
        until(one.asked)
        time.sleep(0.2)
        if means == "hung":
            old.send_signal(signal.SIGSTOP)
        if means == "killed":
            old.kill()
            old.wait()
        before = one.having(SWANROLL_JOURNAL=one.journal + ".taken")
        end = one.beside("takeover --term 7", before)
        held = one.held()
        hears["plain"] = True
        if means == "hung":
            old.send_signal(signal.SIGCONT)
        late = one.ended(old)
        wrong = first(end[0] and f"the takeover ended as {end}", one.misses(), same(one.held(), held))
        if means != "killed" and late[0] not in (0, 5, 9, 11):
            wrong = wrong or f"the older controller ended as {late}"
        again = one.run("run --rounds 40 --workers 1")
        return first(wrong, again[0] not in (0, 5, 9, 11) and f"it was started again, and ended as {again}", same(one.held(), held), None if None in one.terms() else "no plain command came")


# Crashes.

def crashed(program, value):
    """Killed at each command that comes, and then gone on with: from the journal that it placed, or begun again where it hadn't."""
    count = operations_of(value)
    for at in range(1, 200):
        state = {"count": 0, "process": None}

        def fate(switch, guest, command):
            state["count"] += 1
            if state["count"] == at and state["process"] is not None:
                os.kill(state["process"], signal.SIGKILL)
            plain(switch, guest, command)

        with taken(program, value, fates=fate) as one:
            one.begin({})
            started = one.start("takeover --term 2")
            state["process"] = started.pid
            end = one.ended(started)
            state["process"] = None
            for switch in one.switches.values():
                switch.settle()
            if end[0] == 0:
                return None
            if end[0] != KILLED:
                return f"killed at command {at} it ended as {end}"
            wrong = gone_on(one, count, 2)
            if wrong:
                return f"killed at command {at}: {wrong}"
    return None


def is_placed(one):
    image = one.image()
    return bool(image) and image[0] == 0x54


def gone_on(one, count, term):
    """A crashed takeover is gone on with from its journal, where that stands, or begun again."""
    if is_placed(one):
        found = len(entries_in(one.image()))
        end = one.run(f"run --term {term}")
        return first(same(end, finished(count, found)), one.misses(), None in one.terms() and "a plain command went out")
    end = one.run(f"takeover --term {term}")
    return first(end[0] and f"begun again it ended as {end}", one.misses(), None in one.terms() and "a plain command went out")


# What it refuses.

def words(program):
    with taken(program, ONE) as one:
        for wrong in ("takeover", "takeover --term 0", "takeover --term 4294967296", "takeover --term x", "takeover --term -1", "takeover --term", "takeover --term 1 --term 2",
                      "takeover --term 1 --workers 17", "takeover --term 1 --rounds 0", "takeover --term 1 --policy none", "takeover --term 1 --guests 1", "takeover --term 1 --migration 4294967296",
                      "run --term", "run --term x", "run --term -1", "run --term 4294967296", "run --term 1 --term 1", "run --term 0 --term 0", "run --term 1 --guests 2", "run 1 --term",
                      "report --term 1", "rollback --term 1", "drain --term 1", "held --term 1"):
            end = one.run(wrong)
            if end != USAGE:
                return f"{wrong}: {same(end, USAGE)}"
        return first(same(one.commands(), 0), untouched(one))


def plain_term(program):
    """Term 0 is a run without one, and the pair may stand anywhere."""
    for said in ("run --term 0", "run --term 00 --workers 1", "run --workers 1 --term 0 --rounds 20", "run --rounds 20 --term 0"):
        with taken(program, ONE) as one:
            count = operations_of(one.document)
            wrong = first(same(one.run(said), finished(count, 0)), None if one.terms() == {None} else f"terms {one.terms()}", one.misses())
            if wrong:
                return f"{said}: {wrong}"
    return None


def termed_run(program):
    """A run of a term sends nothing without it."""
    for said in ("run --term 9", "run --workers 1 --term 9 --rounds 20", "run --rounds 20 --policy order --term 9"):
        with taken(program, TWO) as one:
            count = operations_of(one.document)
            wrong = first(same(one.run(said), finished(count, 0)), None if one.terms() == {9} else f"terms {one.terms()}", one.misses())
            if wrong:
                return f"{said}: {wrong}"
    return None


def with_fate(program, value, fate, wanted, said="takeover --term 1", numbers=None, migration=0):
    with taken(program, value, fates=fate) as one:
        for item, number in (numbers or {}).items():
            one.switches[Items(value).homes[item]].held[item] = migration, number
        end = one.run(said, one.having(SWANROLL_TIMEOUT="100"))
        return first(same(end, wanted), one.asked() and "commands went out", untouched(one))


def silent_fate(switch, guest, command):
    """Nothing is answered."""


def other_item(switch, guest, command):
    switch.tell(guest, struct.pack(">BI", FENCED, 1) + struct.pack(">BIII", 0x4E, 0, 77, 0))


def no_answer(switch, guest, command):
    switch.tell(guest, struct.pack(">BI", FENCED, 1) + b"\x50")


def other_kind(switch, guest, command):
    switch.tell(guest, struct.pack(">BIII", 0x4E, 0, command.item, 0))


def higher(switch, guest, command):
    switch.tell(guest, struct.pack(">BI", FENCED, 2) + struct.pack(">BIII", 0x4E, 0, command.item, 0))


def lower(switch, guest, command):
    switch.tell(guest, struct.pack(">BI", FENCED, 0) + struct.pack(">BIII", 0x4E, 0, command.item, 1))
    plain(switch, guest, command)


def above(switch, guest, command):
    """More is told of the migration that was asked for than a plan may have."""
    switch.tell(guest, struct.pack(">BI", FENCED, 1) + struct.pack(">BIII", 0x4E, command.migration, command.item, 1000000))


def ends(program):
    """Why a takeover isn't begun."""
    port = stopped(9, 'port fault at "A"')
    for name, wrong in (
        ("silence", with_fate(program, ONE, silent_fate, stopped(5, "rounds spent: rounds 3, item 0 operation 0"), "takeover --term 1 --rounds 3")),
        ("another item", with_fate(program, ONE, other_item, stopped(11, 'alien: item 77 not of "A"'))),
        ("no answer", with_fate(program, ONE, no_answer, stopped(11, 'alien: byte 80 is no answer from "A"'))),
        ("an answer without a floor", with_fate(program, ONE, other_kind, port)),
        ("a floor above the term", with_fate(program, ONE, higher, port)),
        ("more than there is", with_fate(program, ONE, plain, stopped(11, "alien: item 0 held 2 above 1"), numbers={0: 2})),
        ("above what there may be", with_fate(program, ONE, above, stopped(11, "alien: item 0 held 1000000 above 1"))),
        ("above it in a later migration", with_fate(program, ONE, above, stopped(11, "alien: item 0 held 1000000 above 1"), "takeover --term 1 --migration 5")),
        ("a later migration", with_fate(program, ONE, plain, stopped(11, "alien: item 0 held of migration 3"), numbers={0: 1}, migration=3)),
    ):
        if wrong:
            return f"{name}: {wrong}"
    with taken(program, ONE, fates=lower) as one:
        return first(one.run("takeover --term 1")[0] and "an answer from before the term wasn't passed over", one.misses())


def earlier(program):
    """What is held of an earlier migration is no part of the start. The questions name the one that is taken over."""
    with taken(program, ONE) as one:
        one.hold({0: (2, 1)})
        count = operations_of(one.document)
        return first(same(one.run("takeover --term 1 --migration 5"), line(count, 0)), one.misses(5), placed(one, [0] * Items(one.document).count, 5), same(one.questions(), {(5, 1, (0,))}))


def devices(program):
    """Without a fleet no port is given, without a journal none is placed: the switches are asked first."""
    with taken(program, ONE) as one:
        port, disk = stopped(9, 'port fault at "A"'), stopped(8, "journal device fault")
        wrong = first(same(one.run("takeover --term 1", one.without("SWANROLL_FLEET", "SWANROLL_JOURNAL")), port), same(one.run("takeover --term 1", one.without("SWANROLL_FLEET")), port))
        return first(wrong, same(one.commands(), 0), same(one.run("takeover --term 1", one.without("SWANROLL_JOURNAL")), disk), only_asked(one, 1))


def journals(program):
    """Whatever journal stands there is replaced, also one of another rollout; what is none is refused, and stays."""
    other = None
    with taken(program, TWO) as one:
        one.run()
        other = one.image()
    with taken(program, ONE, other) as one:
        count = operations_of(one.document)
        wrong = first(same(one.run("takeover --term 1"), line(count, 0)), one.misses())
    with taken(program, ONE, b"x" * 100) as one:
        end = one.run("takeover --term 1")
        return first(wrong, same(end[:2], (10, "")), only_asked(one, 1), untouched(one, b"x" * 100))


def fails_at_each_call(program, value):
    """Each call of the journal's file in turn fails, or the controller is killed before or after it; then it is gone on with, or begun again."""
    with taken(program, value) as one:
        whole = Turn(one.journal)
        if rolled(one, whole, "takeover --term 2") is None:
            return None
        calls = min(whole.count, MOST_CALLS)
    count = operations_of(value)
    for number in range(calls):
        for fate, left, wanted in WAYS:
            with taken(program, value) as one:
                turn = Turn(one.journal, number, fate)
                end = rolled(one, turn, "takeover --term 2")
                if end is None:
                    return None
                if left == "lost":
                    one.put(turn.durable())
                if end[0] not in (0, wanted[0]):
                    return f"call {number} {fate}: {end}"
                if end[0] == 0:
                    continue
                wrong = gone_on(one, count, 2)
                if wrong:
                    return f"call {number} {fate}, {left}: {wrong}"
    return None


def cases(program):
    yield "a row of ahead", row_ahead(program)
    yield from starts(program)
    yield "anew", anew(program)
    yield "an earlier migration", earlier(program)
    yield "words", words(program)
    yield "term 0", plain_term(program)
    yield "a run of a term", termed_run(program)
    yield "ends", ends(program)
    yield "devices", devices(program)
    yield "journals", journals(program)
    for name, value in (("one", ONE), ("two", TWO), ("ahead", AHEAD), ("passing", PASSING)):
        yield f"moments of {name}", moments(program, value)
    for means in ("alive", "hung", "killed"):
        for name, value in (("two", TWO), ("ahead", AHEAD)):
            yield f"an older controller {means}, {name}", older(program, value, means)
    for name, value in (("one", ONE), ("two", TWO), ("ahead", AHEAD)):
        yield f"killed at each command, {name}", crashed(program, value)
    for name, value in (("one", ONE), ("two", TWO)):
        yield f"at each call of the file, {name}", fails_at_each_call(program, value)


if __name__ == "__main__":
    report("takeovers", "cases", cases(sys.argv[1]))
