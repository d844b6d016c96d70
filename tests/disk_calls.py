"""Each call of the journal's file in turn fails, alone or with all behind it, or the controller is killed before it or after it, while `run` rolls a plan out:
what the rollout then says, that the journal has what was begun, and that the next start goes on to the end, from the file as it stands and, behind a disk that
stopped, from what was synced alone.

    python3 tests/disk_calls.py PROGRAM
"""

import errno
import json
import os
import signal
import sys
import threading

from carried import Items
from journal_files import BEGIN, entries_in
from named import EXCHANGE, FULL_TABLES, ONE, TWO
from outcomes import report
from rolling import finished, planned, rollout, same, stopped
from syncs import NUMBERS, SYNCS, Calls

FAULT = stopped(8, "journal device fault")
MOST_CALLS = 40
KILLED = -signal.SIGKILL


class Turn:
    """The call of this number, from 0, fails, or it and all behind it; or the controller is killed before it, or before the next one. Without a number all are
    counted alone. What was synced last is kept."""

    def __init__(self, path, number=None, fate=None):
        self.path, self.number, self.fate, self.count, self.lock = path, number, fate, 0, threading.Lock()
        self.is_synced, self.synced = False, b""

    def __call__(self, name, process):
        with self.lock:
            at, self.count, self.synced = self.count, self.count + 1, self.durable()
            fails = self.number is not None and (at == self.number and self.fate == "fails" or at >= self.number and self.fate == "stops")
            self.is_synced = name in SYNCS and not fails
        if fails:
            return errno.EIO
        if self.number is not None and (self.fate, at) in (("killed before", self.number), ("killed after", self.number + 1)):
            os.kill(process, signal.SIGKILL)
        return None

    def durable(self):
        """What the file has where its last call was a sync, else what it had behind the last one."""
        if not self.is_synced:
            return self.synced
        with open(self.path, "rb") as file:
            return file.read()


def rolled(one, turn, *command):
    """How a start, of `run` or of another command, ended over which the turn was taken; None where calls can't be seen here."""
    calls = Calls(one.journal, NUMBERS, turn)
    started = one.start(*command, preexec_fn=calls.in_child)
    seen = calls.attach()
    end = one.ended(started)
    for switch in one.switches.values():
        switch.settle()
    calls.close()
    return end if seen else None


# The ways in which a call of the journal's file is the last one, or fails: what is left of the file then, and how the command ends by it.
WAYS = (
    ("fails", "kept", FAULT), ("stops", "kept", FAULT), ("stops", "lost", FAULT), ("killed before", "kept", (KILLED, "", "")), ("killed after", "kept", (KILLED, "", "")),
)


def as_it_is(one):
    """A rollout that nobody has touched before the command is started."""


def calls_of(program, value, image, command, prepared=as_it_is):
    """How many calls of the journal's file a command makes; None where calls can't be seen here."""
    with rollout(program, value, image) as one:
        prepared(one)
        whole = Turn(one.journal)
        return None if rolled(one, whole, command) is None else whole.count


def ways_of(program, value, image, command, count, prepared=as_it_is):
    """A command, with each of so many calls in turn failing, or the last one: which way it is, the rollout behind it, how the command ended, and how it ends by that."""
    for fate, left, fault in WAYS:
        for number in range(count):
            with rollout(program, value, image) as one:
                prepared(one)
                turn = Turn(one.journal, number, fate)
                turn.synced = image
                end = rolled(one, turn, command)
                if left == "lost":
                    one.put(turn.durable())
                yield f"call {number} {fate}, {left}", one, end, fault


def unbegun(one):
    """What a switch carried out that the journal doesn't have as begun, or None."""
    begun = {entry[1:] for entry in entries_in(one.image() or b"") if entry[0] == BEGIN}
    sent = {(command.item, command.number) for switch in one.switches.values() for command in switch.commands}
    return None if sent <= begun else f"the journal doesn't have {sorted(sent - begun)}"


def turns(program, name, document):
    operations = Items(document).operations
    with rollout(program, document) as one:
        whole = Turn(one.journal)
        if rolled(one, whole) is None:
            yield "calls can't be seen on this machine", None
            return
        yield f"{name}, its calls", None if whole.count > 4 else f"there are {whole.count}"
    for fate, image, ends in (
        ("fails", "kept", {FAULT}), ("stops", "kept", {FAULT}), ("stops", "lost", {FAULT}),
        ("killed before", "kept", {(KILLED, "", "")}), ("killed after", "kept", {(KILLED, "", ""), finished(operations, 0)}),
    ):
        for number in range(min(MOST_CALLS, whole.count)):
            with rollout(program, document) as one:
                case, turn = f"{name}, call {number} {fate}, {image}", Turn(one.journal, number, fate)
                end = rolled(one, turn)
                if image == "lost":
                    one.put(turn.durable())
                yield case, None if end in ends | {finished(operations, 0)} else f"{end}"
                yield f"{case}, what was sent", unbegun(one)
                if fate == "fails":
                    yield f"{case}, the calls after it", None if turn.count <= number + 1 else f"{turn.count - number - 1} calls"
                found = len(entries_in(one.image() or b""))
                status, out, notes = one.report()
                yield f"{case}, the report", None if (status, notes) == (0, "") and out.startswith(f"entries {found},") else f"{found} entries: {status}, {out!r}, {notes!r}"
                yield f"{case}, again", same(one.run(), finished(operations, found)) or one.misses()


def outcomes(program):
    yield from turns(program, "one", json.loads(ONE))
    yield from turns(program, "two", TWO)
    yield from turns(program, "exchange", planned(program, EXCHANGE))
    yield from turns(program, "full tables", planned(program, FULL_TABLES))


if __name__ == "__main__":
    report("disk calls", "cases", outcomes(os.path.abspath(sys.argv[1])))
