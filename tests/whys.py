"""Why `run` ended with status 8 or 9: each way to spoil the journal's file or the fleet file, the program's status and line, and what `bin/why` says of it.

    python3 tests/whys.py PROGRAM
"""

import contextlib
import fcntl
import os
import socket
import subprocess
import sys

from journal_files import PARTS, SLOT, slot
from named import FULL_TABLES, ONE
from outcomes import report
from rolling import planned, rollout, same, stopped
from waiting import PATIENCE

WHY = os.path.join(os.path.dirname(os.path.abspath(__file__)), "..", "bin", "why")
NO_JOURNAL, NO_PORT, FINE = stopped(8, "journal device fault"), stopped(9, 'port fault at "A"'), "nothing is wrong"


def why(one, environment=None, *words):
    """The status of `bin/why`, and what it says of the journal and of each switch."""
    done = subprocess.run([WHY, *words], input=one.text, env=environment or one.environment, capture_output=True, text=True, timeout=PATIENCE)
    return done.returncode, [line.partition('": ')[2] for line in done.stdout.splitlines()], done.stderr


def spoiled(one, name, environment, ends, said):
    """The row of one environment: how `run` ends in it, and what is said of it."""
    return name, same(one.run(environment=environment), ends) or same(why(one, environment), (1, said, ""))


def journals(program):
    with rollout(program) as one:
        yield "all is well before a first run", same(why(one), (0, [FINE, FINE], ""))
        folder = os.path.dirname(one.journal)
        for name, environment, said in (
            ("a journal that isn't named", one.without("SWANROLL_JOURNAL"), "SWANROLL_JOURNAL names no file"),
            ("a journal that is a folder", one.having(SWANROLL_JOURNAL=folder), "it is no regular file"),
            ("a journal that is a device", one.having(SWANROLL_JOURNAL="/dev/null"), "it is no regular file"),
            ("a journal in no folder", one.having(SWANROLL_JOURNAL=folder + "/none/journal"), "it lies in a folder that isn't there"),
        ):
            yield spoiled(one, name, environment, NO_JOURNAL, [said, FINE])
        with open(one.journal, "wb") as long:
            long.truncate(33_554_433)
        yield spoiled(one, "a journal that is too long", None, NO_JOURNAL, ["it has 33,554,433 bytes, and a journal of this document at most 33,554,432", FINE])
    with rollout(program) as one:
        one.run()
        one.put(b"\x54" + slot(PARTS, 1_000_000_000) + bytes(SLOT) + one.image()[PARTS:])
        said = "it names a part that ends at byte 1,000,000,035, and a journal of this document has at most 33,554,432"
        yield spoiled(one, "a journal that names a part far out", None, NO_JOURNAL, [said, FINE])
    with rollout(program, ONE, b"") as one, open(one.journal, "r+b") as held:
        fcntl.flock(held, fcntl.LOCK_EX)
        yield spoiled(one, "a journal that another process holds", None, NO_JOURNAL, [f"process {os.getpid()} holds it", FINE])
        fcntl.flock(held, fcntl.LOCK_UN)
        yield "a journal that no process holds any more", same(why(one), (0, [FINE, FINE], ""))


def logs(program):
    """Of a log there is a line where one is named."""
    with rollout(program) as one:
        folder = os.path.dirname(one.journal)
        path = os.path.join(folder, "log")
        for name, place, said in (("a log that isn't there", path, FINE), ("no log", "", None), ("a log that is a folder", folder, "it is no regular file"),
                                  ("a log that is a device", "/dev/full", "it is no regular file"), ("a log in no folder", folder + "/none/log", "it lies in a folder that isn't there")):
            yield name, same(why(one, one.having(SWANROLL_LOG=place)), (int(said not in (None, FINE)), [FINE] + [said] * (said is not None) + [FINE], ""))
        one.put(b"")
        yield "a log that is the journal", same(why(one, one.having(SWANROLL_LOG=one.journal)), (1, [FINE, "it is the journal", FINE], ""))
        with open(path, "wb") as held:
            fcntl.flock(held, fcntl.LOCK_EX)
            yield "a log that another process holds", same(why(one, one.having(SWANROLL_LOG=path)), (1, [FINE, f"process {os.getpid()} holds it", FINE], ""))


def fleets(program):
    with rollout(program) as one:
        there = one.switches["A"].address
        missing = one.fleet + "s"
        for name, environment, said in (
            ("no fleet", one.without("SWANROLL_FLEET"), "SWANROLL_FLEET names no file"),
            ("a fleet that isn't there", one.having(SWANROLL_FLEET=missing), "the fleet file isn't there"),
            ("a fleet that is a folder", one.having(SWANROLL_FLEET=os.path.dirname(missing)), "the fleet file is no regular file"),
            ("a fleet that is a device", one.having(SWANROLL_FLEET="/dev/zero"), "the fleet file is no regular file"),
        ):
            yield spoiled(one, name, environment, NO_PORT, [FINE, said])
        for name, lines, said in (
            ("no line", b"", "it has no line in the fleet file"), ("a line for others", f"B {there}\n".encode(), "it has no line in the fleet file"),
            ("a name alone", b"A\n", "it has no line in the fleet file"), ("two lines", f"A {there}\nA {there}\n".encode(), "it has 2 lines in the fleet file"),
            ("no address", b"A \n", '"" is no address'), ("no port", b"A 127.0.0.1\n", '"127.0.0.1" is no address'),
            ("a port that is none", b"A 127.0.0.1:65536\n", '"127.0.0.1:65536" is no address'), ("port 0", b"A 127.0.0.1:0\n", '"127.0.0.1:0" is no address'),
            ("numbers in the place of a name", b"A 1.2.3:80\n", '"1.2.3:80" is no address'), ("no host", b"A :80\n", '":80" is no address'),
            ("an address of six without its end", b"A [::1:80\n", '"[::1:80" is no address'),
            ("no UTF-8", b"A \xff:80\n", "the fleet file isn't UTF-8"),
            ("more than a mebibyte", f"A {there}\n".encode() + (1 << 20) * b"#", "the fleet file has more than 1,048,576 bytes"),
        ):
            with open(one.fleet, "wb") as file:
                file.write(lines)
            yield spoiled(one, f"a fleet with {name}", None, NO_PORT, [FINE, said])
        yield "no switch was connected to", same(one.guests(), set())


def connections(program):
    with rollout(program) as one, contextlib.closing(socket.socket()) as unheard:
        unheard.bind(("127.0.0.1", 0))
        yield "a switch that is there", same(why(one, None, "--connect"), (0, [FINE, FINE], ""))
        for name, address, said in (
            ("refuses", "127.0.0.1:%d" % unheard.getsockname()[1], "it can't be reached: Connection refused"),
            ("has an unknown name", "no-such-host.invalid:7000", "its host isn't known"),
        ):
            with open(one.fleet, "w", encoding="utf-8") as file:
                file.write(f"A {address}\n")
            yield f"a switch that {name}", same(why(one, None, "--connect"), (1, [FINE, said], "")) or same(why(one), (0, [FINE, FINE], ""))
    with rollout(program, planned(program, FULL_TABLES)) as one:
        with open(one.fleet, "w", encoding="utf-8"):
            pass
        status, told, notes = why(one)
        yield "each switch at which there is work", same((status, set(told[1:]), notes), (1, {"it has no line in the fleet file"}, "")) or same(len(told) - 1, homes(one))
        none = subprocess.run([WHY], input="{}", env=one.environment, capture_output=True, text=True, timeout=PATIENCE)
        yield "what is no document", same((none.returncode, none.stdout, "no document" in none.stderr), (1, "", True))


def homes(one):
    """How many switches a rollout asks for: its runs name them one by one as the fleet file comes to have their lines."""
    named, count = "", 0
    while True:
        status, _, note = one.run("run --rounds 1", one.having(SWANROLL_TIMEOUT="100"))
        if status != 9:
            return count
        name = note.partition('"')[2].rpartition('"')[0]
        named, count = named + f"{name} {one.switches[name].address}\n", count + 1
        with open(one.fleet, "w", encoding="utf-8") as file:
            file.write(named)


def outcomes(program):
    for rows in (journals, logs, fleets, connections):
        yield from rows(program)


if __name__ == "__main__":
    report("whys", "causes", outcomes(os.path.abspath(sys.argv[1])))
