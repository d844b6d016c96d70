"""Connections that are cut, refused or late: a run goes on over another one, and ends with 5 where a switch never comes back.

    python3 tests/redials.py PROGRAM
"""

import contextlib
import os
import socket
import struct
import subprocess
import sys
import threading
import time

from agents import held_port
from journal_files import count_of
from named import ONE, TWO
from outcomes import report
from rolling import finished, planned, rollout, same, stopped
from switches import ANSWER_BYTES, Switch, plain, silent, write_fleet
from waiting import LIMITS, PATIENCE, by_first_that_fits, until

LIMIT, LATE_LIMITS = 100, ("300", "3000", "15000")
LONG = "run --rounds 200000"  # what comes late on a slow machine comes in time
COMMAND_BYTES = 18 + 8 * 2


def reset(guest):
    """Ends a connection by a reset."""
    guest.setsockopt(socket.SOL_SOCKET, socket.SO_LINGER, struct.pack("ii", 1, 0))
    guest.close()


def shut(guest):
    guest.shutdown(socket.SHUT_RDWR)


def half_shut(guest):
    """Says no more, and reads on."""
    guest.shutdown(socket.SHUT_WR)


ENDS = (("shut", shut), ("reset", reset), ("half shut", half_shut))


def quick(one, limit=LIMIT):
    return one.having(SWANROLL_TIMEOUT=str(limit))


def once(first):
    """A fate: the first command meets this one, and each later one is answered."""
    def fate(switch, guest, command):
        return (first if len(switch.commands) == 1 else plain)(switch, guest, command)

    return fate


def ends_within(count, end):
    """A fate: the command comes, so many bytes of its answer go back, and the connection ends."""
    def fate(switch, guest, command):
        guest.sendall(switch.carry_out(command)[:count])
        end(guest)

    return fate


def cut_answers(program):
    """The connection ends at each byte of an answer: the front that came is dropped, and the next connection's answer is read from its first byte."""
    for name, end in ENDS:
        for count in range(ANSWER_BYTES + 1):
            with rollout(program, ONE, None, once(ends_within(count, end))) as one:
                yield f"{name} at byte {count} of an answer", same(one.run(environment=quick(one)), finished(1, 0)) or one.misses()
    for count in range(1, ANSWER_BYTES):
        with rollout(program, ONE, None, ends_within(count, shut)) as one:
            yield f"always cut at byte {count}", same(one.run("run --rounds 3", quick(one)), stopped(5, "rounds spent: rounds 3, item 0 operation 1"))
    with rollout(program, TWO, None, {"B": once(ends_within(ANSWER_BYTES - 1, shut))}) as one:
        yield "one of two", same(one.run("run --workers 1", quick(one)), finished(2, 0)) or one.misses()


class Cutting(Switch):
    """Reads so many bytes of its first connections, one after the other, and ends them."""

    def __init__(self, name, counts, end):
        self.counts, self.end, self.begun = list(counts), end, 0
        super().__init__(name)

    def serve(self, guest):
        with self.lock:
            self.begun += 1
            count = self.counts.pop(0) if self.counts else None
        if count is None:
            return super().serve(guest)
        with contextlib.suppress(OSError):
            while count and (piece := guest.recv(count)):
                count -= len(piece)
            self.end(guest)
            while self.end is half_shut and guest.recv(1 << 16):
                pass
        guest.close()


def in_place(one, name, switch):
    """This switch stands behind the name from now on."""
    one.switches[name].close()
    one.switches[name] = switch
    write_fleet(one.fleet, one.switches.values())


def cut_commands(program):
    """The connection ends at each byte of a command, and before the first: the next connection begins with a whole one."""
    for name, end in ENDS:
        for count in range(0, COMMAND_BYTES + 1, 1 if end is shut else 5):
            with rollout(program) as one:
                in_place(one, "A", Cutting("A", [count], end))
                yield f"{name} at byte {count} of a command", same(one.run(environment=quick(one)), finished(1, 0)) or one.misses()


def closed_at_once(program, limit):
    """A connection that is closed at once is followed by another one, once in each limit."""
    with rollout(program) as one:
        in_place(one, "A", Cutting("A", [0] * 8, shut))
        begun = time.monotonic()
        yield "closed at once, eight times", same(one.run(environment=quick(one, limit)), finished(1, 0)) or one.misses()
        took = time.monotonic() - begun
        is_right = took > 7 * int(limit) / 1000 * 0.9 and one.switches["A"].begun == 9
        yield "closed at once, once in each limit", None if is_right else f"{took:.2f} s, {one.switches['A'].begun} connections"


class Later:
    """A place at which nobody listens yet."""

    def __init__(self):
        self.holder = held_port()
        self.address = "127.0.0.1:%d" % self.holder.getsockname()[1]
        self.agent = None

    def start(self, program):
        """Starts an agent there."""
        self.agent = subprocess.Popen([program, "agent", "--guests", "100"], env=dict(os.environ, SWANROLL_LISTEN=self.address),
                                      stdin=subprocess.DEVNULL, stdout=subprocess.DEVNULL, stderr=subprocess.DEVNULL)

    def close(self):
        self.holder.close()
        if self.agent:
            self.agent.kill()
            self.agent.wait()


def put(one, lines):
    with open(one.fleet, "w") as file:
        file.write("".join(line + "\n" for line in lines))


def away(program):
    """Switches that aren't there at the start: they come, come elsewhere, or never do."""
    with rollout(program) as one, contextlib.closing(Later()) as later:
        put(one, [f"A {later.address}"])
        begun = time.monotonic()
        yield "refused for ever", same(one.run("run --rounds 5", quick(one)), stopped(5, "rounds spent: rounds 5, item 0 operation 1"))
        took = time.monotonic() - begun
        yield "refused for ever, the time", None if 0.4 < took < PATIENCE / 2 else f"{took:.2f} s"
    with rollout(program) as one, contextlib.closing(Later()) as later:
        put(one, [f"A {later.address}"])
        waiting = threading.Timer(2, later.start, (program,))
        waiting.start()
        begun = time.monotonic()
        yield "an agent that comes after two seconds", same(one.run(LONG, quick(one)), finished(1, 0))
        took = time.monotonic() - begun
        yield "an agent that comes, the time", None if 1.9 < took < PATIENCE / 2 else f"{took:.2f} s"
    with rollout(program) as one, contextlib.closing(Later()) as later:
        put(one, [f"A {later.address}"])
        move = threading.Timer(1, lambda: put(one, [f"A {one.switches['A'].address}"]))
        move.start()
        yield "an agent on another address", same(one.run(LONG, quick(one)), finished(1, 0)) or one.misses()
    with rollout(program) as one, contextlib.closing(Later()) as later:
        put(one, [f"A {later.address}"])
        started = one.fed(LONG, quick(one))
        until(lambda: count_of(one.image()))  # it has read the file, and begun
        os.remove(one.fleet)
        time.sleep(0.5)
        write_fleet(one.fleet, one.switches.values())
        yield "a fleet file that is away for a while", same(one.ended(started), finished(1, 0)) or one.misses()
    with rollout(program, TWO) as one, contextlib.closing(Later()) as later:
        put(one, [f"A {later.address}", f"B {one.switches['B'].address}"])
        yield "one of two never comes", same(one.run("run --rounds 5 --workers 1", quick(one)), stopped(5, "rounds spent: rounds 5, item 0 operation 1"))
        yield "one of two never comes, the other", same(one.switches["B"].held, {1: (0, 1)})
        write_fleet(one.fleet, one.switches.values())
        end = one.run(environment=quick(one))
        yield "it comes in the next run", (None if end[0] == 0 else repr(end)) or one.misses()


def together(program, limit):
    """Silent switches, and such as take no connection, cost a round one limit, and not one each."""
    count, seconds = 12, int(limit) / 1000
    value = {"switches": [{"name": f"s{n}", "table": 9} for n in range(count)],
             "links": [{"from": f"s{n}", "to": f"s{(n + w) % count}", "capacity": 10} for n in range(count) for w in (1, 2)]
             + [{"from": f"s{(n + 2) % count}", "to": f"s{(n + 1) % count}", "capacity": 10} for n in range(count)],
             "flows": [{"name": f"f{n}", "tunnels": [{"path": [f"s{n}", f"s{(n + 1) % count}"], "old": 2, "new": 1},
                                                     {"path": [f"s{n}", f"s{(n + 2) % count}", f"s{(n + 1) % count}"], "old": 0, "new": 1}]} for n in range(count)]}
    with rollout(program, planned(program, value), None, silent) as one:
        begun = time.monotonic()
        end = one.run("run --workers 1 --rounds 2", quick(one, limit))
        took = time.monotonic() - begun
        yield "silent switches", None if end[0] == 5 else repr(end)
        yield "silent switches, the time", None if 2 * seconds <= took < 5 * seconds else f"{took:.2f} s"
    with rollout(program, planned(program, value)) as one, socket.socket() as full, contextlib.ExitStack() as waiting:
        full.bind(("127.0.0.1", 0))
        full.listen(0)
        for _ in range(4):  # nobody takes these, so that there is no room for another one
            guest = waiting.enter_context(socket.socket())
            guest.setblocking(False)
            guest.connect_ex(full.getsockname())
        put(one, [f"s{n} 127.0.0.1:{full.getsockname()[1]}" for n in range(count)])
        begun = time.monotonic()
        end = one.run("run --workers 1 --rounds 2", quick(one, limit))
        took = time.monotonic() - begun
        yield "switches that take no connection", None if end[0] == 5 else repr(end)
        yield "switches that take no connection, the time", None if took < 6 * seconds else f"{took:.2f} s"


def fleets(program):
    """Files that are no fleet: refused at once, with 9."""
    with rollout(program) as one:
        line = f"A {one.switches['A'].address}\n"
        fault = stopped(9, 'port fault at "A"')
        folder = os.path.dirname(one.fleet)
        os.mkfifo(os.path.join(folder, "pipe"))
        for path in (folder, os.path.join(folder, "pipe"), "/dev/zero", "/dev/null"):
            begun = time.monotonic()
            yield f"a fleet that is {path}", same(one.run(environment=one.having(SWANROLL_FLEET=path)), fault)
            yield f"a fleet that is {path}, the time", None if time.monotonic() - begun < PATIENCE / 2 else "too long"
        for name, text in (("too long", line + "B " + "x" * (1 << 20) + "\n"), ("port 0", "A 127.0.0.1:0\n"), ("a number that is none", "A 10.0.0.256:7000\n"), ("no host", "A :7000\n"), ("two colons", "A x:y:7000\n")):
            put(one, [text[:-1]])
            yield f"a fleet that is {name}", same(one.run(environment=quick(one)), fault)
        put(one, [(line + "B ")[:-1] + " " + "x" * ((1 << 20) - len(line) - 3)])
        yield "a fleet as long as it may be", same(one.run(environment=quick(one)), finished(1, 0))
        put(one, [f"A localhost:{one.switches['A'].address.split(':')[1]}"])
        end = one.run(environment=quick(one))
        yield "a host's name", None if end[0] == 0 else repr(end)


def outcomes(program):
    for kind in (cut_answers, cut_commands, away, fleets):
        yield from kind(program)
    yield from by_first_that_fits(closed_at_once, program, LIMITS)
    yield from by_first_that_fits(together, program, LATE_LIMITS)


if __name__ == "__main__":
    report("redials", "cases", outcomes(os.path.abspath(sys.argv[1])))
