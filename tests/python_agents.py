"""The library for agents in agents/python: worked cases of frames, memory, several controllers and the time that an answer waits; with a program, rollouts
over its example whose agents are killed; with a reference, drawn controllers, whose answers and what the device carries are compared with it.

    python3 tests/python_agents.py
    python3 tests/python_agents.py rollouts PROGRAM
    python3 tests/python_agents.py reference REFERENCE
"""

import contextlib
import fractions
import json
import os
import random
import socket
import struct
import subprocess
import sys
import tempfile
import threading
import time

from agents import connected, exchange, heard, held_port
from carried import Items
from named import read
from outcomes import report
from rolling import planned, same
from waiting import PATIENCE, by_first_that_fits, until

TOP = os.path.join(os.path.dirname(os.path.abspath(__file__)), "..")
sys.path += [os.path.join(TOP, "bench"), os.path.join(TOP, "agents", "python")]
from agent_streams import command  # noqa: E402
import swanroll_agent  # noqa: E402
import table_switch  # noqa: E402

CASES, SETTLES, LINGER = 400, (2.0, 20.0, 100.0), 0.3
TABLE_SWITCH = os.path.join(TOP, "agents", "python", "table_switch.py")


def fenced(term, *fields):
    return struct.pack(">BI", 0x46, term) + command(*fields)


def answer(migration, item, number, floor=None):
    return (b"" if floor is None else struct.pack(">BI", 0x46, floor)) + struct.pack(">BIII", 0x4E, migration, item, number)


class Device:
    """What is carried, and in which order it was set. Items may refuse."""

    def __init__(self):
        self.carried, self.order, self.refusing = {}, [], set()

    def __call__(self, item, rates, scale):
        if item in self.refusing:
            raise RuntimeError("the device refuses")
        self.carried[item] = (rates, scale)
        self.order.append(item)


@contextlib.contextmanager
def serving(folder, settle=0.0):
    """A server of the library in this process, with its device; quiet, since its lines on standard error are asked for by nobody here."""
    device = Device()
    with open(os.devnull, "w") as nowhere, contextlib.redirect_stderr(nowhere):
        server = swanroll_agent.Server("127.0.0.1:0", device, os.path.join(folder, "memory"), settle)
        server.device, server.ended = device, []
        running = threading.Thread(target=lambda: run(server))
        running.start()
        try:
            yield server
        finally:
            server.close()
            running.join(PATIENCE)


def run(server):
    try:
        server.run()
    except swanroll_agent.BadMemory as fault:
        server.ended.append(str(fault))


@contextlib.contextmanager
def fresh(settle=0.0):
    with tempfile.TemporaryDirectory() as folder, serving(folder, settle) as server:
        yield server


def guest_of(server):
    guest = socket.create_connection(server.listener.getsockname())
    guest.settimeout(PATIENCE)
    return guest


def asked(server, data):
    """What a controller is answered that sends these bytes and ends."""
    with guest_of(server) as guest:
        return exchange(random.Random(1), guest, data)


# Frames.

def frames():
    with fresh() as server:
        terms = [fenced(2, 0, 0, 0, 1, [0]), command(0, 0, 1, 1, [0]), fenced(2, 0, 0, 1, 1, [0]), fenced(1, 0, 0, 2, 1, [0])]
        wanted = answer(0, 0, 0, 2) + answer(0, 0, 0) + 2 * answer(0, 0, 1, 2)
        yield "terms rise, and a lower one changes nothing", same(asked(server, b"".join(terms)), wanted)
        for name, behind in (("another kind", b"D"), ("another kind after a term", b"\x46\0\0\0\1\x46"), ("no rate", command(0, 1, 2, 1, [], count=0)), ("17 rates", command(0, 1, 2, 1, [], count=17))):
            item = 100 + len(behind)
            told = asked(server, fenced(2, 0, item, 1, 1, [3]) + behind + bytes(1 << 20))
            yield f"{name}: what stands before is answered, whatever is sent after", same(told, answer(0, item, 1, 2))
        yield "a command that is cut off is dropped", same(asked(server, fenced(2, 0, 50, 1, 1, [3])[:-1]), b"")
        yield "which the device has not seen", same(50 in server.device.carried, False)


# Memory.

def memories():
    with tempfile.TemporaryDirectory() as folder:
        path = os.path.join(folder, "memory")
        with serving(folder) as server:
            asked(server, fenced(7, 3, 1, 2, 2, [9, 4]) + fenced(7, 3, 8, 1, 1, [1]))
            yield "a memory in use is refused", None if refusal(path).endswith("another agent has it") else refusal(path)
        with serving(folder) as server:
            yield "the device is set anew, entries first", same((server.device.order, server.device.carried[1]), ([8, 1], ([9, 4], 2)))
            told = asked(server, command(3, 1, 3, 2, [1, 1]) + fenced(7, 3, 1, 2, 2, [1, 1]))
            yield "pairs and the term are kept", same(told, answer(3, 1, 2) + answer(3, 1, 2, 7))
            asked(server, fenced(7, 3, 1, 3, 2, [5, 5]))
        with open(path, "rb") as file:
            whole = file.read()
        for cut in range(1, len(whole.split(b"\n")[-2]) + 1):
            with open(path, "wb") as file:
                file.write(whole[:-cut])
            with serving(folder) as server:
                yield f"{cut} bytes less of the last line", same(server.memory.held[1].number, 2)
        damaged = whole.replace(b"item 8", b"item 9")
        with open(path, "wb") as file:
            file.write(damaged)
        yield "a line that is damaged", None if refusal(path).endswith("line 3 is damaged") else refusal(path)
    yield from failing_memories()


def refusal(path):
    try:
        swanroll_agent.Memory(path).close()
    except swanroll_agent.BadMemory as fault:
        return str(fault)
    return "nothing is refused"


def failing_memories():
    """What the disk didn't take isn't answered, and ends the agent; a device that refuses is asked again."""
    with fresh() as server:
        server.memory.file.close()
        server.memory.file = open("/dev/full", "ab", buffering=0)
        yield "a disk that is full: no answer", same(asked(server, command(0, 1, 1, 1, [1])), b"")
        until(lambda: server.ended)
        yield "a disk that is full: the agent ends", None if "No space" in str(server.ended) else f"it says {server.ended}"
    with fresh() as server:
        server.device.refusing = {1}
        yield "a device that refuses: no answer", same(asked(server, command(0, 1, 1, 1, [1]) + command(0, 2, 1, 1, [1])), answer(0, 2, 1))
        server.device.refusing = set()
        yield "a device that refuses: it is asked again", same(asked(server, command(0, 1, 1, 1, [1])), answer(0, 1, 1))


# Several controllers, and the time that an answer waits.

def controllers():
    with fresh() as server, guest_of(server) as hanging:
        until(lambda: server.heard)
        came = dict(server.heard)
        hanging.sendall(command(0, 1, 1, 1, [1])[:5])
        until(lambda: dict(server.heard) != came)
        yield from beside_one_that_hangs(server, hanging)


def beside_one_that_hangs(server, hanging):
    """Behind the half command of one controller, which has said nothing since, there is one that reads a single answer, and then too many come."""
    with guest_of(server) as deaf:
        deaf.sendall(command(0, 2, 1, 1, [1]) * 1000)
        heard(deaf, 13)
        yield "one that hangs keeps no other out", same(asked(server, command(0, 3, 1, 1, [1])), answer(0, 3, 1))
        with contextlib.ExitStack() as others:
            for _ in range(swanroll_agent.MOST_GUESTS):
                guest = others.enter_context(guest_of(server))
                guest.sendall(command(0, 3, 2, 1, [1]))
                heard(guest, 13)
            yield "where too many are there the longest silent goes", same(hanging.recv(1), b"")
            yield "and the next one is served", same(asked(server, command(0, 3, 3, 1, [1])), answer(0, 3, 3))


def settling(_, seconds):
    """An answer waits for so many seconds from the effect on, to whomever it goes, and after a start from that on."""
    with tempfile.TemporaryDirectory() as folder:
        with serving(folder, lambda item: seconds if item < 5 else 0.0) as server, guest_of(server) as guest:
            begun = time.monotonic()
            guest.sendall(command(0, 7, 1, 1, [1]) + command(0, 1, 1, 1, [1]))
            told = heard(guest, 13), time.monotonic() - begun
            yield "an entry is answered at once", None if told[0] == answer(0, 7, 1) and told[1] < seconds else f"{told}"
            yield "a repeat by another", same(asked(server, command(0, 1, 1, 1, [1])), answer(0, 1, 1))
            yield "a repeat by another, the time", None if time.monotonic() - begun >= seconds else "it didn't wait"
            yield "the split's own answer", same(heard(guest, 13), answer(0, 1, 1))
        begun = time.monotonic()
        with serving(folder, seconds) as server:
            yield "after a start", same(asked(server, command(0, 1, 1, 1, [1])), answer(0, 1, 1))
            yield "after a start, the time", None if time.monotonic() - begun >= seconds else "it didn't wait"


# Rollouts over the example, a table in a file.

class Tables:
    """The example at each switch, in a process of its own behind an address."""

    def __init__(self, folder, document):
        self.folder, self.items, self.running = folder, Items(document), {}
        self.places = {switch["name"]: held_port() for switch in document["problem"]["switches"]}
        self.fleet = os.path.join(folder, "fleet")
        with open(self.fleet, "w", encoding="utf-8") as file:
            file.writelines(f"{name} 127.0.0.1:{place.getsockname()[1]}\n" for name, place in self.places.items())
        for name in self.places:
            self.start(name)

    def start(self, name):
        place = self.places[name]
        words = [sys.executable, "-B", TABLE_SWITCH, "127.0.0.1:%d" % place.getsockname()[1], self.path(name)]
        self.running[name] = subprocess.Popen(words, stdin=subprocess.DEVNULL)
        connected(place, self.running[name]).close()

    def path(self, name):
        return os.path.join(self.folder, str(list(self.places).index(name)))

    def kill(self, name):
        self.running[name].kill()
        self.running[name].wait()

    def misses(self):
        """The first item whose switch doesn't carry the new split, or None."""
        tables = {name: table_switch.read(os.path.join(self.path(name), "table")) for name in self.places}
        for item, home in enumerate(self.items.homes):
            scale = self.items.scale if item < len(self.items.flows) else 1
            wanted = " ".join([str(item), *(str(fractions.Fraction(rate, scale)) for rate in self.items.content(item, -1))]) + "\n"
            if self.items.changes[item] and tables[home].get(item) != wanted:
                return f"item {item} at {home}: {tables[home].get(item)!r} in place of {wanted!r}"
        return None

    def close(self):
        for name in self.running:
            self.kill(name)
        for place in self.places.values():
            place.close()


def rollouts(program):
    """Agents are killed and started again while a controller runs, which goes on to the end."""
    document = planned(program, json.loads(read("network/problem.json")))
    for seed in range(3):
        rng = random.Random(seed)
        with tempfile.TemporaryDirectory() as folder, contextlib.closing(Tables(folder, document)) as tables:
            environment = dict(os.environ, SWANROLL_JOURNAL=os.path.join(folder, "journal"), SWANROLL_FLEET=tables.fleet, SWANROLL_TIMEOUT="50")
            killed = rng.sample(sorted(tables.places), 3)
            for name in killed[:2]:
                tables.kill(name)
            started = subprocess.Popen([program, "run", "--rounds", "200000"], env=environment, stdin=subprocess.PIPE, stdout=subprocess.PIPE, stderr=subprocess.PIPE)
            started.stdin.write(json.dumps(document).encode())
            started.stdin.close()
            for name in killed:
                time.sleep(rng.uniform(0, LINGER))
                tables.kill(name)
                tables.start(name)
            started.stdin = None
            out, notes = started.communicate(timeout=PATIENCE)
            line = f"finished: operations {tables.items.operations}, found 0\n".encode()
            yield f"rollout {seed}", same((started.returncode, out, notes), (0, line, b""))
            yield f"rollout {seed}, the tables", tables.misses()


# Beside a reference.

def drawn(reference):
    """Drawn controllers one after the other, plain and with terms; before some of them the agent is started anew."""
    sys.dont_write_bytecode = True
    sys.path.insert(0, os.path.abspath(reference))
    import gen
    from oracle import agent, features

    for number in range(CASES):
        model, rng = agent.Agent(), random.Random(number)
        with tempfile.TemporaryDirectory() as folder, contextlib.ExitStack() as stack:
            server = stack.enter_context(serving(folder))
            for data in gen.make("agent", "library", number, features.EVERYTHING).guests:
                if rng.random() < 0.5:
                    stack.pop_all().close()
                    server = stack.enter_context(serving(folder))
                wanted = agent.serve(model, data, features.EVERYTHING)[0]
                yield f"drawn {number}", same(asked(server, data), wanted)
                carried = {item: rates for item, (rates, _) in server.device.carried.items()}
                yield f"drawn {number}, the device", None if carried == model.contents else f"it carries {carried} in place of {model.contents}"


def worked():
    for kind in (frames, memories, controllers):
        yield from kind()
    yield from by_first_that_fits(settling, None, SETTLES)


def main():
    kind, *words = sys.argv[1:] or ["worked"]
    if kind == "worked":
        report("python_agents", "cases", worked())
    else:
        report(f"python_agents, {kind}", "cases", {"rollouts": rollouts, "reference": drawn}[kind](words[0]))


if __name__ == "__main__":
    main()
