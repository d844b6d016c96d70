"""The command `run` over a network that loses, repeats, delays, reorders and cuts frames, with a controller that is killed at a hundred random
moments and started again until it ends well. The switches are the program's own agents, where it has the command `agent`, each behind a relay, or
the tests' own. After each change the links, tables and tunnels are judged from what the switches hold alone: nothing was ever unsafe. And one
controller at a time, the syncs of each batch, full disks, streams that are closed, and switches that are slow or can't be reached.

    python3 tests/network.py PROGRAM
"""

import contextlib
import os
import random
import resource
import signal
import socket
import subprocess
import sys
import tempfile
import threading
import time

from agents import connected, held_port
from carried import Carried, Items, backwards
from journal_files import BEGIN, entries_in, text_of
from named import EXCHANGE, ONE, TWO
from outcomes import report
from rolling import finished, planned, rollout, same, stopped
from rollouts import ROLLED
from switches import ANSWER_BYTES, Switch, plain, silent, write_fleet
from waiting import LIMITS, PATIENCE, by_first_that_fits

sys.path.insert(0, os.path.join(os.path.dirname(os.path.abspath(__file__)), "..", "bench"))
from agent_streams import command as command_bytes  # noqa: E402

# The networks: how many switches and flows, how many kills, and whether the switches are the program's agents, where it has them.
NETWORKS = [("six agents", 6, 4, 25, True), ("fourteen switches", 14, 12, 35, False), ("forty agents", 40, 24, 40, True)]
LIMIT, MOST_GUESTS, MOST_ROUNDS = "10", "1000000", "200000"
SLACKS = (20, 60, 200)  # seconds
FATES = {"plain": 50, "lost": 5, "mute": 5, "twice": 8, "late": 6, "slow": 6, "again": 10, "pieces": 10}
NO_JOURNALS = (None, b"", b"\0", b"\x99", bytes(40))
FAULT = stopped(8, "journal device fault")


def ring(rng, switches, flows):
    """Flows over a ring in which each switch has a link to the next one and one to the one behind that; a fourth of each link stays free in both splits."""
    names = [f"s{number}" for number in range(switches)]
    made = []
    for number in range(flows):
        at, distance = rng.randrange(switches), rng.randint(1, min(4, (switches - 1) // 2))
        rates = [[rng.choice((None, rng.randint(0, 900), rng.randint(0, 900))) for _ in range(2)] for _ in range(2)]
        paths = [[names[(at + way * step) % switches] for step in range(2 * distance // way + 1)] for way in (1, 2)]
        made.append({"name": f"f{number}", "tunnels": [{"path": path, "old": old, "new": new} for path, (old, new) in zip(paths, rates)]})
    tunnels = [tunnel for flow in made for tunnel in flow["tunnels"]]

    def load(a, b, side):
        return sum(tunnel[side] or 0 for tunnel in tunnels if (a, b) in zip(tunnel["path"], tunnel["path"][1:]))

    ends = [(names[at], names[(at + way) % switches]) for at in range(switches) for way in (1, 2)]
    return {
        "switches": [{"name": name, "table": sum(name in tunnel["path"] for tunnel in tunnels)} for name in names],
        "links": [{"from": a, "to": b, "capacity": -(-4 * max(load(a, b, "old"), load(a, b, "new")) // 3)} for a, b in ends], "flows": made,
    }


class Relay(Switch):
    """A switch of which the program's own agent holds the state: what it carries out goes to the agent, whose answer has to be that of the agent rule.
    Each controller that connects is another guest of the agent."""

    def __init__(self, program, *given, **named):
        self.place, self.way = held_port(), None
        environment = dict(os.environ, SWANROLL_LISTEN="127.0.0.1:%d" % self.place.getsockname()[1])
        nothing = {stream: subprocess.DEVNULL for stream in ("stdin", "stdout", "stderr")}
        self.agent = subprocess.Popen([program, "agent", "--guests", MOST_GUESTS], env=environment, **nothing)
        super().__init__(*given, **named)

    def come(self):
        if self.way:
            self.way.close()
        self.way = connected(self.place, self.agent)

    def ready(self):
        """Waits until the agent listens."""
        self.come()

    def carry_out(self, command):
        with self.lock:
            due, told = super().carry_out(command), b""
            self.way.sendall(command_bytes(*command[:4], list(command.rates)))
            while len(told) < ANSWER_BYTES and (more := self.way.recv(ANSWER_BYTES - len(told))):
                told += more
            if told != due:
                self.wrong.append(f"{self.name}: the agent answers {told.hex()} in place of {due.hex()}")
            return due

    def close(self):
        super().close()
        self.agent.kill()
        self.agent.wait()
        self.place.close()


def later(delay, call):
    """Does something in a while, and nothing where the network is gone by then."""

    def due():
        with contextlib.suppress(OSError):
            call()

    timer = threading.Timer(delay, due)
    timer.daemon = True
    timer.start()


class Field:
    """All switches of a network, through the migrations of a document there and back, and what becomes of each frame."""

    def __init__(self, folder, document, rng, make):
        self.rng, self.lock, self.calm, self.wrong, self.folder = rng, threading.RLock(), False, [], folder
        self.left, self.reached, self.cut_at, self.sent = 0, threading.Event(), 0, []
        self.journal, self.found, self.begun = None, [], set()
        self.turn(document, 0)
        self.carried = Carried(self.items)
        self.switches = {switch["name"]: make(switch["name"], self.fate, self.lock, self.seen, self.changed) for switch in document["problem"]["switches"]}
        for switch in self.switches.values():
            switch.ready()
        write_fleet(os.path.join(folder, "fleet"), self.switches.values())

    def turn(self, document, migration):
        """Another migration, with a journal of its own."""
        self.document, self.migration, self.items, self.found, self.begun = document, migration, Items(document), [], set()
        self.journal = os.path.join(self.folder, f"journal-{migration}")
        image = self.rng.choice(NO_JOURNALS)
        if image is not None:
            with open(self.journal, "wb") as file:
                file.write(image)
        with open(os.path.join(self.folder, "document"), "w") as file:
            file.write(text_of(document))

    def entries(self):
        if not os.path.exists(self.journal):
            return []
        with open(self.journal, "rb") as file:
            return entries_in(file.read())

    def is_begun(self, item, number):
        """Whether the journal has an operation as begun. What it had before it keeps, which is looked at behind each start: so a repeat costs nothing."""
        if (item, number) not in self.begun:
            self.begun = {(item, number) for kind, item, number in self.entries() if kind == BEGIN}
        return (item, number) in self.begun

    # What the switches tell.

    def seen(self, switch, command):
        """A command that came: it is one of the plan, at its item's home, and the journal has it as begun."""
        items, (migration, item, number, scale, rates) = self.items, command
        self.sent.append((switch, command))
        if migration != self.migration or not items.has(item, number) or items.homes[item] != switch.name:
            self.wrong.append(f"{command} came to {switch.name} in migration {self.migration}")
        elif (scale, rates) != (items.scale, items.brings(item, number)):
            self.wrong.append(f"{command} brings {items.brings(item, number)}")
        elif not self.is_begun(item, number):
            self.wrong.append(f"{command} came before the journal had it")
        self.left -= 1
        if self.left == 0:
            self.reached.set()

    def changed(self, switch, command):
        self.carried.change(command)
        unsafe = self.carried.unsafe()
        if unsafe:
            self.wrong.append(f"behind {command} at {switch.name}: {unsafe}")

    # What becomes of a frame.

    def fate(self, switch, guest, command):
        """Seldom the connection is cut, before the command or within its answer, so that most starts get on."""
        with self.lock:
            self.cut_at -= 1
            kind = self.rng.choice(("cut", "torn")) if self.cut_at == 0 else self.rng.choices(list(FATES), FATES.values())[0]
            kind = "plain" if self.calm else kind
            soon, late = self.rng.uniform(0.001, 0.05), self.rng.expovariate(2)
        if kind == "lost":
            return
        if kind == "cut":
            return switch.tell(guest, b"", ends=True)
        if kind == "slow":
            return later(soon, lambda: switch.say(switch.carry_out(command)))
        data = switch.carry_out(command)
        if kind == "again":
            later(late, lambda: switch.say(switch.carry_out(command)))
        if kind == "late":
            later(soon, lambda: switch.say(data))
        elif kind == "twice":
            switch.tell(guest, data + switch.carry_out(command))
        elif kind == "torn":
            switch.tell(guest, data[:7], ends=True)
        elif kind != "mute":
            switch.tell(guest, data, 0.001 if kind == "pieces" else None)

    # One start, and what is left behind it.

    def call(self, program, *words):
        environment = dict(os.environ, SWANROLL_JOURNAL=self.journal, SWANROLL_FLEET=os.path.join(self.folder, "fleet"), SWANROLL_TIMEOUT=LIMIT)
        with open(os.path.join(self.folder, "document")) as text:
            words = [program, *words, "--migration", str(self.migration)]
            return subprocess.Popen(words, env=environment, stdin=text, stdout=subprocess.PIPE, stderr=subprocess.PIPE, text=True)

    def start(self, program):
        self.reached.clear()
        self.cut_at = self.rng.choice((0, 0, 1 + int(self.rng.expovariate(1 / len(self.switches)))))
        return self.call(program, "run", "--rounds", MOST_ROUNDS, "--policy", self.rng.choice(("critical", "order")), "--workers", self.rng.choice(("1", "2", "5", "16")))

    def killed(self, started):
        """Kills what was started at a random moment: early, at a command, or a while behind the first command; whether it hadn't ended by itself."""
        how = self.rng.choice(("early", "command", "later", "later"))
        if how != "early":
            self.left = 1 + int(self.rng.expovariate(1 / len(self.switches))) if how == "command" else 1
            end = time.monotonic() + PATIENCE
            while not self.reached.wait(0.005) and started.poll() is None and time.monotonic() < end:
                pass
        if how != "command":
            with contextlib.suppress(subprocess.TimeoutExpired):
                started.wait(self.rng.expovariate(100 / len(self.switches)))
        started.kill()
        started.wait()
        return started.returncode == -signal.SIGKILL

    def ended(self, started):
        """What was wrong with an end, or None. The journal goes on, and of each item its switch holds a number from what is settled to what is begun."""
        out, notes = started.communicate(timeout=PATIENCE)
        for switch in self.switches.values():
            switch.settle()
        with self.lock:
            before, self.found = self.found, self.entries()
        if self.found[:len(before)] != before:
            return f"the journal has {self.found} in place of {before} and more"
        return self.wrong_end(started.returncode, out, notes, before) or self.wrong_pairs() or self.wrong_frames()

    def wrong_end(self, status, out, notes, before):
        line = f"finished: operations {self.items.operations}, found {len(before)}\n"
        if status == 0:
            return same((out, notes, len(self.found)), (line, "", 2 * self.items.operations))
        if status == -signal.SIGKILL:  # it may have said how it ends by then
            return None if out in ("", line) and notes == "" else f"killed, and it says {out!r} {notes!r}"
        return f"status {status}, {out!r}, {notes!r}"

    def wrong_pairs(self):
        settled, begun = [0] * self.items.count, [0] * self.items.count
        for kind, item, number in self.found:
            (begun if kind == BEGIN else settled)[item] = number
        for item, home in enumerate(self.items.homes):
            migration, number = self.switches[home].held.get(item, (0, 0))
            held = number if migration == self.migration else 0
            if not settled[item] <= held <= begun[item]:
                return f"item {item} holds {held}, with {settled[item]} settled and {begun[item]} begun"
        return None

    def wrong_report(self, program):
        """What is wrong with the report behind a rollout that is finished, or None."""
        asked = self.call(program, "report")
        out, notes = asked.communicate(timeout=PATIENCE)
        count, lines = self.items.operations, out.split("\n")
        first = f"entries {2 * count}, settled {count} of {count}, flying 0"
        return same((asked.returncode, lines[0], lines[-2:], notes), (0, first, ["finished", ""], ""))

    def wrong_frames(self):
        """The first that was wrong with a command, or with what it led to."""
        return next(iter(self.wrong + [wrong for switch in self.switches.values() for wrong in switch.wrong]), None)

    def wrong_target(self):
        """Behind a rollout that is finished each item carries the target, also when all commands ever sent come again."""
        for switch, command in self.rng.sample(self.sent, len(self.sent)):
            switch.carry_out(command)
        missed = (f"item {item} carries {self.carried.now[item]}" for item in range(self.items.count) if not self.carried.is_target(self.items, item))
        return next(missed, None) or self.wrong_frames()

    def close(self):
        for switch in self.switches.values():
            switch.close()


def has_agents(program):
    environment = {key: value for key, value in os.environ.items() if key != "SWANROLL_LISTEN"}
    done = subprocess.run([program, "agent"], env=environment, stdin=subprocess.DEVNULL, capture_output=True, text=True)
    return (done.returncode, done.stdout, done.stderr) == (9, "", "guest fault\n")


def killed_over_and_over(program):
    """Migrations there and back, each started over and over: killed until enough were, and then left to end."""
    agents = has_agents(program)
    for name, switches, flows, kills, by_agents in NETWORKS:
        rng = random.Random(switches)
        document = planned(program, ring(rng, switches, flows))

        def make(*given):
            return Relay(program, *given) if by_agents and agents else Switch(*given)

        with tempfile.TemporaryDirectory() as folder, contextlib.closing(Field(folder, document, rng, make)) as field:
            yield from migrated(program, name, field, kills)


def migrated(program, name, field, kills):
    starts = made = migration = 0
    while made < kills or starts == 0:
        wrong, status = None, None
        while wrong is None and status != 0:
            started, starts = field.start(program), starts + 1
            field.calm = made >= kills and starts % 4 == 0
            if made < kills:
                made += field.killed(started)
            wrong, status = field.ended(started), started.returncode
            yield f"{name}, migration {migration}, start {starts} with {made} kills", wrong
        if wrong:
            return
        yield f"{name}, migration {migration}, the target", field.wrong_target() or field.wrong_report(program)
        migration += 1
        field.turn(backwards(field.document), migration)


# One controller at a time.

def one_at_a_time(program):
    """While a controller runs, another one, and a report, find the journal held; they touch nothing. Behind it the next one goes on."""
    came = threading.Semaphore(0)
    with rollout(program, TWO, None, lambda switch, guest, command: came.release()) as one:
        first = one.fed(environment=one.having(SWANROLL_TIMEOUT="9999999"))
        yield "the first sends", None if all(came.acquire(timeout=PATIENCE) for _ in "AB") else "a command didn't come"
        image = one.image()
        found = [one.ended(one.start(words)) for words in ("run", "run --migration 1", "report")]
        yield "the others", same(found, [FAULT] * 3)
        yield "the others touch nothing", same((one.image(), sum(len(switch.guests) for switch in one.switches.values())), (image, 2))
        first.kill()
        first.communicate()
        for switch in one.switches.values():
            switch.fate = plain
        yield "the next one", same(one.run(), finished(2, 2)) or one.misses()


# Syncs.

def batches(program):
    """Each batch is two syncs, and a command of it comes behind them: at the first the batch lies behind a closed gate, and at the second the gate
    alone is another byte."""
    from syncs import SYNCS, Calls

    value = planned(program, EXCHANGE)
    seen, items, lock = [], Items(value), threading.RLock()

    def fate(switch, guest, command):
        with lock:
            seen.append((command.item, command.number))
        guest.sendall(switch.carry_out(command))

    with rollout(program, value, None, fate) as one:

        def looked(name, process):
            with lock:
                seen.append(one.image())

        syncs = Calls(one.journal, SYNCS, looked)
        started = one.start(preexec_fn=syncs.in_child)
        if not syncs.attach():
            one.ended(started)
            yield "syncs can't be seen on this machine", None
            return
        yield "a rollout of which the syncs are seen", same(one.ended(started), finished(items.operations, 0))
        syncs.close()
    commands = [what for what in seen if isinstance(what, tuple)]
    yield "each operation has a command", same(len(set(commands)), items.operations)
    for command in sorted(set(commands)):
        yield f"operation {command[1]} of item {command[0]}", unsynced([what for what in seen[:seen.index(command)] if isinstance(what, bytes)], (BEGIN, *command))
    images = [what for what in seen if isinstance(what, bytes)]
    made = sum(entries_in(before) != entries_in(after) for before, after in zip(images, images[1:]))
    yield "no sync is left out", None if len(images) >= 2 * made > 0 else f"{len(images)} syncs, {made} batches"


def unsynced(images, entry):
    """What is wrong with the images at the syncs before the command of an operation that is begun by an entry, or None."""
    at = next((at for at, image in enumerate(images) if entry in entries_in(image)), 0)
    if not at:
        return f"there was no sync with it, of {len(images)}"
    before, now = images[at - 1], images[at]
    changed = [(old, new) for old, new in zip(before, now) if old != new]
    return same((len(before), changed), (len(now), [(0, 0x47)]))


# Disks and streams.

def full_disks(program):
    """A file that may have so many bytes and no more: the rollout ends with the disk's fault, or as it should, and the next one goes on."""
    for name, image, room in (("nothing", None, len(ROLLED)), ("a rollout that is over", ROLLED, 2 * len(ROLLED))):
        with rollout(program, ONE) as one:
            for limit in range(0, room + 6, 3):
                if os.path.exists(one.journal):
                    os.remove(one.journal)
                one.put(image)
                one.switches["A"].held.clear()

                def small(limit=limit):
                    resource.setrlimit(resource.RLIMIT_FSIZE, (limit, limit))

                end = one.run(preexec_fn=small, restore_signals=False)
                kept = entries_in(one.image() or b"")
                right = end in (FAULT, finished(1, 2 if image else 0)) and (end == FAULT or len(kept) == 2)
                yield f"{limit} bytes, from {name}", None if right else f"{end}, and the journal has {kept}"
                yield f"{limit} bytes, from {name}, again", same(one.run(), finished(1, len(kept))) or (None if image else one.misses())


def closed_streams(program):
    """What is meant for a stream that isn't there doesn't come into the journal."""
    for closed in ((1,), (2,), (1, 2)):
        with rollout(program, ONE) as one:

            def close(closed=closed):
                for stream in closed:
                    os.close(stream)

            status, out, _ = one.run(preexec_fn=close)
            allowed = [(0, ""), (7, "")] if 1 in closed else [finished(1, 0)[:2]]
            yield f"without the streams {closed}", None if (status, out) in allowed else f"status {status}, {out!r}"
            yield f"without the streams {closed}, the journal", same(one.image(), ROLLED) or one.misses()
            yield f"without the streams {closed}, again", same(one.run(), finished(1, 2))
    with rollout(program, ONE) as one:
        status, out, _ = one.run(preexec_fn=lambda: os.closerange(0, 3))
        yield "without any stream", None if status in (3, 6) and one.image() is None and not one.guests() else f"status {status}, the journal has {one.image()}"


# Switches that are slow or can't be reached.

def slow_switches(program):
    """Commands go out to all before one is answered, and an answer comes byte by byte: one round is enough."""
    together = threading.Barrier(2)

    def meets(switch, guest, command):
        """Answers once both switches have a command."""
        together.wait(PATIENCE)
        guest.sendall(switch.carry_out(command))

    def dribbles(switch, guest, command):
        switch.tell(guest, switch.carry_out(command), 0.02)

    with rollout(program, TWO, None, meets) as one:
        yield "commands go out to all before one is heard", same(one.run("run --rounds 1 --workers 1"), finished(2, 0)) or one.misses()
    with rollout(program, ONE, None, dribbles) as one:
        yield "an answer byte by byte", same(one.run("run --rounds 1"), finished(1, 0)) or one.misses()


def over_two_rounds(program, limit):
    def breaks(switch, guest, command):
        """The answer is cut at the end of a round, and goes on in the next one."""
        if len(switch.commands) == 1:
            return guest.sendall(switch.carry_out(command)[:7])
        guest.sendall((switch.carry_out(command)[7:] if len(switch.commands) == 2 else b"") + switch.carry_out(command))

    with rollout(program, TWO, None, {"A": breaks}) as one:
        yield "an answer over two rounds", same(one.run("run --rounds 2 --workers 1", one.having(SWANROLL_TIMEOUT=limit)), finished(2, 0)) or one.misses()


def time_limits(program, slack):
    """How long a switch that never answers is waited for, in milliseconds of 1 to 7 digits above 0, and else a second; so many seconds more are no fault."""
    for word, rounds, least in (("100", 3, 0.3), ("0000100", 2, 0.2), ("00000100", 1, 1.0), ("0", 1, 1.0), ("1s", 1, 1.0), ("", 1, 1.0), (None, 1, 1.0)):
        with rollout(program, ONE, None, silent) as one:
            environment = one.without("SWANROLL_TIMEOUT") if word is None else one.having(SWANROLL_TIMEOUT=word)
            begun = time.monotonic()
            end = one.run(f"run --rounds {rounds}", environment)
            took = time.monotonic() - begun
            yield f"a limit of {word!r}", same(end, stopped(5, f"rounds spent: rounds {rounds}, item 0 operation 1"))
            yield f"a limit of {word!r}, the time", None if least <= took < least + slack else f"{took:.2f} s"
    with rollout(program, ONE) as one, socket.socket() as full:
        full.bind(("127.0.0.1", 0))
        full.listen(0)
        with contextlib.ExitStack() as waiting:
            for _ in range(4):  # nobody takes these, so that there is no room for another one
                guest = waiting.enter_context(socket.socket())
                guest.setblocking(False)
                guest.connect_ex(full.getsockname())
            with open(one.fleet, "w") as file:
                file.write("A 127.0.0.1:%d\n" % full.getsockname()[1])
            begun = time.monotonic()
            end = one.run("run --rounds 2", one.having(SWANROLL_TIMEOUT="300"))
            yield "an address that never takes a connection", same(end, stopped(5, "rounds spent: rounds 2, item 0 operation 1"))
            yield "an address that never takes a connection, the time", None if 0.55 <= time.monotonic() - begun < slack else "another time than two limits"


def outcomes(program):
    for kind in (one_at_a_time, batches, full_disks, closed_streams, slow_switches, killed_over_and_over):
        yield from kind(program)
    yield from by_first_that_fits(over_two_rounds, program, LIMITS)
    yield from by_first_that_fits(time_limits, program, SLACKS)


if __name__ == "__main__":
    report("network", "cases", outcomes(os.path.abspath(sys.argv[1])))
