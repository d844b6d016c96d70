"""The command `agent` over loopback with several controllers connected at once: each is answered while the others are there, by what is held then, whoever
brought it about; a floor that one of them has raised; halves of commands that come by turns; sixty-five of them, of which the one that has said nothing for longest is sent away; one whose process
stands still and one that reads no answers, which keep nobody out; one that is cut off behind the last guest that was asked for;
all of it with a file and without, and what is held behind a kill; and a rollout over agents to which other controllers are connected.

    python3 tests/seats.py PROGRAM
"""

import contextlib
import json
import os
import random
import signal
import socket
import subprocess
import sys
import tempfile
import threading
import time

from agents import FENCED, connected, ended, heard, held_port, with_term
from named import ONE, TWO
from rolling import finished
from switches import ANSWER_BYTES, answer
from waiting import PATIENCE, watched

sys.path.insert(0, os.path.join(os.path.dirname(os.path.abspath(__file__)), "..", "bench"))
from agent_streams import command, is_next  # noqa: E402

SEATS, TURNS = 64, 400
# Half a command, and then nothing, from a process of its own: it is stopped, so that its end of the connection stays open and says nothing.
STANDS_STILL = "import os, signal, socket, sys; s = socket.create_connection(('127.0.0.1', int(sys.argv[1]))); s.sendall(bytes.fromhex(sys.argv[2])); print(flush=True); os.kill(os.getpid(), signal.SIGSTOP)"


@contextlib.contextmanager
def started(program, guests, state=None, limit=None):
    """A place, and the agent that listens there."""
    with held_port() as held:
        environment = {key: value for key, value in os.environ.items() if key not in ("SWANROLL_STATE", "SWANROLL_TIMEOUT")}
        environment["SWANROLL_LISTEN"] = "127.0.0.1:%d" % held.getsockname()[1]
        if state is not None:
            environment["SWANROLL_STATE"] = state
        if limit is not None:
            environment["SWANROLL_TIMEOUT"] = str(limit)
        agent = subprocess.Popen(
            [program, "agent", "--guests", str(guests)], env=environment, stdin=subprocess.DEVNULL, stdout=subprocess.PIPE, stderr=subprocess.PIPE)
        try:
            yield held, agent
        finally:
            agent.kill()
            agent.wait()


class Guest:
    """A controller that is connected."""

    def __init__(self, held, agent, room=None):
        self.stream = connected(held, agent, room)
        self.stream.setsockopt(socket.IPPROTO_TCP, socket.TCP_NODELAY, 1)

    def say(self, data):
        self.stream.sendall(data)

    def hear(self, length=ANSWER_BYTES):
        """One answer; less of it where the connection has ended."""
        return heard(self.stream, length)

    def ask(self, migration, item, number, rates=(6,)):
        self.say(command(migration, item, number, 1, list(rates)))
        return self.hear()

    def ask_in_term(self, term, migration, item, number, rates=(6,)):
        self.say(with_term(term, command(migration, item, number, 1, list(rates))))
        return self.hear(ANSWER_BYTES + 5)

    def is_sent_away(self):
        try:
            return self.stream.recv(1) == b""
        except ConnectionError:
            return True

    def leave(self):
        """Hangs up, and waits until the agent has done so, too."""
        try:
            self.stream.shutdown(socket.SHUT_WR)
            while self.stream.recv(1 << 16):
                pass
        except OSError:
            pass
        self.stream.close()


def line(guests, commands, refused):
    return 0, f"agent: guests {guests}, commands {commands}, refused {refused}\n", ""


def two(program, state):
    """What the one has brought about the other one finds, each while both are connected; a repeat by another connection changes nothing."""
    with started(program, 2, state) as (held, agent):
        first, second = Guest(held, agent), Guest(held, agent)
        right = [
            first.ask(0, 3, 1) == answer(0, 3, 1),
            second.ask(0, 3, 1, (5,)) == answer(0, 3, 1),
            second.ask(0, 3, 2) == answer(0, 3, 2),
            first.ask(0, 3, 2) == answer(0, 3, 2),
            first.ask(0, 3, 3) == answer(0, 3, 3),
            second.ask(0, 3, 5) == answer(0, 3, 3),
            second.ask(2, 3, 4) == answer(2, 3, 4),
            first.ask(0, 3, 4) == answer(2, 3, 4),
        ]
        yield "two by turns", all(right)
        second.leave()
        yield "one of them has gone", first.ask(2, 3, 5) == answer(2, 3, 5)
        first.leave()
        yield "the line behind two", ended(agent) == line(2, 9, 0)


def floors(program, state):
    """A floor that the one has raised holds for the other, who is connected too: a plain command of it changes nothing any more, nor does one of a lower term."""
    with started(program, 2, state) as (held, agent):
        first, second = Guest(held, agent), Guest(held, agent)
        plain = second.ask(0, 3, 1) == answer(0, 3, 1)
        right = [
            plain,
            first.ask_in_term(2, 0, 3, 0) == with_term(2, answer(0, 3, 1)),
            second.ask(0, 3, 2) == answer(0, 3, 1),
            second.ask_in_term(1, 0, 3, 2) == with_term(2, answer(0, 3, 1)),
            first.ask(0, 3, 2) == answer(0, 3, 1),
            first.ask_in_term(2, 0, 3, 2) == with_term(2, answer(0, 3, 2)),
            second.ask_in_term(7, 0, 3, 3) == with_term(7, answer(0, 3, 3)),
            first.ask_in_term(2, 0, 3, 4) == with_term(7, answer(0, 3, 3)),
            first.ask_in_term(7, 0, 3, 4) == with_term(7, answer(0, 3, 4)),
        ]
        yield "two with terms", all(right)
        second.leave()
        late = Guest(held, agent)
        yield "one that comes later", late.ask(1, 3, 1) == answer(0, 3, 4)
        late.leave()
        yield "the line behind two with terms", ended(agent) == line(2, 10, 0)
        first.stream.close()


def rows(program, state):
    """The rows of a fenced agent by two connections in turn."""
    with started(program, 2, state) as (held, agent):
        guests = Guest(held, agent), Guest(held, agent)
        right = True
        for row, (said, told) in enumerate(FENCED):
            guests[row % 2].say(said)
            right = right and guests[row % 2].hear(len(told)) == told
        yield "rows by turns", right
        for guest in guests:
            guest.leave()
        yield "the line behind the rows", ended(agent) == line(2, 4, 0)


def halves(program, state):
    """Two commands cut at each byte, sent by turns: neither is continued by what the other connection says."""
    with started(program, 2, state) as (held, agent):
        first, second = Guest(held, agent), Guest(held, agent)
        length = len(command(0, 0, 0, 1, [6, 7]))
        for at in range(1, length):
            other = length - at
            one, another = command(at, 1, 1, 1, [6, 7]), command(at, 2, 1, 1, [8, 9])
            first.say(one[:at])
            second.say(another[:other])
            time.sleep(0.001)
            second.say(another[other:])
            told = second.hear()
            first.say(one[at:])
            yield f"halves at {at}", (first.hear(), told) == (answer(at, 1, 1), answer(at, 2, 1))
        first.leave()
        second.leave()
        yield "the line behind the halves", ended(agent) == line(2, 2 * (length - 1), 0)


def drawn(program, state):
    """Eight connections say drawn commands by turns, whole and in halves: each answer is by what all of them have brought about so far."""
    rng, pairs, waits, count = random.Random(9), {}, {}, 0
    with started(program, 8, state) as (held, agent):
        guests = [Guest(held, agent) for _ in range(8)]
        right = True
        for _ in range(TURNS):
            n = rng.randrange(8)
            if n not in waits:
                item, before = rng.randrange(4), None
                before = pairs.get(item, (0, 0))
                asked = rng.choice(((before[0], before[1] + 1), before, (before[0] + 1, 1), (before[0], before[1] + 2), (max(before[0] - 1, 0), before[1] + 1)))
                said = command(asked[0], item, asked[1], 1, [rng.randrange(100)])
                cut = rng.choice((0, rng.randrange(1, len(said)), len(said)))
                guests[n].say(said[:cut])
                waits[n] = (item, asked, said[cut:])
                if cut < len(said):
                    continue
            item, asked, rest = waits.pop(n)
            guests[n].say(rest)
            pairs[item] = asked if is_next(pairs.get(item, (0, 0)), asked) else pairs.get(item, (0, 0))
            right = right and guests[n].hear() == answer(pairs[item][0], item, pairs[item][1])
            count += 1
        yield "drawn turns", right
        for guest in guests:
            guest.leave()
        # what was left cut off is dropped, and that is no fault; a whole command that was said without its answer read is carried out all the same
        end = ended(agent)
        yield "the line behind drawn turns", end[0] == 0 and end[1].startswith("agent: guests 8, commands ") and end[1].endswith(", refused 0\n")


def many(program, state):
    """Sixty-four sit, and each is answered. When another one comes, the one goes that has said nothing for longest, and is counted as refused."""
    with started(program, SEATS + 1, state) as (held, agent):
        guests = []
        for n in range(SEATS):
            guests.append(Guest(held, agent))
            yield f"seat {n}", guests[n].ask(0, n, 1) == answer(0, n, 1)
        # the first one speaks again, so that the second is the silent one
        yield "the first once more", guests[0].ask(0, 0, 2) == answer(0, 0, 2)
        late = Guest(held, agent)
        yield "the silent one is sent away", guests[1].is_sent_away()
        guests.pop(1).leave()
        yield "the new one is served", late.ask(0, 100, 1) == answer(0, 100, 1)
        yield "all others still are", all(guest.ask(0, 200 + n, 1) == answer(0, 200 + n, 1) for n, guest in enumerate(guests))
        for guest in [*guests, late]:
            guest.leave()
        yield "the line behind sixty-five", ended(agent) == line(SEATS + 1, SEATS + 2 + len(guests), 1)


def one_stands_still(program, state):
    """A controller that has vanished without closing, in the middle of a command, and one that says nothing, cost nothing: the next one is served, and is
    the one guest that was asked for."""
    with started(program, 1, state) as (held, agent):
        quiet, half = Guest(held, agent), command(0, 7, 1, 1, [6])[:11]
        still = subprocess.Popen([sys.executable, "-c", STANDS_STILL, str(held.getsockname()[1]), half.hex()], stdout=subprocess.PIPE)
        try:
            still.stdout.readline()
            time.sleep(0.1)
            guest = Guest(held, agent)
            yield "beside one that stands still", guest.ask(0, 7, 1) == answer(0, 7, 1)
            guest.leave()
            yield "the line beside it", ended(agent) == line(1, 1, 0)
            quiet.stream.close()
        finally:
            os.kill(still.pid, signal.SIGKILL)
            still.wait()


def cut_off(program, state):
    """One that comes and goes is the one guest that was asked for: the other one is cut off, and isn't counted, though its commands are."""
    with started(program, 1, state) as (held, agent):
        first, probe = Guest(held, agent), Guest(held, agent)
        yield "before the other one goes", first.ask(0, 7, 1) == answer(0, 7, 1)
        probe.leave()
        yield "behind it", first.is_sent_away()
        first.stream.close()
        yield "the line behind one that is cut off", ended(agent) == line(1, 1, 0)


def slow_reader(program, state):
    """One that sends on and on and reads no answers is refused once it has held a write up for the limit, and the other one is served meanwhile."""
    with started(program, 2, state, limit=300) as (held, agent):
        slow = Guest(held, agent, room=4096)
        said = command(0, 5, 1, 1, [6]) * 40000

        def talk():
            with contextlib.suppress(OSError):
                for _ in range(60):
                    slow.stream.sendall(said)

        talking = threading.Thread(target=talk, daemon=True)
        talking.start()
        time.sleep(0.2)
        guest = Guest(held, agent)
        told = [guest.ask(0, 6, number) == answer(0, 6, number) for number in range(1, 6)]
        yield "beside one that reads nothing", all(told)
        talking.join(PATIENCE)
        guest.leave()
        end = ended(agent)
        yield "the line beside one that reads nothing", end[0] == 0 and end[1].startswith("agent: guests 2, ") and end[1].endswith(", refused 1\n")


def kept(program, folder):
    """With a file: what was answered to either of two controllers is held behind a kill."""
    path = os.path.join(folder, "kept")
    with started(program, 10, path) as (held, agent):
        first, second = Guest(held, agent), Guest(held, agent)
        told = [first.ask(0, 1, 1), second.ask(0, 1, 2), first.ask(0, 2, 1), second.ask(3, 2, 7)]
        agent.kill()
        agent.wait()
        yield "answers before the kill", told == [answer(0, 1, 1), answer(0, 1, 2), answer(0, 2, 1), answer(3, 2, 7)]
        first.stream.close()
        second.stream.close()
    with started(program, 1, path) as (held, agent):
        guest = Guest(held, agent)
        yield "what is held behind it", [guest.ask(0, 1, 0), guest.ask(0, 2, 0)] == [answer(0, 1, 2), answer(3, 2, 7)]
        guest.leave()
    with started(program, 10, path) as (held, agent):
        first, second = Guest(held, agent), Guest(held, agent)
        told = [first.ask_in_term(9, 0, 1, 0), second.ask(0, 1, 3)]
        agent.kill()
        agent.wait()
        yield "a floor before the kill", told == [with_term(9, answer(0, 1, 2)), answer(0, 1, 2)]
        first.stream.close()
        second.stream.close()
    with started(program, 1, path) as (held, agent):
        guest = Guest(held, agent)
        told = [guest.ask(0, 1, 3), guest.ask_in_term(8, 0, 1, 3), guest.ask_in_term(9, 0, 1, 3)]
        yield "the floor behind it", told == [answer(0, 1, 2), with_term(9, answer(0, 1, 2)), with_term(9, answer(0, 1, 3))]
        guest.leave()


def chatters(held, agent, stops):
    """A controller that asks what an item holds again and again, and one that says nothing."""
    talker, quiet = Guest(held, agent), Guest(held, agent)

    def talk():
        with contextlib.suppress(OSError):
            while not stops.is_set():
                talker.ask(0, 0, 0)
                time.sleep(0.005)

    thread = threading.Thread(target=talk, daemon=True)
    thread.start()
    return talker, quiet, thread


def rollouts(program, folder, with_file):
    """A run over agents to which other controllers are connected: it ends as over agents of its own."""
    for name, value, operations in (("one", json.loads(ONE), None), ("two", TWO, None)):
        with contextlib.ExitStack() as stack:
            fleet, others, stops = [], [], threading.Event()
            for number, switch in enumerate(value["problem"]["switches"]):
                state = os.path.join(folder, f"{name}.{number}") if with_file else None
                held, agent = stack.enter_context(started(program, 1000, state))
                others.append(chatters(held, agent, stops))
                fleet.append(f"{switch['name']} 127.0.0.1:{held.getsockname()[1]}\n")
            path = os.path.join(folder, f"{name}.fleet")
            with open(path, "w", encoding="utf-8") as file:
                file.writelines(fleet)
            journal = os.path.join(folder, f"{name}.{'kept' if with_file else 'plain'}.journal")
            environment = dict(os.environ, SWANROLL_FLEET=path, SWANROLL_JOURNAL=journal)
            done = subprocess.run([program, "run"], input=json.dumps(value).encode(), env=environment, capture_output=True, timeout=PATIENCE)
            stops.set()
            out = done.stdout.decode()
            count = int(out.split("operations ")[1].split(",")[0]) if "operations " in out else 0
            yield f"a rollout of {name}", count > 0 and (done.returncode, out, done.stderr.decode()) == finished(count, 0)
            for talker, quiet, thread in others:
                thread.join(PATIENCE)
                talker.stream.close()
                quiet.stream.close()


def outcomes(program):
    with tempfile.TemporaryDirectory() as folder:
        for with_file in (False, True):
            for number, kind in enumerate((two, floors, rows, halves, drawn, many, one_stands_still, cut_off, slow_reader)):
                state = os.path.join(folder, f"state.{number}") if with_file else None
                for name, right in kind(program, state):
                    yield name + (", with a file" if with_file else ""), right
            for name, right in rollouts(program, folder, with_file):
                yield name + (", with a file" if with_file else ""), right
        yield from kept(program, folder)


def main():
    cases = list(watched(outcomes(sys.argv[1])))
    wrong = [name for name, right in cases if not right]
    print(f"seats: {len(cases)} cases, {len(wrong)} wrong")
    if wrong:
        sys.exit(f"seats: {wrong}")


if __name__ == "__main__":
    main()
