"""An agent with a file, `SWANROLL_STATE`, over loopback: what it has answered it holds behind the next start, under the floor that it has told, killed before and
behind each call of its disk and at drawn moments; its file cut at each byte, and each byte of its last batch torn; a disk that fails at each call; files that are none of an agent's; and a file
that is written anew. What a file is read as is worked out here a second time, from its bytes alone.

    python3 tests/states.py PROGRAM
"""

import contextlib
import errno
import os
import random
import signal
import socket
import subprocess
import sys
import tempfile
import threading
import time

from agents import FENCED, connected, heard, held_port, with_term
from switches import ANSWER_BYTES, answer, next_command
from syncs import NUMBERS, Calls
from waiting import PATIENCE, watched

sys.path.insert(0, os.path.join(os.path.dirname(os.path.abspath(__file__)), "..", "bench"))
from agent_streams import command, is_next  # noqa: E402

KIND, OPEN, MADE, MOST_CALLS, KILLS = 0x55, 0x47, 11, 60, 100
FAULT = (8, "", "state device fault\n")
# Reads of commands, one behind the other: each is sent whole, and its answers are awaited before the next one goes out.
READS = [
    [(0, 1, 1, 2, (6,)), (0, 2, 1, 2, (3, 4)), (0, 2, 1, 2, (3, 4)), (0, 3, 5, 1, (9,))],
    [(0, 1, 2, 2, (5,)), (0, 1, 3, 2, (4,))],
    [(0, 1, 3, 2, (4,))],
    [(4, 2, 7, 1, tuple(range(1, 17))), (4, 2, 8, 1, (0,)), (0, 1, 4, 2, (3,))],
    [(4, 70655, 1, 3, (2 ** 64 - 1,)), (5, 1, 1, 2, (1,))],
]
# Reads of commands of which some name a term, as a sixth part: it rises with a command that changes something and with a probe, and late ones come of both kinds.
TERMED = [
    [(0, 1, 1, 2, (6,)), (0, 1, 2, 2, (5,), 3), (0, 1, 3, 2, (5,), 2)],
    [(0, 1, 3, 2, (4,)), (0, 2, 1, 1, (4,), 3)],
    [(0, 7, 0, 1, (0,), 70000)],
    [(0, 7, 0, 1, (0,), 70000), (0, 1, 3, 2, (4,), 4)],
    [(2, 2, 5, 1, (1, 2), 70000), (2, 2, 6, 1, (1, 2), 70001), (2, 2, 7, 1, (1, 2))],
]
# the floor stands beside the items
FLOOR = "floor"


def after(held, commands):
    """What is held behind these commands by the rule of terms: the floor, and of each item the command that was carried out last."""
    held = dict(held)
    for migration, item, number, scale, rates, *terms in commands:
        term = terms[0] if terms else 0
        if term < held.get(FLOOR, 0):
            continue
        if term:
            held[FLOOR] = term
        if is_next(held.get(item, (0, 0))[:2], (migration, number)):
            held[item] = (migration, number, scale, tuple(rates))
    return held


def pairs(held):
    return {item: one[:2] for item, one in held.items() if item != FLOOR}


def sent(commands):
    said = b""
    for migration, item, number, scale, rates, *terms in commands:
        frame = command(migration, item, number, scale, list(rates))
        said += with_term(terms[0], frame) if terms else frame
    return said


def number_4(data, at):
    return int.from_bytes((data[at:at + 4] + bytes(4))[:4], "big")


def batches(image):
    """The batches that an image is read as, and the place of the gate behind them; a line where it is refused."""
    if len(image) <= MADE:
        return [], 10
    if image[0] != KIND:
        return f"state: first byte {image[0]}\n", None
    at = number_4(image, 6 if image[1] == 1 else 2)
    if at < 10 or at >= len(image):
        return "state: batch 0 damaged\n", None
    found = []
    while image[at:at + 1] == bytes([OPEN]) and 4 + number_4(image, at + 1) < len(image) - at - 1:
        found.append(image[at + 5:at + 5 + number_4(image, at + 1)])
        at += 5 + number_4(image, at + 1)
    return found, at


def read_as(image):
    """What an image says is held; a line where it is refused."""
    found, _ = batches(image)
    if isinstance(found, str):
        return found
    held = {}
    for number, batch in enumerate(found):
        if batch[:1] == b"F" and len(batch) >= 5:
            held[FLOOR], batch = number_4(batch, 1), batch[5:]
        while batch:
            try:
                one, length = next_command(batch)
            except ValueError:
                one = None
            if one is None:
                return f"state: batch {number} damaged\n"
            held[one.item] = (one.migration, one.number, one.scale, tuple(one.rates))
            batch = batch[length:]
    return held


def contents(path):
    with open(path, "rb") as file:
        return file.read()


def put(path, image):
    with open(path, "wb") as file:
        file.write(image)


@contextlib.contextmanager
def started(program, path, guests=1, **more):
    with held_port() as held:
        environment = dict(os.environ, SWANROLL_LISTEN="127.0.0.1:%d" % held.getsockname()[1], SWANROLL_STATE=path)
        agent = subprocess.Popen(
            [program, "agent", "--guests", str(guests)], env=environment, stdin=subprocess.DEVNULL, stdout=subprocess.PIPE, stderr=subprocess.PIPE, **more)
        try:
            yield held, agent
        finally:
            agent.kill()
            agent.wait()


def ended(agent):
    out, notes = agent.communicate(timeout=PATIENCE)
    return agent.returncode, out.decode(), notes.decode()


def talk(held, agent, reads):
    """Sends one read of commands after the other, each once the one before is answered, and gives the answers; those of an agent that ends are cut off."""
    answers = b""
    try:
        with connected(held, agent) as guest:
            for commands in reads:
                guest.sendall(sent(commands))
                wanted = len(answers) + sum(ANSWER_BYTES + 5 * (len(one) > 5) for one in commands)
                while len(answers) < wanted:
                    more = guest.recv(1 << 16)
                    if not more:
                        return answers
                    answers += more
    except OSError:
        pass
    return answers


def told(program, path, items):
    """The pairs that an agent over this file says it holds of items, or how it ended."""
    with started(program, path) as (held, agent):
        end = time.monotonic() + PATIENCE
        while agent.poll() is None and time.monotonic() < end:
            try:
                guest = socket.create_connection(held.getsockname())
            except ConnectionRefusedError:
                time.sleep(0.01)
                continue
            with guest:
                guest.sendall(b"".join(command(0, item, 0, 1, [0]) for item in items))
                guest.shutdown(socket.SHUT_WR)
                data = b""
                while more := guest.recv(1 << 16):
                    data += more
            rows = [data[at:at + ANSWER_BYTES] for at in range(0, len(data), ANSWER_BYTES)]
            got = {int.from_bytes(row[5:9], "big"): (int.from_bytes(row[1:5], "big"), int.from_bytes(row[9:13], "big")) for row in rows}
            ended(agent)
            return {item: pair for item, pair in got.items() if pair != (0, 0)}
        return ended(agent)


ITEMS = sorted({one[1] for read in READS for one in read})


def states_of(reads):
    return [after({}, sum(reads[:n], [])) for n in range(len(reads) + 1)]


STATES = states_of(READS)


def expected(reads, held=None):
    """The answers to these reads, by what is held at first."""
    held, data = dict(held or {}), b""
    for one in sum(reads, []):
        held = after(held, [one])
        pair = held.get(one[1], (0, 0))[:2]
        told_of = answer(pair[0], one[1], pair[1])
        data += with_term(held.get(FLOOR, 0), told_of) if len(one) > 5 else told_of
    return data


def worked(program, folder):
    """What an agent held it holds behind a restart, and goes on from there; a repeat writes nothing."""
    path = os.path.join(folder, "worked")
    with started(program, path) as (held, agent):
        answers = talk(held, agent, READS)
        end = ended(agent)
    yield "answers and end", answers == expected(READS) and end == (0, "agent: guests 1, commands %d, refused 0\n" % len(sum(READS, [])), "")
    image = contents(path)
    yield "its file", read_as(image) == STATES[-1] and len(batches(image)[0]) == 4
    yield "what it tells", told(program, path, ITEMS) == pairs(STATES[-1])
    yield "a question writes nothing", contents(path) == image
    with started(program, path) as (held, agent):
        answers = talk(held, agent, [[(5, 1, 2, 2, (7,)), (5, 1, 2, 2, (7,)), (4, 2, 8, 1, (0,))]])
        ended(agent)
    yield "it goes on", answers == answer(5, 1, 2) + answer(5, 1, 2) + answer(4, 2, 8) and read_as(contents(path))[1] == (5, 2, 2, (7,))
    with started(program, path) as (held, agent):
        with connected(held, agent), started(program, path) as (_, second):
            yield "one agent a file", ended(second) == FAULT
        ended(agent)


def floors(program, folder):
    """A floor that was told holds behind a restart: for late commands and for those without a term; an older file, without one, has floor 0."""
    path = os.path.join(folder, "floors")
    with started(program, path) as (held, agent):
        answers = talk(held, agent, TERMED)
        end = ended(agent)
    state = states_of(TERMED)[-1]
    yield "answers and end", answers == expected(TERMED) and end == (0, "agent: guests 1, commands %d, refused 0\n" % len(sum(TERMED, [])), "")
    image = contents(path)
    yield "its file", read_as(image) == state and state[FLOOR] == 70001 and len(batches(image)[0]) == 4
    yield "what it tells", told(program, path, ITEMS) == pairs(state) and contents(path) == image
    late = [[(0, 1, 3, 2, (4,)), (0, 1, 3, 2, (4,), 70000), (0, 3, 1, 2, (4,), 1)]]
    with started(program, path) as (held, agent):
        answers = talk(held, agent, late)
        ended(agent)
    yield "late ones behind it", answers == expected(late, state) and contents(path) == image and answers[13:18] == with_term(70001, b"")
    for number, (said, answered) in enumerate(FENCED):
        row = os.path.join(folder, "rows")
        with started(program, row, 10) as (held, agent):
            with connected(held, agent) as guest:
                guest.sendall(said)
                told_of = heard(guest, len(answered))
            agent.kill()
        yield f"row {number}, and a kill behind it", told_of == answered
    older = os.path.join(folder, "older")
    with started(program, older) as (held, agent):
        talk(held, agent, READS)
        ended(agent)
    yield "an older file", b"F" not in {batch[:1] for batch in batches(contents(older))[0]} and FLOOR not in read_as(contents(older))
    more = [[(5, 1, 2, 2, (7,)), (5, 1, 3, 2, (7,), 1), (5, 1, 4, 2, (7,))]]
    with started(program, older) as (held, agent):
        answers = talk(held, agent, more)
        ended(agent)
    yield "it gets a floor", answers == expected(more, STATES[-1]) and read_as(contents(older)) == after(STATES[-1], sum(more, []))
    row = [(1, item, number, 1, tuple(range(number, number + 16)), 5) for number in range(1, 121) for item in range(3)]
    grows = os.path.join(folder, "grows")
    reads = [row[at:at + 3] for at in range(0, len(row), 3)]
    with started(program, grows) as (held, agent):
        answers = talk(held, agent, reads)
        ended(agent)
    image = contents(grows)
    yield "a file that is written anew keeps it", answers == expected(reads) and read_as(image) == after({}, row) and len(image) < 25_000 and batches(image)[0][0][:5] == with_term(5, b"")


class Turn:
    """At the call of this number, from 0, the agent is killed, before it or before the next one; or that call fails, or it and all behind it."""

    def __init__(self, number=None, fate=None):
        self.number, self.fate, self.count, self.lock = number, fate, 0, threading.Lock()

    def __call__(self, name, process):
        with self.lock:
            at, self.count = self.count, self.count + 1
        if self.number is None:
            return None
        if self.fate == "fails" and at == self.number or self.fate == "stops" and at >= self.number:
            return errno.EIO
        if (self.fate, at) in (("killed before", self.number), ("killed behind", self.number + 1)):
            os.kill(process, signal.SIGKILL)
        return None


def turned(program, path, turn, reads):
    """The answers of an agent to these reads over this turn, and how it ended; None where calls can't be seen here."""
    calls = Calls(path, NUMBERS, turn)
    with started(program, path, preexec_fn=calls.in_child) as (held, agent):
        if not calls.attach():
            return None
        answers = talk(held, agent, reads)
        end = ended(agent)
    calls.close()
    return answers, end


def each_call(program, folder):
    """At each call of the disk in turn: what is found is what was held before a read or behind all of it, and no less than was answered."""
    for name, reads, fate in [(name, reads, fate) for name, reads in (("plain", READS), ("with terms", TERMED)) for fate in ("killed before", "killed behind", "fails", "stops")]:
        good, number, states = True, 0, states_of(reads)
        while number < MOST_CALLS:
            path = os.path.join(folder, f"{name}-{fate}-{number}")
            put(path, b"")
            turn = Turn(number, fate)
            rolled = turned(program, path, turn, reads)
            if rolled is None:
                print("states: calls of the disk can't be seen here")
                return
            answers, end = rolled
            read = read_as(contents(path))
            counts = [n for n, state in enumerate(states) if state == read]
            answered = max(n for n in range(len(reads) + 1) if answers.startswith(expected(reads[:n])))
            whole = answers == expected(reads[:answered])
            if turn.count <= number + (fate == "killed behind"):  # what would have ended it never came
                good = good and end[0] == 0 and read == states[-1]
                break
            faulty = end == FAULT if fate in ("fails", "stops") else end[0] == -signal.SIGKILL
            held = told(program, path, ITEMS)
            good = good and bool(counts) and max(counts) >= answered and whole and faulty and held == pairs(read)
            with started(program, path) as (again, agent):
                answers = talk(again, agent, reads)
                ended(agent)
            good = good and answers == expected(reads, read)
            good = good and read_as(contents(path)) == after(read, sum(reads, []))
            number += 1
        yield f"{name}, {fate}: {number} calls", good and 0 < number < MOST_CALLS


def cut_and_torn(program, folder):
    """A file that was cut off says what its whole batches do; behind a closed gate anything may stand."""
    path = os.path.join(folder, "cut")
    put(path, b"")
    with started(program, path) as (held, agent):
        talk(held, agent, READS)
        ended(agent)
    image = contents(path)
    good = True
    for length in range(len(image)):
        put(path, image[:length])
        read = read_as(image[:length])
        got = told(program, path, ITEMS)
        good = good and (got == (10, "", read) if isinstance(read, str) else got == pairs(read))
    yield f"cut at each of {len(image)} bytes", good
    found, gate = batches(image)
    last = gate - 5 - len(found[-1])
    good = True
    for at in range(last, len(image)):
        for byte in ((0, 1, OPEN, 255) if at == last else (image[at] ^ 255,)):
            torn = bytearray(image)
            torn[last], torn[at] = 0, byte
            put(path, bytes(torn))
            read = read_as(bytes(torn))
            good = good and not isinstance(read, str) and told(program, path, ITEMS) == pairs(read) and read in (STATES[-1], STATES[-2])
    yield "its last batch torn at each byte", good
    for side in range(256):
        torn = bytes([image[0], side]) + image[2:]
        good = good and read_as(torn) == STATES[-1]
    put(path, bytes([image[0], 77]) + image[2:])
    yield "the byte that says which part counts", good and told(program, path, ITEMS) == pairs(STATES[-1])


def refused(program, folder):
    path = os.path.join(folder, "refused")
    whole = bytes([KIND, 0]) + (10).to_bytes(4, "big") * 2
    for name, image in (
        ("another file", b"T" * 20), ("zeros", bytes(12)), ("a part that is nowhere", bytes([KIND, 0]) + (99).to_bytes(4, "big") * 2 + bytes(9)),
        ("a batch of noise", whole + bytes([OPEN, 0, 0, 0, 2, 1, 2, 0])), ("half a command", whole + bytes([OPEN]) + (17).to_bytes(4, "big") + sent(READS[1])[:17] + b"\0"),
    ):
        put(path, image)
        got = told(program, path, ITEMS)
        yield name, got == (10, "", read_as(image)) and contents(path) == image
    for name, image in (("a short file", b"hello"), ("eleven bytes", b"x" * 11)):
        put(path, image)
        yield name, told(program, path, ITEMS) == {} and contents(path)[:1] == bytes([KIND])
    yield "a folder", told(program, folder, ITEMS) == FAULT


def grown(program, folder):
    """A file that grows is written anew, and loses nothing by it."""
    path = os.path.join(folder, "grown")
    reads = [[(1, item, number, 1, tuple(range(number, number + 16))) for item in range(3)] for number in range(1, 121)]
    with started(program, path) as (held, agent):
        answers = talk(held, agent, reads)
        ended(agent)
    image, state = contents(path), after({}, sum(reads, []))
    yield "it was written anew", answers == expected(reads) and read_as(image) == state and len(image) < 25_000 and len(batches(image)[0]) < 60
    yield "what it tells", told(program, path, [0, 1, 2]) == pairs(state)


def killed(program, folder):
    """Killed at drawn moments, under commands that come as fast as they are answered, and started again over its file."""
    path, rng, held, number = os.path.join(folder, "killed"), random.Random(45), {}, 1
    good = True
    for _ in range(KILLS):
        with started(program, path) as (listens, agent):
            killer = threading.Timer(rng.uniform(0.01, 0.12), agent.kill)
            killer.start()
            reads = [[(1, item, at, 1, tuple(range(at, at + rng.randint(1, 16)))) for item in range(4)] for at in range(number, number + 400)]
            answers = talk(listens, agent, reads)
            killer.cancel()
            agent.kill()
            agent.wait()
        answered = held
        for at in range(0, len(answers) - ANSWER_BYTES + 1, ANSWER_BYTES):
            row = answers[at:at + ANSWER_BYTES]
            answered = dict(answered)
            answered[int.from_bytes(row[5:9], "big")] = (int.from_bytes(row[1:5], "big"), int.from_bytes(row[9:13], "big"))
        read = read_as(contents(path)) if os.path.exists(path) else {}
        good = good and not isinstance(read, str) and all(read.get(item, (0, 0))[:2] >= pair[:2] for item, pair in answered.items())
        if not good:
            break
        held, number = pairs(read), min([read.get(item, (0, 0))[1] for item in range(4)]) + 1
    yield f"killed {KILLS} times, {number - 1} reads behind it", good


def main():
    if len(sys.argv) != 2:
        sys.exit(__doc__)
    program, failed, count = os.path.abspath(sys.argv[1]), 0, 0
    with tempfile.TemporaryDirectory() as folder:
        for rows in (worked, floors, each_call, cut_and_torn, refused, grown, killed):
            for name, good in watched(rows(program, folder)):
                count += 1
                if not good:
                    failed += 1
                    print(f"states: {rows.__name__}: {name}")
    print(f"states: {count} rows, {failed} failed")
    sys.exit(failed > 0)


if __name__ == "__main__":
    main()
