"""The command `agent` over loopback: controllers connect to the built program one after the other, send commands cut anywhere, and read the
answers. Without a reference these are worked cases, the agent rule, commands with terms, commands cut at each byte, and cut off there, what begins no command, the
longest guest, the words, and addresses at which nothing can listen; with one, drawn guests, of which answers, the line at the end and the status are compared with it.

    python3 tests/agents.py PROGRAM [REFERENCE]
"""

import contextlib
import os
import random
import socket
import subprocess
import sys
import threading
import time

from switches import ANSWER_BYTES, answer, next_command
from waiting import LONG_LIMIT, PATIENCE, watched

sys.path.insert(0, os.path.join(os.path.dirname(os.path.abspath(__file__)), "..", "bench"))
from agent_streams import command, commands, ending, ENDS, LONG, MOST_RATES  # noqa: E402

PAUSE, RUNS = 0.02, 40
# By item, the migrations and the numbers of commands in a row, and the pair that is held behind each.
RULE = {
    1: [((0, 1), (0, 1)), ((0, 1), (0, 1)), ((0, 3), (0, 1)), ((0, 2), (0, 2)), ((0, 0), (0, 2))],
    2: [((1, 1), (1, 1)), ((2, 1), (2, 1)), ((1, 2), (2, 1)), ((1, 1), (2, 1))],
    3: [((2, 0), (0, 0)), ((2, 4), (2, 4)), ((1, 5), (2, 4)), ((3, 0), (2, 4)), ((3, 1), (3, 1))],
    2 ** 32 - 1: [((2 ** 32 - 1, 2 ** 32 - 1), (2 ** 32 - 1, 2 ** 32 - 1)), ((2 ** 32 - 1, 0), (2 ** 32 - 1, 2 ** 32 - 1))],
}

# What a fenced agent reads and writes, command by command: a probe of term 2, a command without a term, one of term 2, and a late one of term 1.
FENCED = [
    ("46 00000002 4D 00000000 00000000 00000000 00000001 01 0000000000000000", "46 00000002 4E 00000000 00000000 00000000"),
    ("4D 00000000 00000000 00000001 00000001 01 0000000000000000", "4E 00000000 00000000 00000000"),
    ("46 00000002 4D 00000000 00000000 00000001 00000001 01 0000000000000000", "46 00000002 4E 00000000 00000000 00000001"),
    ("46 00000001 4D 00000000 00000000 00000002 00000001 01 0000000000000000", "46 00000002 4E 00000000 00000000 00000001"),
]
FENCED = [(bytes.fromhex(said), bytes.fromhex(told)) for said, told in FENCED]


def with_term(number, frame):
    """A command that names this term, and an answer that tells this floor."""
    return b"F" + number.to_bytes(4, "big") + frame


def held_port():
    """A socket that never listens, at a port for an agent: as long as it is open the system gives the port to nobody who asks for any, and lets the
    agent listen at it, which asks for this one."""
    held = socket.socket()
    held.setsockopt(socket.SOL_SOCKET, socket.SO_REUSEADDR, 1)
    held.bind(("127.0.0.1", 0))
    return held


def connected(held, agent, room=None):
    """A connection to the agent, with so much room for what is received, if any is said: a window that is made smaller later is one that the other side
    has passed already, and then nothing comes through."""
    end = time.monotonic() + PATIENCE
    while time.monotonic() < end:
        guest = socket.socket()
        if room is not None:
            guest.setsockopt(socket.SOL_SOCKET, socket.SO_RCVBUF, room)
        try:
            guest.connect(held.getsockname())
            guest.settimeout(PATIENCE)
            return guest
        except ConnectionRefusedError:
            guest.close()
            if agent.poll() is not None:
                raise
            time.sleep(PAUSE)
    raise TimeoutError("the agent doesn't listen")


def heard(guest, length):
    """So many bytes; less of them where the connection has ended."""
    data = b""
    while len(data) < length and (more := guest.recv(length - len(data))):
        data += more
    return data


def exchange(rng, guest, data):
    """Sends the bytes in pieces and ends, and gives what was answered. A guest that is refused may be cut off as it sends."""
    answers = b""
    try:
        at = 0
        while at < len(data):
            piece = rng.choice((1, 7, 64, 1 << 16))
            guest.sendall(data[at:at + piece])
            at += piece
        guest.shutdown(socket.SHUT_WR)
    except OSError:  # broken, reset or no longer connected: the agent has ended the connection of a guest that it refused
        pass
    try:
        while more := guest.recv(1 << 16):
            answers += more
    except ConnectionResetError:
        pass
    return answers


@contextlib.contextmanager
def started(program, words=()):
    """A place, and the agent that listens there."""
    with held_port() as held:
        environment = dict(os.environ, SWANROLL_LISTEN="127.0.0.1:%d" % held.getsockname()[1], SWANROLL_TIMEOUT=LONG_LIMIT)
        agent = subprocess.Popen([program, "agent", *words], env=environment, stdin=subprocess.DEVNULL, stdout=subprocess.PIPE, stderr=subprocess.PIPE)
        try:
            yield held, agent
        finally:
            agent.kill()


def ended(agent):
    out, notes = agent.communicate(timeout=PATIENCE)
    return agent.returncode, out.decode(), notes.decode()


def served(program, guests, words=(), seed=0):
    """The answers to each guest's bytes, and how the agent ended."""
    rng = random.Random(seed)
    with started(program, words) as (held, agent):
        answers = []
        for data in guests:
            with connected(held, agent) as guest:
                answers.append(exchange(rng, guest, data))
        return answers, ended(agent)


def worked(program):
    """A repeat is answered and changes nothing, what an agent holds stays from guest to guest, and a guest that is refused ends alone."""
    first, second = command(0, 3, 1, 2, [6]), command(0, 3, 2, 2, [5])
    answers, end = served(program, [first + first + b"D", second], ("--guests", "2"))
    yield "two guests", [len(one) for one in answers] == [26, 13] and end == (0, "agent: guests 2, commands 3, refused 1\n", "")
    yield "what is held stays", answers[1][-4:] == b"\0\0\0\2"
    yield "one guest", served(program, [b""])[1] == (0, "agent: guests 1, commands 0, refused 0\n", "")


def ruled(program):
    """A switch takes the next number of the migration that it holds, any number but 0 of a later one, and nothing else: each item's commands in a row, and
    those of all items in turn."""
    rows = [[(command(*asked[:1], item, asked[1], 1, [6]), answer(held[0], item, held[1])) for asked, held in row] for item, row in RULE.items()]
    turns = [row[at] for at in range(max(map(len, rows))) for row in rows if at < len(row)]
    for name, talk in (("in a row", sum(rows, [])), ("in turn", turns)):
        answers, end = served(program, [b"".join(said for said, _ in talk)])
        yield f"items {name}", answers == [b"".join(told for _, told in talk)] and end[0] == 0


def fenced(program):
    """The rows of a fenced agent, whole, each by a guest of its own, and byte by byte."""
    said, told = b"".join(row[0] for row in FENCED), b"".join(row[1] for row in FENCED)
    answers, end = served(program, [said])
    yield "the rows whole", answers == [told] and end == (0, "agent: guests 1, commands 4, refused 0\n", "")
    answers, end = served(program, [row[0] for row in FENCED], ("--guests", "4"))
    yield "each by a guest of its own", answers == [row[1] for row in FENCED] and end == (0, "agent: guests 4, commands 4, refused 0\n", "")
    with started(program) as (held, agent):
        with connected(held, agent) as guest:
            guest.setsockopt(socket.IPPROTO_TCP, socket.TCP_NODELAY, 1)
            for number, (row, answered) in enumerate(FENCED):
                for at in range(len(row)):
                    guest.sendall(row[at:at + 1])
                    time.sleep(0.001)
                yield f"row {number} byte by byte", heard(guest, len(answered)) == answered
        yield "the line behind the bytes", ended(agent) == (0, "agent: guests 1, commands 4, refused 0\n", "")


def terms(program):
    """Terms from 0 to the highest, rising and late, with plain commands between; commands with a term that are cut at each byte; and what is cut off."""
    top = 2 ** 32 - 1
    talk, floor, number = [], 0, 0
    for term in (0, None, 1, 1, 0, None, 3, 2, 70000, 3, None, top, 70000, top, None):
        takes = (term or 0) >= floor
        floor, number = (term or 0, number + 1) if takes else (floor, number)
        said, told = command(1, 9, number if takes else number + 1, 3, [number]), answer(1 if number else 0, 9, number)
        talk.append((said, told) if term is None else (with_term(term, said), with_term(floor, told)))
    answers, end = served(program, [b"".join(said for said, _ in talk)])
    yield "rising and late", answers == [b"".join(told for _, told in talk)] and end == (0, f"agent: guests 1, commands {len(talk)}, refused 0\n", "")
    with started(program) as (held, agent):
        with connected(held, agent) as guest:
            guest.setsockopt(socket.IPPROTO_TCP, socket.TCP_NODELAY, 1)
            length = len(with_term(0, command(1, 1, 1, 1, [6, 7])))
            for at in range(1, length):
                said, told = with_term(at, command(1, at, 1, 1, [6, 7])), with_term(at, answer(1, at, 1))
                guest.sendall(said[:at])
                time.sleep(0.001)
                guest.sendall(said[at:])
                yield f"a term, cut at {at}", heard(guest, len(told)) == told
        yield "all that were cut", ended(agent) == (0, f"agent: guests 1, commands {length - 1}, refused 0\n", "")
    said = with_term(7, command(1, 1, 1, 1, [6, 7]))
    answers, end = served(program, [said[:length] for length in range(len(said))] + [command(0, 1, 1, 1, [6])], ("--guests", str(len(said) + 1)))
    yield "what is cut off raises nothing", answers == [b""] * len(said) + [answer(0, 1, 1)] and end == (0, f"agent: guests {len(said) + 1}, commands 1, refused 0\n", "")
    bad = [with_term(9, bytes([kind]) + b"more") for kind in (0, 0x41, 0x43, 0x44, 0x46, 0x4E, 0xFF)] + [with_term(9, command(0, 3, 2, 1, [5], count=count)) for count in (0, 17, 255)]
    good, told = command(0, 3, 1, 1, [6]), answer(0, 3, 1)
    answers, end = served(program, [good + one + good for one in bad] + [command(0, 3, 2, 1, [6])], ("--guests", str(len(bad) + 1)))
    yield "no command behind a term", answers == [told] * len(bad) + [answer(0, 3, 2)] and end == (0, f"agent: guests {len(bad) + 1}, commands {len(bad) + 1}, refused {len(bad)}\n", "")


def cut(program):
    """A command of 1, 2 or 16 rates in two pieces, cut at each byte: it is answered before anything more is said."""
    with started(program) as (held, agent):
        with connected(held, agent) as guest:
            guest.setsockopt(socket.IPPROTO_TCP, socket.TCP_NODELAY, 1)
            for count in (1, 2, MOST_RATES):
                for at in range(1, len(command(1, count, 1, 1, [1] * count))):
                    said = command(at, count, 1, 65536, [2 ** 64 - 1 - rate for rate in range(count)])
                    guest.sendall(said[:at])
                    time.sleep(0.001)
                    guest.sendall(said[at:])
                    yield f"{count} rates, cut at {at}", heard(guest, ANSWER_BYTES) == answer(at, count, 1)
        yield "all that were cut", ended(agent) == (0, f"agent: guests 1, commands {25 + 33 + 145}, refused 0\n", "")


def dropped(program):
    """Three commands that are cut off at each length: the whole ones are carried out and answered, what is left is dropped, and that is no fault."""
    whole = 3 * len(command(1, 0, 1, 1, [6, 6]))
    said = [command(1, item, 1, 2, [6, 6]) * 2 + command(1, item, 3, 2, [6, 6]) for item in range(whole + 1)]
    answers, end = served(program, [data[:length] for length, data in enumerate(said)], ("--guests", str(whole + 1)))
    for length, found in enumerate(answers):
        yield f"cut off at {length}", found == answer(1, length, 1) * (3 * length // whole)
    yield "all that were cut off", end == (0, f"agent: guests {whole + 1}, commands {sum(3 * length // whole for length in range(whole + 1))}, refused 0\n", "")


def frames(program):
    """What begins no command, or has another count of rates, ends its guest, who has the answers to what came before."""
    good, told = command(0, 3, 1, 1, [6]), answer(0, 3, 1)
    ends = [bytes([kind]) for kind in (0, 0x41, 0x43, 0x44, 0x4E, 0xFF)] + [command(0, 3, 2, 1, [5], count=count) for count in (0, 17, 255)]
    answers, end = served(program, [good + end + good for end in ends], ("--guests", str(len(ends))))
    for end_bytes, found in zip(ends, answers):
        yield f"a guest that ends with {end_bytes.hex()}", found == told
    yield "all of them", end == (0, f"agent: guests {len(ends)}, commands {len(ends)}, refused {len(ends)}\n", "")


def long(program):
    """A guest is refused once it has said a hundred million bytes, whatever they are; one that says one byte less is served to its end."""
    whole = command(1, 1, 1, 1, [1] * MOST_RATES)
    data = (whole * (LONG // len(whole) + 1))[:LONG]
    with started(program, ("--guests", "2")) as (held, agent):
        for said in (data[:-1], data):
            counts = []
            with connected(held, agent) as guest:
                hearing = threading.Thread(target=lambda: counts.append(sum(iter(lambda: len(guest.recv(1 << 16)), 0))))
                hearing.start()
                guest.sendall(said)
                guest.shutdown(socket.SHUT_WR)
                hearing.join(PATIENCE)
            yield f"{len(said)} bytes", counts == [LONG // len(whole) * ANSWER_BYTES]
        yield "the line behind them", ended(agent) == (0, f"agent: guests 2, commands {2 * 684931}, refused 1\n", "")


def without_guests(program):
    """Without an address, with one that is none, and with one that is taken, the agent ends at once."""
    fault = (9, b"", b"guest fault\n")
    with socket.socket() as taken:
        taken.bind(("127.0.0.1", 0))
        taken.listen()
        for name, listen in (("no address", None), ("an empty one", ""), ("no port", "127.0.0.1"), ("taken", f"127.0.0.1:{taken.getsockname()[1]}")):
            environment = {key: value for key, value in os.environ.items() if key != "SWANROLL_LISTEN"}
            if listen is not None:
                environment["SWANROLL_LISTEN"] = listen
            done = subprocess.run([program, "agent"], env=environment, stdin=subprocess.DEVNULL, capture_output=True, timeout=PATIENCE)
            yield name, (done.returncode, done.stdout, done.stderr) == fault


def words(program):
    usage = (2, b"", b"usage: swanroll COMMAND [--NAME VALUE]\n")
    for given in ("--guests", "--guests 0", "--guests 1000001", "--guests -1", "--guests +1", "--guests 1 --guests 1", "--guests 00000000000000000001", "--k 1"):
        done = subprocess.run([program, "agent", *given.split()], stdin=subprocess.DEVNULL, capture_output=True, timeout=PATIENCE)
        yield given, (done.returncode, done.stdout, done.stderr) == usage


def drawn_terms(rng, data):
    """The same commands, some of them with a term: around one that rises, or any."""
    found, term, share = b"", 0, rng.choice((0, 0.3, 1))
    while data:
        _, length = next_command(data)
        if rng.random() < 0.1:
            term = min(term + rng.choice((1, 1, rng.randrange(1000), rng.randrange(2 ** 32))), 2 ** 32 - 1)
        head = with_term(rng.choice((term, term, rng.randint(0, term))), b"") if rng.random() < share else b""
        found, data = found + head + data[:length], data[length:]
    return found


def drawn(program, reference):
    """Guests with drawn commands, whole and broken off, beside the reference."""
    sys.dont_write_bytecode = True
    sys.path.insert(0, os.path.abspath(reference))
    from oracle import agent, features

    rng = random.Random(5)
    for run in range(RUNS):
        guests = [drawn_terms(rng, commands(rng)[0]) + ending(rng, rng.choice(ENDS)) for _ in range(rng.choice((1, 2, 3, 8)))]
        wanted, line = agent.serve_guests(guests, features.EVERYTHING)
        answers, end = served(program, guests, ("--guests", str(len(guests))), run)
        # also where a guest is refused, the answers to what it sent before reach it
        yield f"drawn {run}", answers == wanted and end == (0, line, "")


def main():
    program = sys.argv[1]
    kinds = [drawn(program, sys.argv[2])] if len(sys.argv) > 2 else [kind(program) for kind in (worked, ruled, fenced, terms, cut, dropped, frames, long, without_guests, words)]
    cases = [case for kind in kinds for case in watched(kind)]
    wrong = [name for name, right in cases if not right]
    print(f"agents: {len(cases)} cases, {len(wrong)} wrong")
    if wrong:
        sys.exit(f"agents: {wrong}")


if __name__ == "__main__":
    main()
