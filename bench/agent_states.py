"""Times an agent that keeps what it holds in a file, beside the same agent without one, and beside the syncs alone.

    python3 bench/agent_states.py [PROGRAM]

A batch of 16 commands is one write, and its 16 answers are awaited before the next. An agent with a file makes each batch durable with two syncs; a
plain loop in C appends and syncs the same bytes to a file in the same folder. All three take turns.
"""

import os
import shutil
import socket
import struct
import subprocess
import sys
import tempfile
import time

from plain_loop import Loop

HERE = os.path.dirname(os.path.abspath(__file__))
PROGRAM = os.path.join(HERE, "..", "crates", "swanroll", "out", "swanroll")
BATCHES, COMMANDS, TURNS = 400, 16, 5
ANSWER = 13  # bytes


def command(item, number):
    return struct.pack(">BIIIIBQ", 0x4D, 0, item, number, 1, 1, number)


def free_address():
    with socket.socket() as it:
        it.bind(("127.0.0.1", 0))
        return it.getsockname()


def connected(address):
    for _ in range(200):
        try:
            return socket.create_connection(address, timeout=30)
        except OSError:
            time.sleep(0.02)
    raise SystemExit("agent_states: no agent came")


def batches_take(program, folder, state):
    """The seconds from the first command to the last answer: each batch moves 16 items by one operation."""
    address = free_address()
    environment = {**os.environ, "SWANROLL_LISTEN": f"{address[0]}:{address[1]}"}
    environment.pop("SWANROLL_STATE", None)
    if state:
        environment["SWANROLL_STATE"] = os.path.join(folder, "state")
    agent = subprocess.Popen([program, "agent", "--guests", "1"], env=environment, stdout=subprocess.DEVNULL)
    with connected(address) as it:
        it.setsockopt(socket.IPPROTO_TCP, socket.TCP_NODELAY, 1)
        begun = time.perf_counter()
        for batch in range(1, BATCHES + 1):
            it.sendall(b"".join(command(item, batch) for item in range(COMMANDS)))
            left = ANSWER * COMMANDS
            while left:
                got = it.recv(left)
                if not got:
                    raise SystemExit("agent_states: the agent left")
                left -= len(got)
        taken = time.perf_counter() - begun
    if agent.wait():
        raise SystemExit("agent_states: the agent failed")
    if state:
        os.unlink(environment["SWANROLL_STATE"])
    return taken


def main():
    program = os.path.abspath(sys.argv[1]) if len(sys.argv) > 1 else PROGRAM
    if not shutil.which("cc"):
        raise SystemExit("agent_states: there is no C compiler for the plain loop")
    with tempfile.TemporaryDirectory() as folder:
        loop = Loop(folder)
        cases = {
            "the syncs alone": lambda: loop.seconds(BATCHES, COMMANDS * len(command(0, 1))),
            "with a file": lambda: batches_take(program, folder, True),
            "without": lambda: batches_take(program, folder, False),
        }
        found = {name: [] for name in cases}
        for _ in range(TURNS):
            for name, seconds_of in cases.items():
                found[name].append(seconds_of() / BATCHES)
    alone = min(found["the syncs alone"])
    for name, seconds in found.items():
        least = min(seconds)
        print(f"agent_states: {name}: {least * 1000:.3f} ms a batch of {COMMANDS} commands, {least / alone:.2f} times two syncs")


if __name__ == "__main__":
    main()
