"""Times `swanroll run` over agents on loopback, beside what the syncs of its journal alone take.

    python3 bench/loopback.py [--workers N] [PROGRAM]

First a rollout of one operation after the other at each of three agents: a round is one batch of the journal and one exchange, and stands beside a
plain loop in C that appends and syncs the same bytes to a file in the same folder. Then 20,160 operations at 40 agents: operations a second, and what
the syncs of its batches alone would allow.
"""

import json
import os
import shutil
import socket
import subprocess
import sys
import tempfile
import time

from plain_loop import Loop

HERE = os.path.dirname(os.path.abspath(__file__))
sys.path.insert(0, os.path.join(HERE, "..", "tests"))
from journal_files import live  # noqa: E402

PROGRAM = os.path.join(HERE, "..", "crates", "swanroll", "out", "swanroll")
TURNS = 5


def moved(switches, flows, steps):
    """A document: at each switch of a ring so many flows, which each move to a second path in so many steps. No link is ever full."""
    names = [f"s{number}" for number in range(switches)]
    ends = sorted((at, (at + way) % switches) for at in range(switches) for way in (1, 2))
    tunnels = [[[at, (at + 2) % switches], [at, (at + 1) % switches, (at + 2) % switches]] for at in range(switches)]
    problem = {
        "switches": [{"name": name, "table": 100_000} for name in names],
        "links": [{"from": names[a], "to": names[b], "capacity": 10 ** 9} for a, b in ends],
        "flows": [{"name": f"f{at}.{number}", "tunnels": [{"path": [names[hop] for hop in path], "old": old, "new": steps - old}
                                                           for path, old in zip(tunnels[at], (steps, 0))]}
                  for at in range(switches) for number in range(flows)],
    }
    count = switches * flows
    stages = [{"installed": [True] * (2 * count), "rates": [steps - step, step] * count} for step in range(steps + 1)]
    return {"problem": problem, "plan": {"scale": 1, "stages": stages}}


class Agents:
    """An agent of the program for each switch, behind an address on loopback; the file of addresses; and where the journal lies."""

    def __init__(self, program, folder, names):
        self.program, self.folder, self.running = program, folder, []
        with open(os.path.join(folder, "fleet"), "w", encoding="utf-8") as fleet:
            # All are chosen before the first is given up, so that no two agents get one.
            free = [socket.create_server(("127.0.0.1", 0)) for _ in names]
            for name, place in zip(names, free):
                address = "127.0.0.1:%d" % place.getsockname()[1]
                place.close()
                self.running.append(subprocess.Popen([program, "agent"], env=dict(os.environ, SWANROLL_LISTEN=address), stdin=subprocess.DEVNULL, stdout=subprocess.DEVNULL))
                fleet.write(f"{name} {address}\n")
        time.sleep(1)

    def rolls_out(self, text, words):
        """The seconds that a rollout takes, whole."""
        environment = dict(os.environ, SWANROLL_FLEET=os.path.join(self.folder, "fleet"), SWANROLL_JOURNAL=os.path.join(self.folder, "journal"),
                           SWANROLL_TIMEOUT="10000")
        begun = time.perf_counter()
        done = subprocess.run([self.program, "run", *words], input=text, env=environment, capture_output=True)
        if done.returncode:
            raise SystemExit(f"loopback: status {done.returncode}: {done.stderr.decode()}")
        return time.perf_counter() - begun

    def end(self):
        for agent in self.running:
            agent.kill()
            agent.wait()


def rolled_out(program, document, words):
    """The seconds of a rollout from nothing over agents of its own, and the sizes of the batches in its journal."""
    with tempfile.TemporaryDirectory() as folder:
        agents = Agents(program, folder, [switch["name"] for switch in document["problem"]["switches"]])
        try:
            seconds = agents.rolls_out(json.dumps(document).encode(), words)
            with open(os.path.join(folder, "journal"), "rb") as journal:
                return seconds, batches_in(journal.read())
        finally:
            agents.end()


def batches_in(image):
    """The size of each batch in a journal that was made from nothing, with its gate."""
    at, _ = live(image)
    at += 40 + 4 * int.from_bytes(image[at + 36:at + 40], "big") + 4
    sizes = []
    while image[at] == 0x47:
        sizes.append(5 + 9 * int.from_bytes(image[at + 1:at + 5], "big"))
        at += sizes[-1]
    return sizes


def one_by_one(program, loop, words):
    """The milliseconds of a round with one operation, and those of two syncs of the same bytes: the least of some turns."""
    ours, plain = [], []
    for _ in range(TURNS):
        seconds, sizes = rolled_out(program, moved(3, 1, 63), ["--rounds", "1000", *words])
        ours.append(seconds / len(sizes))
        plain.append(loop.seconds(len(sizes), max(sizes)) / len(sizes))
    return 1000 * min(ours), 1000 * min(plain), max(sizes)


def main():
    words = sys.argv[1:]
    workers = []
    if "--workers" in words:
        at = words.index("--workers")
        workers, words = words[at:at + 2], words[:at] + words[at + 2:]
    program = os.path.abspath(words[0] if words else PROGRAM)
    if not shutil.which("cc"):
        raise SystemExit("loopback: there is no C compiler for the plain loop")
    with tempfile.TemporaryDirectory() as folder:
        loop = Loop(folder)
        ours, plain, size = one_by_one(program, loop, workers)
        print(f"loopback: a round of one operation at each of 3 agents: {ours:.3f} ms, beside {plain:.3f} ms for two syncs of as many bytes ({size}): "
              f"{ours / plain:.2f} times", flush=True)
        document = moved(40, 8, 63)
        operations = 40 * 8 * 63
        seconds, sizes = rolled_out(program, document, ["--rounds", "100000", *workers])
        syncs = loop.seconds(len(sizes), min(max(sizes), 4096))
        print(f"loopback: {operations:,} operations at 40 agents by {workers[1] if workers else 2} workers: {seconds:.2f} s, "
              f"{operations / seconds:,.0f} operations a second; {len(sizes)} batches, whose syncs alone take {syncs:.2f} s", flush=True)


if __name__ == "__main__":
    main()
