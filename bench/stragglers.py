"""Times `swanroll run` over switches of which some answer slowly or never.

    python3 bench/stragglers.py [--runs N] [--beside PROGRAM] [--check] [PROGRAM]

40 switches in this process answer after 5 ms, and each has 4 flows that move in 20 steps. First the rollout as it is; then with two of them silent, until
the others are done, and three time limits longer; then with ten that answer 300 ms later. With --beside another program does the same, in turn. Then the
same by 1, 2, 4, 8 and 16 workers, which shows what the number of workers costs. Last 1,000 switches of one operation each: all there, and with a hundred
that take no connection in the first 0.4 seconds. Each is the middle of several runs that take turns, with the least and the greatest. --check fails where
the others take more than 1.5 times as long for the stragglers, the whole more than 1.2 times the slowest switch's own path, the opening more than twice
what one such switch takes, or the rollout over prompt switches more than 1.1 times as long as by the program beside it.
"""

import argparse
import asyncio
import collections
import contextlib
import json
import os
import resource
import socket
import statistics
import tempfile
import time

from agent_streams import is_next
from loopback import PROGRAM, moved
from switches import answer, next_command
from waiting import PATIENCE

SWITCHES, FLOWS, STEPS = 40, 4, 20
# Seconds: how long a switch takes to answer, how much longer a slow one takes, and when one that is full takes connections.
PROMPT, SLOWER, FULL = 0.005, 0.3, 0.4
SILENT, SLOW, MANY, FULL_ONES = 2, 10, 1000, 100
LIMIT = 1000
LIMITS_WATCHED = 3
WORKERS = (1, 2, 4, 8, 16)
AIMS = {"others": 1.5, "whole": 1.2, "opening": 2, "beside": 1.1}

Run = collections.namedtuple("Run", "status said seconds others offers repeats used")


def placed(kinds, count=SWITCHES):
    """The delay of each of so many switches, where some of them have another one: (how many, which) pairs, spread evenly over all."""
    delays, every = [PROMPT] * count, [delay for many, delay in kinds for _ in range(many)]
    for number, delay in enumerate(every):
        delays[number * count // len(every)] = delay
    return delays


class Switch:
    """A switch that keeps the agent rule and answers each command after so many seconds, or never where that is None."""

    def __init__(self, delay, whole):
        self.delay, self.whole = delay, whole
        self.held, self.came, self.repeats = {}, [], 0
        self.last, self.done = None, asyncio.Event()

    async def serve(self, reader, writer):
        data = b""
        with contextlib.suppress(ConnectionError):
            while piece := await reader.read(1 << 16):
                data += piece
                while data and (found := next_command(data))[1]:
                    data = data[found[1]:]
                    self.take(writer, found[0])
        writer.close()

    def take(self, writer, command):
        self.came.append(time.perf_counter())
        if self.delay is None:
            return
        pair = self.held.get(command.item, (0, 0))
        if is_next(pair, (command.migration, command.number)):
            pair = self.held[command.item] = (command.migration, command.number)
        else:
            self.repeats += 1
        asyncio.get_running_loop().call_later(self.delay, self.tell, writer, answer(pair[0], command.item, pair[1]))

    def tell(self, writer, data):
        if not writer.is_closing():
            writer.write(data)
        if sum(number for _, number in self.held.values()) == self.whole and not self.done.is_set():
            self.last = time.perf_counter()
            self.done.set()

    async def listen(self):
        return await asyncio.start_server(self.serve, "127.0.0.1", 0)


class Full(Switch):
    """A switch that takes no connection at first: its queue is full."""

    async def listen(self):
        place = socket.socket()
        place.bind(("127.0.0.1", 0))
        place.listen(0)
        fillers = [socket.socket() for _ in range(2)]
        for filler in fillers:
            filler.setblocking(False)
            filler.connect_ex(place.getsockname())
        server = await asyncio.start_server(self.serve, sock=place, start_serving=False, backlog=100)
        asyncio.get_running_loop().call_later(FULL, self.open, server, fillers)
        return server

    def open(self, server, fillers):
        for filler in fillers:
            filler.close()
        self.opening = asyncio.ensure_future(server.start_serving())


def processor_of(child):
    """The seconds of the processor that a child has had."""
    with open(f"/proc/{child.pid}/stat", encoding="ascii") as file:
        words = file.read().rpartition(")")[2].split()
    return (int(words[11]) + int(words[12])) / os.sysconf("SC_CLK_TCK")


async def rolls_out(program, document, switches, words, limit, watched):
    servers = [await switch.listen() for switch in switches]
    with tempfile.TemporaryDirectory() as folder:
        with open(os.path.join(folder, "fleet"), "w", encoding="utf-8") as fleet:
            for number, server in enumerate(servers):
                fleet.write("s%d 127.0.0.1:%d\n" % (number, server.sockets[0].getsockname()[1]))
        environment = dict(os.environ, SWANROLL_FLEET=os.path.join(folder, "fleet"), SWANROLL_JOURNAL=os.path.join(folder, "journal"), SWANROLL_TIMEOUT=str(limit))
        pipes = {name: asyncio.subprocess.PIPE for name in ("stdin", "stdout", "stderr")}
        begun = time.perf_counter()
        child = await asyncio.create_subprocess_exec(program, "run", *words, env=environment, **pipes)
        ending = asyncio.ensure_future(child.communicate(json.dumps(document).encode()))
        used = 0
        try:
            if watched is None:
                await asyncio.wait_for(asyncio.shield(ending), PATIENCE)
            else:
                both = asyncio.ensure_future(asyncio.wait([asyncio.ensure_future(switch.done.wait()) for switch in switches if switch.delay is not None]))
                await asyncio.wait([ending, both], timeout=PATIENCE, return_when=asyncio.FIRST_COMPLETED)
                if not ending.done():
                    used = processor_of(child)
                    await asyncio.wait([ending], timeout=watched)
                    used = processor_of(child) - used if not ending.done() else None
        except asyncio.TimeoutError:
            pass
        ended = time.perf_counter()
        if not ending.done():
            child.kill()
        out, notes = await ending
    for server in servers:
        server.close()
    least = min(switch.delay for switch in switches if switch.delay is not None)
    lasts = [switch.last for switch in switches if switch.delay == least]
    return Run(child.returncode, (out + notes).decode().strip(), ended - begun, max(lasts) - begun if all(lasts) else None,
               [switch.came for switch in switches if switch.delay is None], sum(switch.repeats for switch in switches), used)


def rolled_out(program, delays, words=(), limit=LIMIT, watched=None, flows=FLOWS, steps=STEPS, full=()):
    """A run over switches with these delays, each with so many flows of so many steps. Where seconds are given that it is to be watched, it is ended so long
    after all switches that answer are done; else it ends by itself. The switches of the numbers in `full` are full at first."""
    async def play():
        switches = [(Full if number in full else Switch)(delay, flows * steps) for number, delay in enumerate(delays)]
        return await rolls_out(os.path.abspath(program), moved(len(delays), flows, steps), switches, list(words), limit, watched)

    return asyncio.run(play())


def shown(each, unit="s"):
    return f"{statistics.median(each):.2f} {unit} ({min(each):.2f} to {max(each):.2f})"


def whole(run):
    """The seconds of a run that finished."""
    if run.status:
        raise SystemExit(f"stragglers: status {run.status}: {run.said}")
    return run.seconds


def in_turn(runs, cases):
    """So many runs of each case, which take turns."""
    found = {name: [] for name in cases}
    for _ in range(runs):
        for name, case in cases.items():
            found[name].append(case())
    return found


CASES = {"prompt": ([], None), "silent": ([(SILENT, None)], LIMITS_WATCHED * LIMIT / 1000), "slow": ([(SLOW, PROMPT + SLOWER)], None)}


def show_stragglers(name, runs):
    """The three cases of one program; its ratios."""
    prompt = [whole(run) for run in runs["prompt"]]
    others = {case: [run.others for run in runs[case]] for case in CASES}
    ratio = {case: statistics.median(others[case]) / statistics.median(others["prompt"]) for case in CASES}
    print(f"stragglers: {name}: all prompt: {shown(prompt)}, the path {STEPS * PROMPT:.2f} s", flush=True)
    offers = [len(came) / FLOWS / (run.seconds * 1000 / LIMIT) for run in runs["silent"] for came in run.offers]
    used = [100 * run.used / (LIMITS_WATCHED * LIMIT / 1000) for run in runs["silent"] if run.used is not None]
    print(f"stragglers: {name}: {SILENT} silent: the others {shown(others['silent'])}, {ratio['silent']:.2f} times; offered again {shown(offers, 'times a limit')}; "
          f"while nothing comes {shown(used or [0], '% of a processor')}", flush=True)
    path = STEPS * (PROMPT + SLOWER)
    longer = [whole(run) / path for run in runs["slow"]]
    print(f"stragglers: {name}: {SLOW} slow by {1000 * SLOWER:.0f} ms: the others {shown(others['slow'])}, {ratio['slow']:.2f} times; the whole {shown(longer, 'times the slowest path')} "
          f"of {path:.2f} s; {max(run.repeats for run in runs['slow'])} repeats", flush=True)
    return {"prompt": statistics.median(prompt), "others": max(ratio["silent"], ratio["slow"]), "whole": statistics.median(longer)}


def show_workers(program, count):
    for workers in WORKERS:
        words = ["--workers", str(workers)]
        runs = in_turn(count, {case: lambda kinds=CASES[case][0]: rolled_out(program, placed(kinds), words) for case in ("prompt", "slow")})
        print(f"stragglers: {workers} workers: all prompt: {shown([whole(run) for run in runs['prompt']])}; {SLOW} slow: the others {shown([run.others for run in runs['slow']])}, "
              f"the whole {shown([whole(run) for run in runs['slow']])}", flush=True)


def show_opening(program, count):
    """The time of many switches, of the slowest of them alone, and of many with some as slow."""
    one = {"flows": 1, "steps": 1, "limit": 10 * LIMIT}
    runs = in_turn(count, {
        "there": lambda: rolled_out(program, [PROMPT] * MANY, **one),
        "alone": lambda: rolled_out(program, [PROMPT] * 3, full={0}, **one),
        "full": lambda: rolled_out(program, [PROMPT] * MANY, full=set(range(0, MANY, MANY // FULL_ONES)), **one),
    })
    each = {name: [whole(run) for run in runs[name]] for name in runs}
    ratio = statistics.median(each["full"]) / statistics.median(each["alone"])
    print(f"stragglers: {MANY} switches: all there {shown(each['there'])}; with {FULL_ONES} full at first {shown(each['full'])}, {ratio:.2f} times one of these alone: {shown(each['alone'])}")
    return ratio


def main():
    words = argparse.ArgumentParser(description=__doc__, formatter_class=argparse.RawDescriptionHelpFormatter)
    words.add_argument("--runs", type=int, default=5)
    words.add_argument("--beside")
    words.add_argument("--check", action="store_true")
    words.add_argument("program", nargs="?", default=PROGRAM)
    given = words.parse_args()
    most = resource.getrlimit(resource.RLIMIT_NOFILE)[1]
    resource.setrlimit(resource.RLIMIT_NOFILE, (most, most))
    programs = {"here": given.program, **({"beside": given.beside} if given.beside else {})}
    cases = {(name, case): lambda program=program, kinds=kinds, watched=watched: rolled_out(program, placed(kinds), watched=watched)
             for case, (kinds, watched) in CASES.items() for name, program in programs.items()}
    runs = in_turn(given.runs, cases)
    ratios = {name: show_stragglers(name, {case: runs[name, case] for case in CASES}) for name in programs}
    show_workers(given.program, given.runs)
    found = dict(ratios["here"], opening=show_opening(given.program, given.runs))
    if given.beside:
        found["beside"] = ratios["here"]["prompt"] / ratios["beside"]["prompt"]
        print(f"stragglers: all prompt: {found['beside']:.2f} times the program beside it")
    missed = [name for name, aim in AIMS.items() if name in found and found[name] > aim]
    if given.check and missed:
        raise SystemExit(f"stragglers: above the aim: {', '.join(missed)}")


if __name__ == "__main__":
    main()
