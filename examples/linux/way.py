"""One way from the old split to the new one, in namespaces of its own: builds, sends, changes, measures, and says all as one line of JSON.

    way.py WORDS-AS-JSON < DOCUMENT

It wants to be the first process of namespaces of its own, with a /run of its own, of which the lab takes care.
"""

import concurrent.futures
import contextlib
import json
import os
import socket
import struct
import subprocess
import sys
import threading
import time

from linux_switch import Device
from namespaces import Queues, build, counter, first_in_line, let_fall, rest
from network import FRAME_BYTES, read_network, write_network
from processes import Processes

FOLDER = "/run/lab"
SAMPLE, SHARP, BEHIND, PAUSE, ANSWER_BYTES = 0.01, 0.003, 0.6, 0.5, 13
PATIENCE = 600  # seconds for a way that takes ten on a quiet machine: only what stands still takes so long
LIMIT, MOST_ROUNDS, MOST_STARTS = "100", "20000", 20
UNREAD = ("Udp6RcvbufErrors", "Udp6MemErrors")
AGAIN = (5, 9, 12, -9)  # statuses after which a controller is started again; the last is a kill


class Watch(threading.Thread):
    """Of each link every 10 ms what was offered to its queue by then, in bytes, and how many packets that has dropped. A reading that was held up says
    nothing of a moment, and is left out."""

    def __init__(self, network):
        super().__init__(name="the watch on the queues", daemon=True)
        self.queues = [Queues(network, switch) for switch in range(len(network.names))]
        self.samples, self.drops = {link: [] for link in network.capacity}, {link: 0 for link in network.capacity}
        self.is_asked = False

    def run(self):
        first_in_line()
        due = time.monotonic()
        while not self.is_asked:
            begun = time.monotonic()
            self.sample_all()
            due = max(due + SAMPLE, time.monotonic())
            rest(begun, due)
        self.sample_all()  # drops may have come since the last one

    def sample_all(self):
        for queues in self.queues:
            self.sample(queues)

    def sample(self, queues):
        begun = time.monotonic()
        found = queues.read()
        is_sharp = time.monotonic() - begun < SHARP
        for link, queue in found.items():
            self.drops[link] = queue.drops
            if is_sharp:
                self.samples[link].append((begun, queue.bytes + queue.backlog + queue.drops * FRAME_BYTES))


class Way:
    def __init__(self):
        self.network = read_network(FOLDER)
        self.given = self.network.words
        self.slow = self.network.number[self.given.slow] if self.given.slow else None
        self.homes = sorted({self.network.number[item.switch] for item in self.network.items if item.switch})
        self.carried_out, self.kills, self.starting = 0, [], threading.Lock()
        self.processes = Processes(PATIENCE, self.stands)
        self.told = socket.socket(socket.AF_UNIX, socket.SOCK_DGRAM)
        self.told.bind(os.path.join(FOLDER, "events"))

    def stands(self):
        """How far the way is, for whoever looks for what stands still."""
        killed = [name for _, name in self.kills]
        return f"{self.given.way}, {self.carried_out} commands carried out, killed {killed}, the controller's notes {self.read_notes()!r}"

    @staticmethod
    def read_notes():
        with contextlib.suppress(FileNotFoundError), open(os.path.join(FOLDER, "notes")) as told:
            return told.read().strip()
        return ""

    # What stands before the change.

    def start(self):
        """The network, an agent at each switch, and the packets of the old split, once all processes are there."""
        build(self.network)
        for switch in self.homes:
            self.start_agent(switch)
        for switch in self.homes:
            self.connected(switch).close()
        with open(os.path.join(FOLDER, "fleet"), "w", encoding="utf-8") as file:
            file.writelines(f"{self.network.names[switch]} 127.0.0.1:{7000 + switch}\n" for switch in self.homes)
        self.counted = self.counts()
        self.watch = Watch(self.network)
        self.watch.start()
        threading.Thread(target=self.listen, name="the kills", daemon=True).start()
        self.start_traffic("sink")
        self.start_traffic("source")
        self.devices = [Device(self.network, switch, FOLDER) for switch in range(len(self.network.names))]
        for item in reversed(self.network.items):  # entries before splits
            if item.switch and any(self.network.content(item, 0)):
                self.device(item).put(item, self.network.content(item, 0), self.scale(item))
        time.sleep(self.network.seconds_before())

    def scale(self, item):
        """In which units an item's content is told."""
        return self.network.scale if item.tunnel is None else 1

    def device(self, item):
        return self.devices[self.network.number[item.switch]]

    def start_traffic(self, name):
        """The source or the sink, which is ready when this returns."""
        self.processes.begin(name, "traffic.py", name, FOLDER)
        while not os.path.exists(os.path.join(FOLDER, name)):
            time.sleep(0.01)

    def agent(self, switch):
        return f"agent of {self.network.names[switch]}"

    def start_agent(self, switch):
        self.processes.begin(self.agent(switch), "linux_switch.py", FOLDER, switch, f"127.0.0.1:{7000 + switch}")

    @staticmethod
    def connected(switch):
        """A connection to an agent, once it listens."""
        while True:
            with contextlib.suppress(ConnectionRefusedError):
                return socket.create_connection(("127.0.0.1", 7000 + switch))
            time.sleep(0.02)

    # The ways.

    def push(self):
        """Every switch is told its whole new split at once."""
        self.tell(self.network.changing())

    def careful(self):
        """New entries everywhere, then the splits, then old entries go; each once all of those before are answered."""
        parts = {"coming": [], "splits": [], "going": []}
        for item in self.network.changing():
            kind = "splits" if item.tunnel is None else "coming" if any(self.network.content(item, -1)) else "going"
            parts[kind].append(item)
        for part in parts.values():
            self.tell(part)

    def tell(self, items):
        """Commands of the new split to the homes of items, all at once, and their answers."""
        of_home = {}
        for item in items:
            of_home.setdefault(self.network.number[item.switch], []).append(item)
        with concurrent.futures.ThreadPoolExecutor(max(1, len(of_home))) as pool:
            list(pool.map(self.tell_one, of_home, of_home.values()))

    def tell_one(self, switch, items):
        with self.connected(switch) as agent:
            for item in items:
                rates = self.network.content(item, -1)
                agent.sendall(struct.pack(f">BIIIIB{len(rates)}Q", 0x4D, 0, item.number, 1, self.network.scale, len(rates), *rates))
            left = ANSWER_BYTES * len(items)
            while left:
                came = len(agent.recv(left))
                if not came:
                    raise SystemExit(f"lab: the agent of {self.network.names[switch]} has ended")
                left -= came

    def run(self):
        """The controller, started again wherever an operator would. Its notes are those of the last start."""
        environment = dict(os.environ, SWANROLL_JOURNAL=os.path.join(FOLDER, "journal"), SWANROLL_FLEET=os.path.join(FOLDER, "fleet"), SWANROLL_TIMEOUT=LIMIT)
        notes = os.path.join(FOLDER, "notes")
        for _ in range(MOST_STARTS):
            with self.starting, open(os.path.join(FOLDER, "document")) as document, open(notes, "w") as told:
                self.controller = subprocess.Popen([self.given.controller, "run", "--rounds", MOST_ROUNDS], env=environment, stdin=document, stdout=told, stderr=told)
            self.status = self.controller.wait()
            if self.status not in AGAIN:
                break
            time.sleep(PAUSE)
        self.notes = self.read_notes()

    # Kills, by commands that were carried out.

    def listen(self):
        """Hears of each command that was carried out. Its agent waits for an answer, so that a kill comes before the command is answered."""
        while True:
            data, agent = self.told.recvfrom(1 << 10)
            number, switch = json.loads(data)
            self.carried_out += 1
            if self.given.way == "run":
                self.kill(self.carried_out, switch)
            with contextlib.suppress(OSError):  # that agent was killed
                self.told.sendto(json.dumps([number, None]).encode(), agent)

    def kill(self, count, switch):
        """Does what is to be done once so many commands are carried out, the last of them at this switch."""
        if count == self.given.kill:
            self.kills.append((time.monotonic(), "controller"))
            with self.starting:
                self.controller.kill()
        if count == self.given.kill_agent:
            switch = switch if self.slow is None else self.slow
            self.kills.append((time.monotonic(), self.agent(switch)))
            self.processes.kill(self.agent(switch))
            again = threading.Timer(PAUSE, self.start_agent, [switch])
            again.name, again.daemon = f"the start of the {self.agent(switch)}", True
            again.start()

    # What is measured.

    def counts(self):
        """Packets that found no route at a switch, and those that the machine was too busy for: nobody read them in time, or no processor had the time."""
        no_route, unread = (sum(counter(switch, *names) for switch in range(len(self.network.names))) for names in (("Ip6InNoRoutes",), UNREAD))
        return no_route, unread + let_fall()

    def measured(self):
        begun = time.monotonic()
        self.status, self.notes = 0, ""
        getattr(self, self.given.way)()
        ended = time.monotonic()
        time.sleep(BEHIND)
        missed = [item.number for item in self.network.items
                  if item.switch and not self.device(item).carries(item, self.network.content(item, -1), self.scale(item))]
        stopped = time.monotonic()
        self.processes.end("source")
        time.sleep(BEHIND)
        self.watch.is_asked = True
        self.watch.join()
        self.processes.end("sink")
        no_route, too_busy = (now - before for now, before in zip(self.counts(), self.counted))
        return {"way": self.given.way, "status": self.status, "notes": self.notes, "missed": missed, "kills": self.kills,
                "begun": begun, "ended": ended, "stopped": stopped, "no_route": no_route, "too_busy": too_busy,
                "loads": self.loads(), **self.packets()}

    def loads(self):
        """Of each link its name, its capacity in bytes a second, what was offered by each moment of a sample, and the packets dropped in all."""
        return [{"link": self.network.link_name(link), "capacity": self.network.capacity[link] * self.network.bits / 8,
                 "samples": self.watch.samples[link], "drops": self.watch.drops[link]} for link in self.network.capacity]

    def packets(self):
        """How many packets were sent, of which how many were refused where they began, and when each packet that didn't come was sent."""
        with open(os.path.join(FOLDER, "sent")) as sent, open(os.path.join(FOLDER, "seen")) as seen:
            sent, seen = json.load(sent), json.load(seen)
        lost = [moment for stream, numbers in zip(sent, map(set, seen["streams"])) for number, moment in enumerate(stream["times"]) if number not in numbers]
        return {"sent": sum(len(stream["times"]) for stream in sent), "refused": sum(len(stream["refused"]) for stream in sent),
                "lost": sorted(lost), "slowest": seen["slowest"]}


def explained(document, words):
    """What the controller says of the document's items."""
    done = subprocess.run([json.loads(words)["controller"], "explain"], input=document, capture_output=True, text=True, encoding="utf-8")
    if done.returncode:
        raise SystemExit(f"lab: explain: {done.stderr.strip()}")
    return done.stdout


def main():
    document, words = sys.stdin.read(), sys.argv[1]
    write_network(FOLDER, document, explained(document, words), words)
    way = Way()
    way.start()
    print(json.dumps(way.measured()))


if __name__ == "__main__":
    main()
