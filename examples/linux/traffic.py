"""The packets of all flows, as two processes: `source` sends and `sink` counts, each packet by its number.

    traffic.py source|sink FOLDER

A stream is what has an address of its own: a tunnel where the sender splits its flow, and a flow where the kernel does. The source is told of rates at a
socket in the folder, and answers when it sends by them. Both end by SIGTERM, and write what they counted.
"""

import array
import contextlib
import errno
import json
import os
import random
import selectors
import signal
import socket
import struct
import sys
import time

from namespaces import first_in_line, inside, rest
from network import FRAME_BYTES, HEADERS, destination, label, read_network

PORT, TICK, MOST_BEHIND, QUIET = 5000, 0.001, 0.005, 0.5
BUFFER_BYTES, SEND_FLOW_LABEL, RECEIVE_BUFFER_FORCE = 4 << 20, 33, 33
STAMP = struct.Struct("=Id")


class Stream:
    """What is sent to one address: from which switch to which, at how many packets a second, and when each packet went."""

    def __init__(self, address, path):
        self.address, self.first, self.last = address, path[0], path[-1]
        self.rate, self.credit, self.times, self.refused = 0.0, 0.0, array.array("d"), []


def streams_of(network):
    """All streams, and those of each flow; a flow without tunnels has none."""
    if network.split == "sender":
        streams = [Stream(label(tunnel), path) for tunnel, path in enumerate(network.paths)]
        return streams, [[streams[tunnel] for tunnel in tunnels] for tunnels in network.tunnels]
    of_flow = [[Stream(destination(flow), network.paths[tunnels[0]])] if tunnels else [] for flow, tunnels in enumerate(network.tunnels)]
    return sum(of_flow, []), of_flow


def ends():
    """A list that has something in it once the process is asked to end."""
    asked = []
    signal.signal(signal.SIGTERM, lambda *given: asked.append(given))
    return asked


class Source:
    def __init__(self, network, folder):
        self.network, self.folder, self.asked = network, folder, ends()
        self.streams, self.of_flow = streams_of(network)
        self.fill = bytes(FRAME_BYTES - HEADERS[network.split] - STAMP.size)
        for stream in self.streams:
            stream.socket = self.socket_at(stream.first)
        self.control = socket.socket(socket.AF_UNIX, socket.SOCK_DGRAM)
        self.control.bind(os.path.join(folder, "source"))
        self.control.setblocking(False)

    def socket_at(self, switch):
        with inside(switch):
            opened = socket.socket(socket.AF_INET6, socket.SOCK_DGRAM)
        opened.setsockopt(socket.SOL_SOCKET, socket.SO_SNDBUF, BUFFER_BYTES)
        opened.setsockopt(socket.IPPROTO_IPV6, SEND_FLOW_LABEL, 1)
        opened.setblocking(False)
        opened.bind((f"fd02::{switch + 1:x}", 0))
        return opened

    def run(self):
        first_in_line()
        last = time.monotonic()
        while not self.asked:
            self.hear()
            now = time.monotonic()
            for number, stream in enumerate(self.streams):
                stream.credit = min(stream.credit + stream.rate * (now - last), 1 + stream.rate * MOST_BEHIND)
                while stream.credit >= 1:
                    stream.credit -= 1
                    self.send(number, stream)
            last = now
            rest(now, now + TICK)
        self.write()

    def send(self, number, stream):
        """One packet. The kernel splits by the label of its flow, which is drawn for each; a full socket, or want of memory, is no packet."""
        now = time.monotonic()
        data = STAMP.pack(len(stream.times), now) + self.fill
        chosen = random.getrandbits(20) if self.network.split == "kernel" else 0
        try:
            stream.socket.sendto(data, (stream.address, PORT + number, chosen, 0))
        except BlockingIOError:
            return
        except OSError as fault:
            if fault.errno in (errno.ENOBUFS, errno.ENOMEM):
                return
            if fault.errno not in (errno.ENETUNREACH, errno.EHOSTUNREACH, errno.EACCES):
                raise
            stream.refused.append(len(stream.times))
        stream.times.append(now)

    def hear(self):
        """Takes new rates of a flow, and answers with those that it has by then; without rates it only answers."""
        while True:
            try:
                data, asker = self.control.recvfrom(1 << 16)
            except BlockingIOError:
                return
            number, flow, rates = json.loads(data)
            streams = self.of_flow[flow]
            if rates is not None:
                for stream, rate in zip(streams, rates):
                    stream.rate = rate
            with contextlib.suppress(OSError):  # an asker that was killed, or that reads no answers
                self.control.sendto(json.dumps([number, [stream.rate for stream in streams]]).encode(), asker)

    def write(self):
        with open(os.path.join(self.folder, "sent"), "w") as file:
            json.dump([{"times": list(stream.times), "refused": stream.refused} for stream in self.streams], file)


class Sink:
    def __init__(self, network, folder):
        self.folder, self.asked, self.slowest = folder, ends(), 0.0
        self.streams, _ = streams_of(network)
        self.selector = selectors.DefaultSelector()
        for number, stream in enumerate(self.streams):
            with inside(stream.last):
                opened = socket.socket(socket.AF_INET6, socket.SOCK_DGRAM)
            self.room(opened)
            opened.bind(("::", PORT + number))
            opened.setblocking(False)
            stream.seen = bytearray()
            self.selector.register(opened, selectors.EVENT_READ, stream)

    @staticmethod
    def room(opened):
        """As much room for packets that wait to be read as may be had."""
        opened.setsockopt(socket.SOL_SOCKET, socket.SO_RCVBUF, BUFFER_BYTES)
        with contextlib.suppress(PermissionError):
            opened.setsockopt(socket.SOL_SOCKET, RECEIVE_BUFFER_FORCE, BUFFER_BYTES)

    def run(self):
        """Reads until it is asked to end, and nothing comes any more."""
        first_in_line()
        open(os.path.join(self.folder, "sink"), "w").close()
        while self.read() or not self.asked:
            pass
        with open(os.path.join(self.folder, "seen"), "w") as file:
            json.dump({"slowest": self.slowest, "streams": [[number for number, here in enumerate(stream.seen) if here] for stream in self.streams]}, file)

    def read(self):
        """Takes what has come; whether anything has, after a while."""
        ready, begun = self.selector.select(QUIET), time.monotonic()
        for key, _ in ready:
            with contextlib.suppress(BlockingIOError):
                while True:
                    self.take(key.data, key.fileobj.recv(2048))
        rest(begun)
        return bool(ready)

    def take(self, stream, data):
        number, sent = STAMP.unpack_from(data)
        if number >= len(stream.seen):
            stream.seen.extend(bytes(number + 1 - len(stream.seen)))
        stream.seen[number] = 1
        self.slowest = max(self.slowest, time.monotonic() - sent)


def main():
    kind, folder = sys.argv[1:]
    {"source": Source, "sink": Sink}[kind](read_network(folder), folder).run()


if __name__ == "__main__":
    main()
