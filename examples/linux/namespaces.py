"""Switches as network namespaces, links as pairs of devices with a token bucket at each end, and what the kernel counts there."""

import collections
import contextlib
import ctypes
import os
import socket
import struct
import subprocess
import time

from network import FRAME_BYTES, destination

SWITCHED_ON = ("net.ipv6.conf.all.forwarding=1", "net.ipv6.conf.default.forwarding=1", "net.ipv6.conf.default.addr_gen_mode=1",
               "net.ipv6.conf.default.accept_dad=0", "net.ipv6.fib_multipath_hash_policy=0")
NEW_NETWORK = 0x40000000
GET_QDISC, DUMP, DONE = 38, 0x301, 3
KIND, STATS = 1, 3
BUCKET_BYTES = 4 * FRAME_BYTES
MULTICAST, MOST_SETTLING = "ff" + 30 * "0", 10

Queue = collections.namedtuple("Queue", "bytes packets drops backlog")


def fed(words, lines):
    """Runs a command of iproute2 with a batch of lines."""
    done = subprocess.run([*words, "-batch", "-"], input="\n".join(lines) + "\n", capture_output=True, text=True)
    if done.returncode:
        raise SystemExit(f"lab: {' '.join(words)}: {done.stderr.strip()}")


def pairs(network):
    """The two switches of each link, once for both directions."""
    return sorted({tuple(sorted(link)) for link in network.capacity if link[0] != link[1]})


def hardware(at, to):
    return "02:00:" + struct.pack(">HH", at, to).hex(":")


def build(network):
    """All namespaces with their devices, up, and with nothing routed."""
    names = range(len(network.names))
    fed(["ip"], [f"netns add s{switch}" for switch in names])
    for switch in names:
        subprocess.run(["ip", "netns", "exec", f"s{switch}", "sysctl", "-qw", *SWITCHED_ON], check=True)
    fed(["ip"], [f"link add to{b} address {hardware(a, b)} netns s{a} type veth peer name to{a} address {hardware(b, a)} netns s{b}" for a, b in pairs(network)])
    near = collections.defaultdict(list)
    for a, b in pairs(network):
        near[a].append(b)
        near[b].append(a)
    for switch in names:
        fed(["ip", "-n", f"s{switch}"], ["link set lo up", f"addr add fd02::{switch + 1:x}/128 dev lo", *(
            line for to in near[switch] for line in (f"link set to{to} up", f"neigh add fe80::1 lladdr {hardware(to, switch)} dev to{to} nud permanent"))])
        buckets = [f"qdisc add dev to{to} root tbf rate {network.bucket((switch, to))} burst {BUCKET_BYTES} latency {int(1000 * network.queue_seconds)}ms"
                   for to in near[switch] if (switch, to) in network.capacity]
        if buckets:
            fed(["tc", "-n", f"s{switch}"], buckets)
    if network.split == "kernel":
        for flow, tunnels in enumerate(network.tunnels):
            if tunnels:
                fed(["ip", "-6", "-n", f"s{network.paths[tunnels[0]][-1]}"], [f"route replace local {destination(flow)} dev lo"])
    settle(near)


def settle(near):
    """Waits until the kernel takes each link as up, by the route that it then has for packets of its own there: before that it counts those among packets
    without a route."""
    end = time.monotonic() + MOST_SETTLING
    for switch, others in near.items():
        while multicast_devices(switch) < {f"to{to}" for to in others} and time.monotonic() < end:
            time.sleep(0.02)


def multicast_devices(switch):
    """The devices of links for which a switch has the route ff00::/8."""
    with inside(switch), open("/proc/thread-self/net/ipv6_route") as file:
        rows = [line.split() for line in file]
    return {row[-1] for row in rows if row[:2] == [MULTICAST, "08"] and row[-1].startswith("to")}


@contextlib.contextmanager
def inside(switch):
    """This thread in the namespace of a switch: what is opened there stays there."""
    libc = ctypes.CDLL(None, use_errno=True)
    with open("/proc/thread-self/ns/net") as home, open(f"/run/netns/s{switch}") as there:
        if libc.setns(there.fileno(), NEW_NETWORK):
            raise OSError(ctypes.get_errno(), f"namespace of switch {switch}")
        try:
            yield
        finally:
            libc.setns(home.fileno(), NEW_NETWORK)


class Queues:
    """The queues of a switch's links, by the kernel's counters."""

    def __init__(self, network, switch):
        self.to = {}
        with inside(switch):
            self.socket = socket.socket(socket.AF_NETLINK, socket.SOCK_RAW, socket.NETLINK_ROUTE)
            for index, name in socket.if_nameindex():
                if name.startswith("to") and (switch, int(name[2:])) in network.capacity:
                    self.to[index] = (switch, int(name[2:]))

    def read(self):
        """The counters of each link's queue."""
        self.socket.send(struct.pack("=IHHII", 36, GET_QDISC, DUMP, 0, 0) + bytes(20))
        found, done = {}, False
        while not done:
            data, at = self.socket.recv(1 << 16), 0
            while at < len(data):
                length, kind = struct.unpack_from("=IH", data, at)
                done = done or kind == DONE
                if not done:
                    index, = struct.unpack_from("=i", data, at + 20)
                    attributes = attributes_of(data, at + 36, at + length)
                    if index in self.to and attributes[KIND] == b"tbf\0":
                        size, packets, drops, _, _, _, _, backlog = struct.unpack_from("=QIIIIIII", attributes[STATS])
                        found[self.to[index]] = Queue(size, packets, drops, backlog)
                at += (length + 3) & ~3
        return found


def attributes_of(data, at, end):
    found = {}
    while at < end:
        length, kind = struct.unpack_from("=HH", data, at)
        found[kind] = data[at + 4:at + length]
        at += (length + 3) & ~3
    return found


def counter(switch, *names):
    """The sum of counters of a switch's IPv6, as Ip6InNoRoutes."""
    with inside(switch), open("/proc/thread-self/net/snmp6") as file:
        return sum(int(value) for name, value in map(str.split, file) if name in names)


def let_fall():
    """Packets that this machine's processors let fall before any switch had them."""
    with open("/proc/net/softnet_stat") as file:
        return sum(int(line.split()[1], 16) for line in file)


def first_in_line():
    """This process before all others, where that is allowed: a sender or a reader that is held up looks like a network that is."""
    with contextlib.suppress(PermissionError):
        os.sched_setscheduler(0, os.SCHED_FIFO, os.sched_param(1))


def rest(begun, due=0.0):
    """Sleeps until a moment, and no less than was worked since another one: what comes before all other processes leaves them half of its processor."""
    now = time.monotonic()
    time.sleep(max(now - begun, due - now))
