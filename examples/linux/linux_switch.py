"""A switch of the lab: its items as routes of the kernel, behind the agent of agents/python.

    linux_switch.py FOLDER SWITCH ADDRESS

An entry is a route to its tunnel's label. A flow's split is the sender's rates, or the kernel's group of next hops with weights. What a command takes is
drawn by the lab's seed; the lab is told of each that was carried out, before it is answered.
"""

import json
import math
import os
import random
import socket
import subprocess
import sys
import time

sys.path.append(os.path.join(os.path.dirname(os.path.abspath(__file__)), "..", "..", "agents", "python"))
from network import destination, label, read_network  # noqa: E402
from swanroll_agent import serve  # noqa: E402

PATIENCE, MOST_WEIGHT = 300, 256


class Device:
    """What the items of one switch are in the kernel and at the sender. `put` of what is there already changes nothing."""

    def __init__(self, network, switch, folder):
        self.network, self.switch, self.folder, self.asked = network, switch, folder, 0
        self.place = os.path.join(folder, f"device-{switch}-{os.getpid()}")
        self.socket = socket.socket(socket.AF_UNIX, socket.SOCK_DGRAM)
        self.socket.bind(self.place)
        self.socket.settimeout(PATIENCE)

    def ip(self, *words):
        done = subprocess.run(["ip", "-n", f"s{self.switch}", *words], capture_output=True, text=True)
        if done.returncode:
            raise RuntimeError(f"ip -n s{self.switch} {' '.join(words)}: {done.stderr.strip()}")
        return done.stdout

    def carries(self, item, rates, scale):
        if item.tunnel is not None:
            return self.has_entry(item) == bool(rates[0])
        wanted = self.sent_rates(rates, scale)
        same = all(math.isclose(one, other, abs_tol=1e-6) for one, other in zip(self.ask_source(item.flow, None), wanted))
        return same and (self.network.split == "sender" or not any(rates) or self.group(item) == sorted(self.weights(item, rates).items()))

    def put(self, item, rates, scale):
        if item.tunnel is not None:
            self.put_entry(item, bool(rates[0]))
        elif self.network.split == "sender":
            self.ask_source(item.flow, self.sent_rates(rates, scale))
        else:
            self.put_group(item, rates, scale)

    def ask(self, whom, *words):
        """What the source answers, or the lab. The answer to an earlier question, which came too late, is passed over."""
        self.asked += 1
        self.socket.sendto(json.dumps([self.asked, *words]).encode(), os.path.join(self.folder, whom))
        while True:
            number, answer = json.loads(self.socket.recv(1 << 16))
            if number == self.asked:
                return answer

    # Entries.

    def has_entry(self, item):
        return bool(self.ip("-6", "route", "show", "table", "all", "exact", label(item.tunnel)).strip())

    def put_entry(self, item, wanted):
        path, address = self.network.paths[item.tunnel], label(item.tunnel)
        if not wanted:
            if self.has_entry(item):
                self.ip("-6", "route", "del", *(["local"] if item.hop == len(path) - 1 and self.network.split == "sender" else []), address)
        elif item.hop < len(path) - 1:
            self.ip("-6", "route", "replace", address, "via", "fe80::1", "dev", f"to{path[item.hop + 1]}")
        elif self.network.split == "sender":
            self.ip("-6", "route", "replace", "local", address, "dev", "lo")
        else:
            self.ip("-6", "route", "replace", address, "encap", "seg6local", "action", "End.DT6", "table", "local", "dev", f"to{path[-2]}")

    # Splits.

    def sent_rates(self, rates, scale):
        """What the sender is told: a rate for each of the flow's streams."""
        packets = self.network.packets(rates, scale)
        return packets if self.network.split == "sender" else [sum(packets)]

    def ask_source(self, flow, rates):
        """The rates by which the sender sends a flow, once it has taken these."""
        return self.ask("source", flow, rates)

    def weights(self, item, rates):
        """The weight of each tunnel that has a rate, as near as 256 steps allow."""
        unit = max(math.gcd(*rates), math.ceil(max(rates) / MOST_WEIGHT))
        return {tunnel + 1: max(1, round(rate / unit)) for tunnel, rate in zip(self.network.tunnels[item.flow], rates) if rate}

    def group(self, item):
        """The pairs of a next hop and its weight in the kernel's group of a flow."""
        shown = json.loads(self.ip("-j", "nexthop", "show") or "[]")
        return sorted((one["id"], one.get("weight", 1)) for group in shown if group["id"] == self.group_number(item) for one in group["group"])

    @staticmethod
    def group_number(item):
        return 10000 + item.flow

    def put_group(self, item, rates, scale):
        """The total falls before the group is replaced, and rises after that: no tunnel ever passes the larger of its two rates."""
        total, = self.sent_rates(rates, scale)
        if total < self.ask_source(item.flow, None)[0]:
            self.ask_source(item.flow, [total])
        if any(rates):
            weights = self.weights(item, rates)
            for number in weights:
                self.ip("-6", "nexthop", "replace", "id", str(number), "via", "fe80::1", "dev", f"to{self.network.paths[number - 1][1]}",
                        "encap", "seg6", "mode", "encap.red", "segs", label(number - 1))
            self.ip("nexthop", "replace", "id", str(self.group_number(item)), "group", "/".join(f"{number},{weight}" for number, weight in weights.items()))
            self.ip("-6", "route", "replace", destination(item.flow), "nhid", str(self.group_number(item)))
        self.ask_source(item.flow, [total])


def main():
    folder, switch, address = sys.argv[1], int(sys.argv[2]), sys.argv[3]
    network = read_network(folder)
    device, draw = Device(network, switch, folder), random.Random(f"{network.words.seed} {switch}")

    def apply(number, rates, scale):
        item = network.items[number]
        if device.carries(item, rates, scale):
            return
        time.sleep(draw.uniform(*network.command_seconds(switch)))
        device.put(item, rates, scale)
        device.ask("events", switch)

    def settle(number):
        return network.settle() if network.items[number].tunnel is None else 0.0

    serve(address, apply, os.path.join(folder, f"memory-{switch}"), settle)


if __name__ == "__main__":
    main()
