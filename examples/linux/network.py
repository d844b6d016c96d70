"""A document's network as the lab has it: numbers, addresses, rates in packets a second, and what each item carries at a stage."""

import itertools
import json
import os
import types

from items import items_of

LARGEST_LINK, MOST_SENT = 20e6, 45e6  # in bit/s: the largest capacity, and all flows together
FRAME_BYTES = 1250  # of a packet on a link, with all its headers
HEADERS = {"sender": 14 + 40 + 8, "kernel": 14 + 40 + 40 + 8}
# A queue's seconds, and by how much its bucket is quicker than the capacity: a link that is full by plan has no room for jitter. A standing one is slower,
# so that it is full behind such a link.
QUEUE_SECONDS, MARGIN = 0.05, {"sender": 1.05, "kernel": 1.10}
STANDING_SECONDS, STANDING_MARGIN = 0.15, 0.95
SPARE_SECONDS = 0.15
# Seconds that a command takes.
USUAL, SLOW, STANDING = (0.1, 0.5), (1.0, 2.0), (0.0, 0.05)


class Network:
    def __init__(self, document, explained, words):
        self.words, self.split = words, words.split
        self.queue_seconds, self.margin = (STANDING_SECONDS, STANDING_MARGIN) if words.standing else (QUEUE_SECONDS, MARGIN[words.split])
        self.problem, self.stages, self.scale = document["problem"], document["plan"]["stages"], document["plan"]["scale"]
        self.names = [switch["name"] for switch in self.problem["switches"]]
        self.number = {name: number for number, name in enumerate(self.names)}
        self.flows = self.problem["flows"]
        self.paths = [[self.number[name] for name in tunnel["path"]] for flow in self.flows for tunnel in flow["tunnels"]]
        ends = list(itertools.accumulate(len(flow["tunnels"]) for flow in self.flows))
        self.tunnels = [range(end - len(flow["tunnels"]), end) for flow, end in zip(self.flows, ends)]
        self.items = items_of(explained)
        self.capacity = {(self.number[link["from"]], self.number[link["to"]]): link["capacity"] for link in self.problem["links"]}
        self.bits = self.bits_of_a_unit()

    def bits_of_a_unit(self):
        """How many bit/s a unit of the document's rates is: as many as the machine can send."""
        sent = max(sum(stage["rates"]) for stage in self.stages) / self.scale
        return min(LARGEST_LINK / max(self.capacity.values()), MOST_SENT / max(sent, 1e-9))

    def content(self, item, stage):
        """What an item carries at a stage, as a command has it."""
        if item.tunnel is None:
            return [self.stages[stage]["rates"][tunnel] for tunnel in self.tunnels[item.flow]]
        return [int(self.stages[stage]["installed"][item.tunnel])]

    def changing(self):
        """The items of which the new split isn't the old one."""
        return [item for item in self.items if self.content(item, 0) != self.content(item, -1)]

    def packets(self, rates, scale):
        """Rates of a command as packets a second."""
        return [rate * self.bits / scale / (8 * FRAME_BYTES) for rate in rates]

    def bucket(self, link):
        """The bits a second that a link's token bucket lets through."""
        return int(self.capacity[link] * self.bits * self.margin)

    def settle(self):
        """Seconds from a split to its answer: after them no packet of the old split is in a queue of its path, be they full."""
        if self.words.settle is not None:
            return self.words.settle
        return self.queue_seconds * max(len(path) - 1 for path in self.paths) + SPARE_SECONDS

    def seconds_before(self):
        """How long the old split is carried before the change: until queues that are to stand full do."""
        return 1.0 + (STANDING_SECONDS / (1 - STANDING_MARGIN) if self.words.standing else 0.0)

    def command_seconds(self, switch):
        """The least and the most that a command takes at a switch."""
        if self.names[switch] == self.words.slow:
            return SLOW
        return STANDING if self.words.standing else USUAL

    def link_name(self, link):
        return f"{self.names[link[0]]} > {self.names[link[1]]}"


def write_network(folder, document, explained, words):
    """What all processes of a lab read: the document's text, what the controller explains of it, and the lab's words."""
    os.makedirs(folder)
    for name, text in (("document", document), ("explained", explained), ("words", words)):
        with open(os.path.join(folder, name), "w", encoding="utf-8") as file:
            file.write(text)


def read_network(folder):
    document, explained, words = (read(folder, name) for name in ("document", "explained", "words"))
    return Network(json.loads(document), explained, types.SimpleNamespace(**json.loads(words)))


def read(folder, name):
    with open(os.path.join(folder, name), encoding="utf-8") as file:
        return file.read()


def label(tunnel):
    """The address by which switches know a tunnel."""
    return f"fd00::{tunnel + 1:x}"


def destination(flow):
    """The address by which the kernel's split knows a flow."""
    return f"fd01::{flow + 1:x}"
