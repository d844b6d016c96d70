"""The items of a document, what each brings and where it is at home, and whether what the switches carry is safe.

The items are the flows, and then the entries of each tunnel, one for each switch on its path. A flow's home is the first switch on its paths. The
content of a flow at a stage is its tunnels' rates, that of an entry 1 where the tunnel is installed and else 0. Each stage at which an item's
content changes is an operation of it.
"""

import fractions
import itertools


class Items:
    def __init__(self, document):
        self.problem, plan = document["problem"], document["plan"]
        self.scale, self.stages = plan["scale"], plan["stages"]
        self.flows = self.problem["flows"]
        self.tunnels = [tunnel for flow in self.flows for tunnel in flow["tunnels"]]
        ends = list(itertools.accumulate(len(flow["tunnels"]) for flow in self.flows))
        self.own = [range(end - len(flow["tunnels"]), end) for flow, end in zip(self.flows, ends)]
        self.entries = [(number, switch) for number, tunnel in enumerate(self.tunnels) for switch in tunnel["path"]]
        self.count = len(self.flows) + len(self.entries)
        self.homes = [self.tunnels[own[0]]["path"][0] if own else None for own in self.own] + [switch for _, switch in self.entries]
        self.changes = [[stage for stage in range(1, len(self.stages)) if self.content(item, stage) != self.content(item, stage - 1)]
                        for item in range(self.count)]
        self.operations = sum(map(len, self.changes))

    def content(self, item, stage):
        if item < len(self.flows):
            return tuple(self.stages[stage]["rates"][tunnel] for tunnel in self.own[item])
        return (int(self.stages[stage]["installed"][self.entries[item - len(self.flows)][0]]),)

    def brings(self, item, number):
        """The content of an operation."""
        return self.content(item, self.changes[item][number - 1])

    def has(self, item, number):
        return item < self.count and 1 <= number <= len(self.changes[item])

    def working_homes(self):
        return {self.homes[item] for item in range(self.count) if self.changes[item]}


def backwards(document):
    """The way back: old and new change places, and so do the stages."""
    problem = dict(document["problem"], flows=[
        dict(flow, tunnels=[dict(tunnel, old=tunnel["new"], new=tunnel["old"]) for tunnel in flow["tunnels"]]) for flow in document["problem"]["flows"]])
    return {"problem": problem, "plan": dict(document["plan"], stages=document["plan"]["stages"][::-1])}


class Carried:
    """What each item carries now: at first the old split; rates are in whole units."""

    def __init__(self, items):
        self.items = items
        self.now = [self.real(item, items.content(item, 0), items.scale) for item in range(items.count)]

    def real(self, item, content, scale):
        return tuple(fractions.Fraction(rate, scale) for rate in content) if item < len(self.items.flows) else tuple(content)

    def change(self, command):
        self.now[command.item] = self.real(command.item, command.rates, command.scale)

    def is_target(self, items, item):
        """Whether an item carries what it does at the last stage of a document of this network."""
        return self.now[item] == self.real(item, items.content(item, -1), items.scale)

    def unsafe(self):
        """The first link or table that has too much, or the first tunnel with traffic that lacks an entry; None where all is safe."""
        items, loads, tables = self.items, {}, {}
        lacking = set()
        for (tunnel, switch), content in zip(items.entries, self.now[len(items.flows):]):
            if content == (1,):
                tables[switch] = tables.get(switch, 0) + items.tunnels[tunnel].get("width", 1)
            else:
                lacking.add(tunnel)
        for own, content in zip(items.own, self.now):
            for tunnel, rate in zip(own, content):
                if rate and tunnel in lacking:
                    return f"tunnel {tunnel} carries {rate} and lacks an entry"
                for link in itertools.pairwise(items.tunnels[tunnel]["path"]):
                    loads[link] = loads.get(link, 0) + rate
        for link in items.problem["links"]:
            load = loads.get((link["from"], link["to"]), 0)
            if load > link["capacity"]:
                return f"{link['from']}>{link['to']} carries {load} of {link['capacity']}"
        for switch in items.problem["switches"]:
            if tables.get(switch["name"], 0) > switch["table"]:
                return f"the table of {switch['name']} has {tables[switch['name']]} of {switch['table']}"
        return None
