"""The items of a document by their numbers, as `swanroll explain` tells them (docs/TEXTS.md has its lines)."""

import collections
import json
import re

# A flow's split has a flow and neither a tunnel nor a hop, and an entry a tunnel and the place of its switch on the path.
Item = collections.namedtuple("Item", "number switch flow tunnel hop")

NAME = r'"(?:[^"\\]|\\.)*"'
SPLIT = re.compile(rf"item (\d+): flow ({NAME}) at ({NAME}|none), operations \d+")
ENTRY = re.compile(rf"item (\d+): entry at ({NAME}) of flow ({NAME}) tunnel (\d+) ({NAME}(?:>{NAME})*), operations \d+")


def items_of(explained):
    """The items in the order of their numbers, from what `explain` printed: the flows, and then the entries of each tunnel. Tunnels are numbered through
    all flows here, as a plan's rates are."""
    flows, tunnels, items = {}, {}, []
    for line in explained.split("\n"):
        if split := SPLIT.fullmatch(line):
            number, name, home = split.groups()
            items.append(Item(int(number), None if home == "none" else json.loads(home), flows.setdefault(name, len(flows)), None, None))
        elif entry := ENTRY.fullmatch(line):
            number, switch, name, place, path = entry.groups()
            hop = re.findall(NAME, path).index(switch)
            items.append(Item(int(number), json.loads(switch), flows[name], tunnels.setdefault((name, place), len(tunnels)), hop))
    if [item.number for item in items] != list(range(len(items))):
        raise ValueError("the items that were told aren't numbered from 0")
    return items
