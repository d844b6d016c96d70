"""Problems whose linear program has its point at fractions: two flows that change places, drawn by a number, and some of these beside three more
flows, on links of their own, whose rates are thirds."""

import collections
import random

# So many problems of two flows, among which there are scales from 1 to 5; these of them have halves in three steps, and sixths beside thirds.
TWO_FLOWS, HALVES = 500, (43, 54, 219, 232)


def split(rng, most):
    return rng.randint(5, most), rng.randint(5, most), rng.randint(0, most), rng.choice((0, 0, 1, 2, 3))


def tunnel(path, old, new, width=None):
    return {"path": path.split(" "), "old": old, "new": new, **({} if width is None else {"width": width})}


def links_of(flows, room):
    """Each link that a tunnel goes along, with the larger of both loads and so much room."""
    loads = collections.defaultdict(lambda: [0, 0])
    for flow in flows:
        for one in flow["tunnels"]:
            for link in zip(one["path"], one["path"][1:]):
                loads[link][0] += one["old"] or 0
                loads[link][1] += one["new"] or 0
    return [{"from": a, "to": b, "capacity": max(load) + room((a, b))} for (a, b), load in loads.items()]


def problem_of(flows, room, tables):
    names = list(dict.fromkeys(name for flow in flows for one in flow["tunnels"] for name in one["path"]))
    return {"format": 2, "switches": [{"name": name, "table": tables} for name in names], "links": links_of(flows, room), "flows": flows}


def two_flows(number):
    """A flow goes from one tunnel to a new one, and another from its first tunnel over to two, of which one shares links with the first flow."""
    rng = random.Random(f"two flows {number}")
    most = rng.choice((20, 40, 100))
    first, second, third, more = split(rng, most)
    fourth = max(0, first + third - second + more)
    flows = [
        {"name": "f", "tunnels": [tunnel("A C D B", None, rng.randint(0, most), 11), tunnel("A X C D B", rng.randint(0, most), None, 3)]},
        {"name": "g", "tunnels": [tunnel("A Y X B", first, 0, 3), tunnel("A Y B", None, second, 1), tunnel("A C D B", third, fourth, 16)]},
    ]
    return problem_of(flows, lambda _: rng.choice((0, 0, 1, 2, rng.randint(0, most // 3))), 64)


def thirds():
    """Three flows whose rates have to be thirds in three steps."""
    capacities = {
        "PQ": 30, "QR": 20, "RS": 21, "ST": 11, "TU": 20, "UV": 24, "SV": 14, "PT": 7, "QT": 12, "UR": 6,
    }
    flows = [
        {"name": "h", "tunnels": [tunnel("P Q R S T U V", 8, 5, 13), tunnel("P Q R S V", 5, 8, 1)]},
        {"name": "i", "tunnels": [tunnel("P T U V", 1, 6, 1), tunnel("P Q T U R S V", 6, 0, 7)]},
        {"name": "j", "tunnels": [tunnel("P Q R S T U V", 0, 3, 1), tunnel("P Q T U V", 3, 0, 3)]},
    ]
    links = [{"from": a, "to": b, "capacity": capacity} for (a, b), capacity in capacities.items()]
    return {"format": 2, "switches": [{"name": name, "table": 64} for name in "PQRSTUV"], "links": links, "flows": flows}


def beside(one, other):
    return {"format": 2, **{key: one[key] + other[key] for key in ("switches", "links", "flows")}}


def problems():
    return [two_flows(number) for number in range(TWO_FLOWS)] + [thirds()] + [beside(two_flows(number), thirds()) for number in HALVES]
