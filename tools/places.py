"""Where the switches of a network and their names stand in a picture."""

import itertools
import math

# The picture's size for few switches, the room around them, and how large a switch is drawn.
WIDTH, HEIGHT, SIDE, RADIUS = 800, 520, 64, 11
# Where all switches but those that say their place are put, before they are made to fit.
BOX = (100, 65)
# How many beginnings are tried, and for how many switches in all (a large network is placed once).
BEGINNINGS, PLACED = 12, 200
# How large a letter is, how high a line of them, how far from a switch its name begins, and where around
# it the name may stand, first below and above.
LETTER, LINE, AWAY = 8, 16, RADIUS + 8
AROUND = (90, 270, 0, 180, 45, 135, 225, 315, 20, 160, 200, 340, 70, 110, 250, 290)
# How far a figure is from its line, how much further where the line is steep, and in which part of the way it may stand, first in the middle.
FIGURE, STEEP, PARTS = 10, 12, (0.5, 0.4, 0.6, 0.3, 0.7, 0.2, 0.8)


class Unplaced(Exception):
    """What keeps switches from being placed."""


def size_of(count):
    """The picture's width and height for so many switches."""
    larger = max(1, math.sqrt(count / 30))
    return round(WIDTH * larger), round(HEIGHT * larger)


def places(said, links):
    """The place of each switch in the picture. `said` has the place that a switch asks for, or None; the links are pairs of numbers."""
    points = list(said)
    if None in points:
        found = fitted(turned(drawn(len(said), links)), *BOX)
        points = [there or place for there, place in zip(said, found)]
    width, height = size_of(len(said))
    return [(x + SIDE, y + SIDE / 2) for x, y in fitted(points, width - 2 * SIDE, height - SIDE)]


def fitted(points, width, height):
    """The points scaled, by the same in both directions, and put in the middle of a box."""
    if not points:
        return []
    low = [min(way) for way in zip(*points)]
    wide, high = (max(way) - least for way, least in zip(zip(*points), low))
    scale = min(width / wide if wide else math.inf, height / high if high else math.inf)
    scale = scale if scale < math.inf else 0
    return [((x - low[0]) * scale + (width - wide * scale) / 2, (y - low[1]) * scale + (height - high * scale) / 2) for x, y in points]


def turned(points):
    """The points turned so that they fill a box best."""
    def turn(degrees):
        cosine, sine = math.cos(math.radians(degrees)), math.sin(math.radians(degrees))
        return [(x * cosine - y * sine, x * sine + y * cosine) for x, y in points]

    def room(turned_points):
        wide, high = (max(way) - min(way) for way in zip(*turned_points))
        return min(BOX[0] / max(wide, 1e-9), BOX[1] / max(high, 1e-9))

    return max((turn(degrees) for degrees in range(0, 180, 5)), key=room) if points else []


def drawn(count, links):
    """Places as far from each other as there are hops between the switches, from the beginning that leads to the clearest picture."""
    try:
        import networkx
        import scipy  # noqa: F401 (what places the switches stands on it)
    except ImportError as lacking:
        raise Unplaced(f"has no {lacking.name}: on Debian apt-get install python3-networkx python3-scipy, which are for /usr/bin/python3")
    graph = networkx.Graph()
    graph.add_nodes_from(range(count))
    graph.add_edges_from(links)
    hops, far = dict(networkx.all_pairs_shortest_path_length(graph)), 1 + math.sqrt(count)
    apart = {one: {other: hops[one].get(other, far) for other in range(count)} for one in range(count)}
    found = []
    for begin in beginnings(networkx, graph):
        settled = networkx.kamada_kawai_layout(graph, dist=apart, pos=begin)
        found.append([tuple(map(float, settled[switch])) for switch in range(count)])
    edges = sorted({tuple(sorted(ends)) for ends in links})
    return found[0] if len(found) == 1 else min(found, key=lambda points: unclear(fitted(points, WIDTH, HEIGHT), edges))


def beginnings(networkx, graph):
    """A drawing in which no edges cross, where there is one, and then others that are drawn."""
    count = len(graph)
    is_planar, _ = networkx.check_planarity(graph)
    if is_planar and count:
        yield networkx.planar_layout(graph)
    for number in range(not is_planar, max(1, min(BEGINNINGS, PLACED // max(count, 1)))):
        yield networkx.random_layout(graph, seed=number)


def unclear(points, edges):
    """How much there is of what makes a picture hard to read: edges that cross, and switches beside edges that aren't theirs."""
    crossings = sum(crosses(points, one, other) for one, other in itertools.combinations(edges, 2))
    beside = sum(distance(points[switch], points[a], points[b]) < 2.5 * RADIUS for a, b in edges for switch in range(len(points)) if switch not in (a, b))
    return crossings + 2 * beside


def side(a, b, c):
    """On which side of the line from a to b the point c is."""
    return (b[0] - a[0]) * (c[1] - a[1]) - (b[1] - a[1]) * (c[0] - a[0])


def cuts(a, b, c, d):
    """Whether the way from a to b crosses that from c to d."""
    return side(a, b, c) * side(a, b, d) < 0 and side(c, d, a) * side(c, d, b) < 0


def crosses(points, one, other):
    return not set(one) & set(other) and cuts(*(points[end] for end in one + other))


def distance(point, a, b):
    """How far a point is from the way from a to b."""
    long = math.dist(a, b)
    if not long:
        return math.dist(point, a)
    along = max(0, min(1, ((point[0] - a[0]) * (b[0] - a[0]) + (point[1] - a[1]) * (b[1] - a[1])) / long ** 2))
    return math.dist(point, (a[0] + along * (b[0] - a[0]), a[1] + along * (b[1] - a[1])))


class Box:
    """The box around words in the picture."""

    def __init__(self, x, y, letters, letter=LETTER):
        self.middle = x, y
        self.corners = x - letters * letter / 2, y - LINE / 2, x + letters * letter / 2, y + LINE / 2

    def over(self, other):
        """How much of another box this one covers."""
        a, b = self.corners, other.corners
        return max(0, min(a[2], b[2]) - max(a[0], b[0])) * max(0, min(a[3], b[3]) - max(a[1], b[1]))

    def holds(self, x, y, more=0):
        left, top, right, bottom = self.corners
        return left - more < x < right + more and top - more < y < bottom + more

    def under(self, a, b):
        """Whether the way from a to b goes through the box."""
        left, top, right, bottom = self.corners
        if max(a[0], b[0]) < left or min(a[0], b[0]) > right or max(a[1], b[1]) < top or min(a[1], b[1]) > bottom:
            return False
        ends = [(left, top), (right, top), (right, bottom), (left, bottom)]
        return self.holds(*a) or self.holds(*b) or any(cuts(a, b, c, d) for c, d in zip(ends, ends[1:] + ends[:1]))

    def outside(self, width, height):
        left, top, right, bottom = self.corners
        return max(0, -left) + max(0, -top) + max(0, right - width) + max(0, bottom - height)


class Words:
    """Puts words into the picture, one after the other, where they hide least."""

    def __init__(self, points, links):
        self.points, self.edges, self.boxes = points, sorted({tuple(sorted(ends)) for ends in links}), []
        self.size = size_of(len(points))

    def hidden(self, box):
        lines = sum(box.under(self.points[a], self.points[b]) for a, b in self.edges)
        switches = sum(box.holds(*point, RADIUS) for point in self.points)
        return 3 * lines + 20 * switches + sum(box.over(other) for other in self.boxes) / 10 + box.outside(*self.size)

    def put(self, boxes):
        """The middle of the best of these boxes."""
        self.boxes.append(min(boxes, key=self.hidden))
        return self.boxes[-1].middle

    def beside(self, switch, name):
        """A name beside its switch."""
        x, y = self.points[switch]
        ways = [(math.cos(math.radians(degrees)), math.sin(math.radians(degrees))) for degrees in AROUND]
        return self.put([Box(x + across * (AWAY + len(name) * LETTER / 2), y + down * (AWAY + LINE / 2), len(name)) for across, down in ways])

    def along(self, ends, aside):
        """A figure of percent on the right of a line from one switch to another, so far aside of it, and further where it is steep."""
        (x, y), (to_x, to_y) = (self.points[end] for end in ends)
        long = math.dist((x, y), (to_x, to_y)) or 1
        across, down = (to_x - x) / long, (to_y - y) / long
        away = aside + FIGURE + STEEP * abs(down)
        return self.put([Box(x + part * (to_x - x) - away * down, y + part * (to_y - y) + away * across, 4, 9) for part in PARTS])
