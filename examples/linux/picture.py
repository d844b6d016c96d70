"""The picture: each way a column, each busy link a strip of its load over time, and the lost packets below. One file, an SVG, which any browser shows."""

from xml.sax.saxutils import escape

from figures import LIMIT, figures, shares

WIDTH, GAP, STRIP, SPACE, TOP, LEFT, MOST = 420, 40, 64, 18, 86, 175, 1.5
LINKS, BIN = 6, 0.1
STYLE = ("text{font:12px sans-serif;fill:#222}.title{font-size:16px;font-weight:bold}.small{font-size:10px;fill:#666}.told{fill:#b9770e;font-size:10px}"
         ".load{fill:#9db8d2}.over,.lost{fill:#c0392b}.full{stroke:#555;stroke-width:.7;stroke-dasharray:3 2}.frame{fill:none;stroke:#ccc}"
         ".tick{stroke:#666}.mark{stroke:#d68910;stroke-width:1.5}")
LEGEND = ("the load of a link, 0 to 150%", "of its capacity, which is the", "broken line")


def busiest(results):
    """The links with the greatest loads in any way, in the document's order."""
    most = {}
    for result in results:
        for load in result["loads"]:
            most[load["link"]] = max([most.get(load["link"], 0.0), *(share for _, share in shares(result, load))])
    chosen = sorted(most, key=most.get, reverse=True)[:LINKS]
    return [link for link in most if link in chosen]


def corners(points):
    """The points without those between two of the same height."""
    middle = [here for before, here, behind in zip(points, points[1:], points[2:]) if not before[1] == here[1] == behind[1]]
    return [points[0], *middle, points[-1]]


class Column:
    """One way's strips, from a left edge on."""

    def __init__(self, result, left, seconds, most_lost):
        self.result, self.left, self.seconds, self.most_lost, self.parts = result, left, seconds, most_lost, []

    def x(self, moment):
        return self.left + WIDTH * min(moment, self.seconds) / self.seconds

    def title(self):
        row = figures(self.result)
        self.text(self.left, 24, row["way"], "title")
        self.text(self.left, 44, f"{row['lost']:,} of {row['sent']:,} packets lost: {row['full']:,} at full links, {row['no_entry']:,} without an entry")
        self.text(self.left, 60, f"at most {100 * row['most']:.0f}% on a link, {row['above']:.2f} s above 105%, {row['seconds']:.1f} s in all")

    def text(self, x, y, words, kind=""):
        self.parts.append(f'<text x="{x:.1f}" y="{y:.1f}" class="{kind}">{escape(words)}</text>')

    def line(self, x1, y1, x2, y2, kind):
        self.parts.append(f'<line x1="{x1:.1f}" y1="{y1:.1f}" x2="{x2:.1f}" y2="{y2:.1f}" class="{kind}"/>')

    def frame(self, top):
        self.parts.append(f'<rect x="{self.left}" y="{top}" width="{WIDTH}" height="{STRIP}" class="frame"/>')

    def load(self, link, top):
        """The load, with what lies above 105% in red, and a broken line at the capacity."""
        load = next(load for load in self.result["loads"] if load["link"] == link)
        points = self.thinned(shares(self.result, load))
        self.area("load", points, top)
        self.area("over", [(x, share if share > LIMIT else 0.0) for x, share in points], top)
        full = top + STRIP * (1 - 1 / MOST)
        self.line(self.left, full, self.left + WIDTH, full, "full")
        self.frame(top)

    def area(self, kind, points, top):
        """What lies below a line of loads; nothing where there was no reading."""
        if points:
            edge = corners([(x, round(top + STRIP * (1 - min(share, MOST) / MOST))) for x, share in points])
            shape = " ".join(f"{x},{y}" for x, y in [(edge[0][0], top + STRIP), *edge, (edge[-1][0], top + STRIP)])
            self.parts.append(f'<polygon class="{kind}" points="{shape}"/>')

    def thinned(self, points):
        """The greatest of the points at each dot of the picture."""
        most = {}
        for moment, share in points:
            if moment <= self.seconds:
                dot = round(self.x(moment))
                most[dot] = max(most.get(dot, 0.0), share)
        return list(most.items())

    def lost(self, top):
        """The lost packets, by when they were sent."""
        bins = {}
        for moment in self.result["lost"]:
            number = int((moment - self.result["begun"]) / BIN)
            bins[number] = bins.get(number, 0) + 1
        for number, count in bins.items():
            height = STRIP * count / self.most_lost
            width = max(1.0, WIDTH * BIN / self.seconds - 0.5)
            self.parts.append(f'<rect class="lost" x="{self.x(number * BIN):.1f}" y="{top + STRIP - height:.1f}" width="{width:.1f}" height="{height:.1f}"/>')
        self.frame(top)

    def axis(self, y):
        """The seconds, as many as find room."""
        step = next(step for step in (1, 2, 5, 10, 20, 50, 100) if self.seconds / step <= 8)
        for second in range(0, int(self.seconds) + 1, step):
            self.line(self.x(second), y - 12, self.x(second), y - 9, "tick")
            self.text(self.x(second) - 3, y, f"{second} s", "small")

    def marks(self, bottom):
        """Where something was killed, and the end."""
        ends = [(self.result["ended"], f"end, {self.result['ended'] - self.result['begun']:.1f} s")]
        kills = [(moment, f"kill -9: {what}") for moment, what in self.result["kills"]]
        for row, (moment, what) in enumerate(kills + ends):
            x = self.x(moment - self.result["begun"])
            self.line(x, TOP - 4, x, bottom + 12 * row + 4, "mark" if row < len(kills) else "full")
            self.text(min(x + 4, self.left + WIDTH - 6 * len(what)), bottom + 12 * row + 6, what, "told" if row < len(kills) else "small")


def lost_in_a_bin(results):
    """The most packets lost in one bin of any way."""
    counts = {}
    for number, result in enumerate(results):
        for moment in result["lost"]:
            key = number, int((moment - result["begun"]) / BIN)
            counts[key] = counts.get(key, 0) + 1
    return max([1, *counts.values()])


def picture(results):
    """The text of the picture."""
    links, most_lost = busiest(results), lost_in_a_bin(results)
    seconds = max(result["ended"] - result["begun"] for result in results) + 0.3
    bottom = TOP + (len(links) + 1) * (STRIP + SPACE)
    parts = [f'<text x="8" y="{TOP + row * (STRIP + SPACE) + STRIP / 2:.0f}">{escape(name)}</text>' for row, name in enumerate([*links, "lost packets"])]
    parts.append(f'<text class="small" x="8" y="{TOP + len(links) * (STRIP + SPACE) + STRIP / 2 + 14:.0f}">up to {most_lost:,} in 0.1 s</text>')
    parts += [f'<text class="small" x="8" y="{38 + 12 * row}">{words}</text>' for row, words in enumerate(LEGEND)]
    for number, result in enumerate(results):
        column = Column(result, LEFT + number * (WIDTH + GAP), seconds, most_lost)
        column.title()
        for row, link in enumerate(links):
            column.load(link, TOP + row * (STRIP + SPACE))
        column.lost(TOP + len(links) * (STRIP + SPACE))
        column.axis(bottom - SPACE + 12)
        column.marks(bottom + 12)
        parts += column.parts
    width, height = LEFT + len(results) * (WIDTH + GAP), bottom + 62
    head = f'<svg xmlns="http://www.w3.org/2000/svg" viewBox="0 0 {width} {height}" width="{width}" height="{height}">'
    return f'{head}<style>{STYLE}</style><rect width="100%" height="100%" fill="white"/>\n' + "\n".join(parts) + "\n</svg>\n"
