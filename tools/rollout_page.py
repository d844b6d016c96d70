"""The page of a rollout: its operations by switch from intent to answer, how much of each stage is settled, and the fullest links, over time."""

import html
import json
import statistics

from plan_page import arrow, counted, shown, tag, text_of
from rollout_loads import Places, Running

# The drawing: how wide it is, where time begins and ends in it, how high a lane and the room between switches are, and how high the lower pictures.
WIDTH, LEFT, RIGHT, LANE, BETWEEN, HIGH = 1320, 150, 1130, 9, 6, 100
# How wide a letter of the small words is.
LETTER = 4.6
# How many links have a line, and how many times as long as the median of all a switch takes that is called slow.
MOST_LINKS, SLOW = 8, 3
POLICY = "default-src 'none'; style-src 'unsafe-inline'"
KINDS = {"rates": "a flow's rates change", "install": "an entry is installed", "remove": "an entry is removed"}
WORDS = {"ms": "Milliseconds since the first line of the log; the time between two runs is left out, and a dashed line stands there.",
         "entries": "A journal has no times: entries of its list, in their order. A log has milliseconds.",
         "acts": "Acts of the script, in their order. An operation that only an act for all of them carried isn't told of, and isn't shown."}


def in_units(number, unit):
    return f"{number:,} {unit}" if number != 1 or unit == "ms" else f"1 {unit[:-1] if unit != 'entries' else 'entry'}"


def rect(x, y, width, height, words="", **keys):
    return tag("rect", words, x=f"{x:.1f}", y=f"{y:.1f}", width=f"{max(width, 0.8):.1f}", height=f"{height:.1f}", **keys)


def line(x, y, to_x, to_y, **keys):
    return tag("line", x1=f"{x:.1f}", y1=f"{y:.1f}", x2=f"{to_x:.1f}", y2=f"{to_y:.1f}", **keys)


def label(words, x, y, **keys):
    return tag("text", html.escape(words), x=f"{x:.1f}", y=f"{y:.1f}", dy="0.35em", **keys)


class Picture:
    """The operations with their moments, and all that is worked out of them."""

    def __init__(self, document, loads, told):
        self.told, self.unit, self.end = told, told.course.unit, max(1, told.end)
        self.places = Places(document, loads)
        self.running = Running(self.places, told).run()
        self.shown = [one for one in told.operations.values() if one.begun is not None]
        self.medians = self.medians_of()
        self.chain = self.longest_chain()

    def took(self, one):
        return (self.told.end if one.settled is None else one.settled) - one.begun

    def home(self, one):
        return self.places.homes[one.item]

    def medians_of(self):
        """Of each switch, how long an operation that is settled took there."""
        found = {}
        for one in self.shown:
            if one.settled is not None:
                found.setdefault(self.home(one), []).append(self.took(one))
        return {switch: statistics.median(taken) for switch, taken in found.items()}

    def median(self):
        taken = [self.took(one) for one in self.shown if one.settled is not None]
        return statistics.median(taken) if taken else 0

    def slow(self):
        """The switches that take several times as long as the median of all, which only times can tell."""
        if self.unit != "ms":
            return []
        return sorted((switch for switch, median in self.medians.items() if median > SLOW * max(1, self.median())), key=lambda switch: -self.medians[switch])

    def longest_chain(self):
        """The operations that ended last, each behind the one that it had to wait for last; the first of them first."""
        done = [one for one in self.shown if one.settled is not None]
        one, chain = max(done, key=lambda other: (other.settled, other.item, other.number), default=None), []
        while one is not None:
            chain.insert(0, one)
            one = self.waited_for(one)
        return chain

    def waited_for(self, one):
        """What was settled last of that which an operation needed; where it waited for room, the operation that gave up some of it last."""
        cause = self.told.cause(one)
        if (one.item, one.number) in self.running.blocked:
            _, place = self.running.blocked[one.item, one.number]
            givers = [other for other in self.shown if other is not one and other.settled is not None and 0 < other.settled <= one.begun and self.gives(other, place)]
            cause = max([*givers, *([cause] if cause else [])], key=lambda other: other.settled, default=None)
        return cause

    def gives(self, one, place):
        flying, settled = self.places.by_place(one).get(place, (0, 0))
        return settled < flying

    def what(self, one):
        """An operation, in words."""
        name = self.places.names[one.item]
        if one.what == "rates":
            return f"flow {shown(name)} to stage {one.stage}"
        flow, path = name
        return f"{one.what} entry of {shown(flow)}, tunnel {arrow(path)}"

    def place_name(self, place):
        row = self.places.rows[place]
        return arrow(row.names) if place < self.places.links else f"the table of {shown(row.names[0])}"

    def waited(self, one):
        """From when on an operation might have begun but for room, and where that wasn't; None where it waited for none."""
        return self.running.blocked.get((one.item, one.number))


class Lanes:
    """The operations of one switch, each in the first lane that is free, and where it stands."""

    def __init__(self, picture, operations):
        self.free, self.at = [], {}
        for one in sorted(operations, key=lambda other: (self.start(picture, other), other.item, other.number)):
            end = picture.told.end if one.settled is None else one.settled
            lane = next((lane for lane, until in enumerate(self.free) if until <= self.start(picture, one)), None)
            if lane is None:
                lane = len(self.free)
                self.free.append(0)
            self.free[lane] = max(end, self.start(picture, one) + picture.end / 400)
            self.at[one.item, one.number] = lane

    def start(self, picture, one):
        wait = picture.waited(one)
        return min(one.begun, wait[0]) if wait else one.begun

    def height(self):
        return LANE * max(1, len(self.free)) + BETWEEN


class Drawing:
    def __init__(self, picture):
        self.picture, self.scale = picture, (RIGHT - LEFT) / picture.end

    def x(self, moment):
        return LEFT + self.scale * moment

    def ticks(self):
        """The moments that have a line, at most eight."""
        step = next(size for power in range(20) for size in (10 ** power, 2 * 10 ** power, 5 * 10 ** power) if self.picture.end / size <= 8)
        return range(0, self.picture.end + 1, step)

    def grid(self, top, bottom):
        lines = [line(self.x(moment), top, self.x(moment), bottom, class_="grid") for moment in self.ticks()]
        return lines + [line(self.x(moment), top, self.x(moment), bottom, class_="again") for moment in self.picture.told.course.starts]

    def svg(self, name, parts, height, words):
        return tag("div", tag("svg", "\n".join(parts), viewBox=f"0 0 {WIDTH} {height:.0f}", role="img", aria_label=words), class_="wide", id=name, tabindex="0", role="region",
                   aria_label=words)

    # ---- the operations

    def groups(self):
        """The operations of each switch that has some; the switch that ended last stands first."""
        found = {}
        for one in self.picture.shown:
            found.setdefault(self.picture.home(one), []).append(one)
        return sorted(found.items(), key=lambda pair: (-max(self.picture.told.end if one.settled is None else one.settled for one in pair[1]), pair[0]))

    def bar(self, one, y):
        """An operation as a bar, with the wait in front of it."""
        picture, wait = self.picture, self.picture.waited(one)
        words = f"{picture.what(one)}: {picture.unit} {one.begun:,} to {'-' if one.settled is None else f'{one.settled:,}'}"
        if wait and wait[0] < one.begun:
            words += f"; from {wait[0]:,} on it waited for room on {picture.place_name(wait[1])}"
            wide, name = self.scale * (one.begun - wait[0]), f"room on {picture.place_name(wait[1])}"
            yield rect(self.x(wait[0]), y + 1, wide, LANE - 3, tag("title", html.escape(words)), fill="url(#hatch)", class_="wait")
            if wide > LETTER * len(name):
                yield label(name, self.x(wait[0]) + wide / 2, y + LANE / 2 - 0.5, class_="room")
        classes = one.what + (" flying" if one.settled is None else "") + (" chain" if one in picture.chain else "")
        yield rect(self.x(one.begun), y, self.scale * picture.took(one), LANE - 1.5, tag("title", html.escape(words)), class_=classes, data_op=f"{one.item} {one.number}")

    def side(self, switch, operations, y):
        """How many operations there are at a switch, and how long one takes."""
        median, slow = self.picture.medians.get(switch), switch in self.picture.slow()
        words = counted(len(operations), "op") + (f", median {in_units(round(median), self.picture.unit)}" if median is not None else "")
        yield label(shown(switch) if len(shown(switch)) < 24 else shown(switch)[:22] + "…", LEFT - 10, y, class_="name slow" if slow else "name")
        yield label(words, RIGHT + 8, y, class_="slow" if slow else None)

    def operations(self):
        top, parts, places = 26, [], {}
        for number, (switch, operations) in enumerate(self.groups()):
            lanes = Lanes(self.picture, operations)
            if number % 2 == 0:
                parts.append(rect(0, top - BETWEEN / 2, WIDTH, lanes.height(), class_="band"))
            parts += self.side(switch, operations, top + lanes.height() / 2 - BETWEEN / 2)
            for one in operations:
                places[one.item, one.number] = top + LANE * lanes.at[one.item, one.number]
            top += lanes.height()
        grid = self.grid(18, top) + [label(in_units(moment, self.picture.unit) if moment else "0", self.x(moment), 8, class_="tick") for moment in self.ticks()]
        bars = [part for one in self.picture.shown for part in self.bar(one, places[one.item, one.number])]
        hatch = tag("defs", tag("pattern", line(0, 0, 0, 6, class_="hatch"), id="hatch", width=6, height=6, patternUnits="userSpaceOnUse", patternTransform="rotate(45)"))
        return self.svg("operations", [hatch, *parts, *grid, *bars, *self.links(places)], top + 4, "Operations by switch over time; the table below has all of them")

    def links(self, places):
        """From each operation of the longest chain to the next one."""
        for one, other in zip(self.picture.chain, self.picture.chain[1:]):
            x, y = self.x(one.settled), places[one.item, one.number] + LANE / 2
            to_x, to_y = self.x(other.begun), places[other.item, other.number] + LANE / 2
            yield tag("path", d=f"M{x:.1f} {y:.1f}C{x + 8:.1f} {(y + to_y) / 2:.1f} {to_x - 8:.1f} {(y + to_y) / 2:.1f} {to_x:.1f} {to_y:.1f}", class_="chain")

    # ---- courses over time

    def course(self, steps, number, name, values):
        """A line that goes from step to step; each is a moment and a share."""
        path, last = f"M{self.x(0):.1f} {self.height_of(steps[0][1]):.1f}", steps[0][1]
        for moment, share in steps[1:]:
            path += f"H{self.x(moment):.1f}V{self.height_of(share):.1f}"
            last = share
        path += f"H{RIGHT}"
        return tag("path", tag("title", html.escape(name)), d=path, class_=f"course line-{number % 8}", data_name=name, data_steps=json.dumps(values)), self.height_of(last)

    def height_of(self, share):
        return 12 + HIGH * (1 - share)

    def courses(self, name, rows, words):
        """Courses with their names at the right, each near its end, in the order of these."""
        parts, ends = self.grid(12, 12 + HIGH), []
        for percent in (0, 25, 50, 75, 100):
            y = self.height_of(percent / 100)
            parts += [line(LEFT, y, RIGHT, y, class_="grid"), label(f"{percent} %", LEFT - 8, y, class_="level")]
        for number, (title, steps, values) in enumerate(rows):
            drawn, y = self.course(steps, number, title, values)
            parts.append(drawn)
            ends.append((y, number, title))
        y = 0
        for at, number, title in sorted(ends):
            y = max(at, y + 12)
            parts.append(label(title, RIGHT + 8, y, class_=f"line-{number % 8}"))
        return self.svg(name, parts, max(HIGH + 24, y + 12), words)

    def settled(self):
        told, rows = self.picture.told, []
        for stage in range(1, told.explained.stages + 1):
            every = [one for one in told.operations.values() if one.stage == stage]
            moments = sorted(one.settled for one in every if one.settled is not None)
            before = sum((one.item, one.number) in told.before for one in every)
            if every:
                steps = [(0, before / len(every))] + [(moment, (before + count) / len(every)) for count, moment in enumerate(moments, 1)]
                rows.append((f"stage {stage}", steps, [[0, before]] + [[moment, before + count] for count, moment in enumerate(moments, 1)]))
        return self.courses("settled", rows, "How many of the operations that lead to each stage are settled, in percent")

    def fullest(self):
        rows = []
        for place in self.picture.running.fullest(MOST_LINKS):
            row, steps = self.picture.places.rows[place], self.picture.running.steps[place]
            rows.append((arrow(row.names), [(moment, min(1, taken / max(1, row.room))) for moment, taken in steps], [[moment, str(taken)] for moment, taken in steps]))
        return self.courses("fullest", rows, "The links that came nearest to what they have, in percent of it") if rows else tag("p", "No link changes.", id="fullest")


def legend():
    samples = [tag("span", tag("svg", rect(0, 1, 22, 8, class_=kind)) + words) for kind, words in KINDS.items()]
    samples.append(tag("span", tag("svg", rect(0, 1, 22, 8, fill="url(#hatch)")) + "may begin but for room"))
    samples.append(tag("span", tag("svg", rect(1, 1, 20, 8, class_="chain", fill="none")) + "the chain that took longest"))
    return tag("p", "".join(samples), class_="legend")


def summary(picture):
    told = picture.told
    settled = sum(one.settled is not None for one in picture.shown) + len(told.before)
    flying = sum(one.settled is None for one in picture.shown)
    waited = sum(wait[0] < told.operations[place].begun for place, wait in picture.running.blocked.items() if told.operations[place].begun is not None)
    parts = [f"{settled:,} of {counted(len(told.operations), 'operation')} settled", f"in {in_units(told.end, picture.unit)}"]
    if told.before:
        parts.insert(1, f"{len(told.before):,} before the first line")
    if picture.unit == "ms":
        parts.append(f"median of one {in_units(round(picture.median()), 'ms')}")
    parts += [f"{waited:,} waited for room", f"{flying:,} in flight"]
    slow = [f"{shown(switch)} (median {in_units(round(picture.medians[switch]), 'ms')})" for switch in picture.slow()]
    return html.escape(" · ".join(parts)) + (" · " + tag("span", html.escape("slow: " + ", ".join(slow)), class_="slow") if slow else "")


def chain_list(picture):
    rows = []
    for one in picture.chain:
        wait = picture.waited(one)
        words = f" {picture.what(one)}, at {shown(picture.home(one))} "
        if wait and wait[0] < one.begun:
            words += f"(waited {in_units(one.begun - wait[0], picture.unit)} for room on {picture.place_name(wait[1])}) "
        rows.append(tag("li", tag("b", in_units(one.begun, picture.unit)) + html.escape(words) + tag("span", in_units(picture.took(one), picture.unit), class_="told")))
    return tag("ol", "".join(rows), id="chain") if rows else tag("p", "Nothing is settled.", id="chain")


def operation_rows(picture):
    for one in sorted(picture.shown, key=lambda other: (other.begun, other.item, other.number)):
        wait = picture.waited(one)
        waited = f"{in_units(one.begun - wait[0], picture.unit)}: {picture.place_name(wait[1])}" if wait and wait[0] < one.begun else ""
        cells = [tag("td", str(number), class_="count") for number in (one.item, one.number)] + [tag("td", html.escape(picture.what(one))), tag("td", html.escape(shown(picture.home(one))))]
        cells += [tag("td", "" if moment is None else f"{moment:,}", class_="count") for moment in (one.begun, one.settled)] + [tag("td", html.escape(waited))]
        yield tag("tr", "".join(cells), data_row=f"{one.item} {one.number}")


def table(picture):
    heads = "".join(tag("th", words, scope="col") for words in ("item", "operation", "what", "at", "begun", "settled", "waited for room"))
    return tag("div", tag("table", tag("thead", tag("tr", heads)) + tag("tbody", "\n".join(operation_rows(picture)))), class_="wide", tabindex="0", role="region", aria_label="All operations")


def page(name, document, loads, told):
    """The whole page, as text."""
    picture = Picture(document, loads, told)
    drawing = Drawing(picture)
    title = html.escape(f"Rollout of {shown(name)}")
    head = (f'<meta charset="utf-8"><meta name="viewport" content="width=device-width, initial-scale=1"><meta name="color-scheme" content="light dark">'
            f'<meta http-equiv="Content-Security-Policy" content="{POLICY}"><title>{title}</title><style>{text_of("rollout_page.css")}</style>')
    body = (tag("header", tag("h1", title) + tag("p", summary(picture)) + legend())
            + tag("main", tag("h2", "Operations by switch, from the intent in the journal to the answer; the switch that ended last stands first")
                  + tag("p", WORDS[picture.unit], class_="told") + drawing.operations()
                  + tag("h2", "Settled, by stage") + drawing.settled()
                  + tag("h2", "Fullest links: the most that each may have had to carry, as a share of what it has") + drawing.fullest()
                  + tag("h2", "The chain that took longest") + chain_list(picture)
                  + tag("h2", "All operations") + table(picture)))
    return f'<!DOCTYPE html>\n<html lang="en"><head>{head}</head>\n<body>{body}</body></html>\n'
