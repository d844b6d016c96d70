"""The page of a plan: the network, what happens in each step, and a row for each link, table and tunnel."""

import html
import json
import math
import os

import places

HERE = os.path.dirname(os.path.abspath(__file__))
# How far the two directions of a link stand from the middle, how many names a step lists, and from which level on a link has its figure beside it.
BESIDE, MOST_NAMES, NEARLY_FULL = 5, 10, 5
# Of a longer name the drawing has the beginning, and the rows all.
LONGEST = 24
LEGEND = ["nothing", "below 25%", "below 50%", "below 75%", "below 90%", "90% or more", "full"]
LINKS = ("What each link carries, in percent of its capacity: at each stage, and in each step (→) the most that it may have to, while some switches have taken "
         "the step and others haven't. Beside the name stands what it has now, in figures{unit}, with ~ where the step changes it. Press a name to mark it in "
         "the network.")
TABLES = "How full the forwarding table of each switch is, in percent of the entries that it can hold."
FLOWS = "The rate of each tunnel at each stage{unit}, and what each step changes."
PLURALS = {"entry": "entries", "switch": "switches"}
POLICY = "default-src 'none'; style-src 'unsafe-inline'; script-src 'unsafe-inline'"


def text_of(file):
    with open(os.path.join(HERE, file), encoding="utf-8") as opened:
        return opened.read()


def shown(name):
    """A name as a person can read it: in JSON's escapes where it has what can't be seen."""
    return name if name and name.isprintable() else json.dumps(name)


def arrow(names):
    return " › ".join(map(shown, names))


def tag(name, words="", **keys):
    """An element; `words` is HTML, and values of keys are text. A key's `_` stands for `-`, and one at its end for nothing."""
    given = "".join(f' {key.rstrip("_").replace("_", "-")}="{html.escape(str(value))}"' for key, value in keys.items() if value is not None)
    return f"<{name}{given}>{words}</{name}>"


def words_at(place, words, **keys):
    """Words in the drawing, with their middle there."""
    return tag("text", html.escape(words), x=f"{place[0]:.1f}", y=f"{place[1]:.1f}", dy="0.35em", **keys)


def counted(number, word):
    return f"{number:,} {word if number == 1 else PLURALS.get(word, word + 's')}"


class Change:
    """A document's flows and tunnels, and what each step does to them."""

    def __init__(self, document):
        self.flows = document["problem"]["flows"]
        self.stages = document["plan"]["stages"]
        self.tunnels = [tunnel for flow in self.flows for tunnel in flow["tunnels"]]
        self.own, end = [], 0
        for flow in self.flows:
            self.own.append(range(end, end + len(flow["tunnels"])))
            end += len(flow["tunnels"])

    def total(self, flow, stage):
        return sum(self.stages[stage]["rates"][tunnel] for tunnel in self.own[flow])

    def moved(self, flow, step):
        """Whether a step changes a rate of the flow."""
        return any(self.stages[step]["rates"][tunnel] != self.stages[step + 1]["rates"][tunnel] for tunnel in self.own[flow])

    def turned(self, step, there):
        """The tunnels that a step installs, or removes."""
        before, after = (self.stages[stage]["installed"] for stage in (step, step + 1))
        return [tunnel for tunnel in range(len(self.tunnels)) if after[tunnel] == there != before[tunnel]]

    def entries(self, tunnels):
        return sum(len(self.tunnels[tunnel]["path"]) * self.tunnels[tunnel].get("width", 1) for tunnel in tunnels)

    def rates_line(self, step, flows, word):
        """What a step does to flows that all shrink, or all move, or all grow."""
        names = [shown(self.flows[flow]["name"]) for flow in flows[:MOST_NAMES]]
        totals = [[self.total(flow, stage) for stage in (step, step + 1)] for flow in flows[:MOST_NAMES]]
        told = [name if before == after else f"{name} ({before:,} to {after:,})" for name, (before, after) in zip(names, totals)]
        more = [f"and {len(flows) - MOST_NAMES:,} more"] if len(flows) > MOST_NAMES else []
        return f"{counted(len(flows), 'flow')} {word if len(flows) > 1 else word + 's'}: {', '.join(told + more)}"

    def happenings(self, step):
        """What a step does, a line for each kind of change."""
        lines = []
        for word, there in (("installed", True), ("removed", False)):
            tunnels = self.turned(step, there)
            lines += [f"{counted(len(tunnels), 'tunnel')} {word} ({counted(self.entries(tunnels), 'entry')})"] if tunnels else []
        more = {flow: self.total(flow, step + 1) - self.total(flow, step) for flow in range(len(self.flows)) if self.moved(flow, step)}
        for word, flows in (("shrink", [flow for flow in more if more[flow] < 0]), ("move", [flow for flow in more if more[flow] == 0]),
                            ("grow", [flow for flow in more if more[flow] > 0])):
            lines += [self.rates_line(step, flows, word)] if flows else []
        return lines or ["nothing changes"]

    def moving(self):
        return sum(any(self.moved(flow, step) for step in range(len(self.stages) - 1)) for flow in range(len(self.flows)))


def title_of(moment, steps):
    """What a moment is called."""
    if moment % 2:
        return f"step {moment // 2} to {moment // 2 + 1}"
    ends = [word for word, there in (("the old split", moment == 0), ("the new split", moment == 2 * steps)) if there]
    return f"stage {moment // 2}" + (f", {' and '.join(ends)}" if ends else "")


def fullest_at(rows, moment):
    """Which link or table has the greatest share at a moment."""
    row = max(rows, key=lambda one: one.share(moment), default=None)
    return f"fullest link {arrow(row.names)}, {row.percent(moment)}%" if row and row.taken[moment] else "no link carries anything"


class Network:
    """The drawing: each link a line from one circle to another, each table a ring around a circle."""

    def __init__(self, loads, said):
        self.loads = loads
        number = {row.names[0]: place for place, row in enumerate(loads.tables)}
        self.ends = [tuple(number[name] for name in row.names) for row in loads.links]
        self.both = set(self.ends)
        self.points = places.places(said, self.ends)
        self.names = [shown(row.names[0]) for row in loads.tables]
        self.short_names = [name if len(name) <= LONGEST else name[:LONGEST - 1] + "…" for name in self.names]

    def aside(self, number):
        """How far a link stands from the middle: links that go both ways stand beside each other."""
        return BESIDE if self.ends[number][::-1] in self.both else 0

    def link(self, number):
        """A line with its arrow, drawn from (0, 0) to the right and then put in its place."""
        one, other = (self.points[end] for end in self.ends[number])
        degrees = math.degrees(math.atan2(other[1] - one[1], other[0] - one[0]))
        begin, aside = places.RADIUS + 3, self.aside(number)
        end = max(begin + 1, math.dist(one, other) - begin)
        line = f"M{begin} {aside}H{max(begin, end - 7):.1f}"
        parts = [tag("title", html.escape(arrow(self.loads.links[number].names))), tag("path", class_="halo", d=line), tag("path", class_="line", d=line),
                 tag("path", class_="head", d="M0 0L-9 -4V4Z", transform=f"translate({end:.1f} {aside})")]
        return tag("g", "".join(parts), id=f"link-{number}", class_="link level-0", transform=f"translate({one[0]:.1f} {one[1]:.1f}) rotate({degrees:.1f})")

    def switch(self, number):
        x, y = self.points[number]
        circles = [tag("circle", class_=kind, r=places.RADIUS + more) for kind, more in (("halo", 6), ("dashes", 4), ("ground", 0))]
        ring = tag("circle", class_="ring", r=places.RADIUS - 2, pathLength=100, transform="rotate(-90)")
        parts = [tag("title", html.escape(self.names[number])), *circles, ring]
        return tag("g", "".join(parts), id=f"table-{number}", class_="switch level-0", transform=f"translate({x:.1f} {y:.1f})")

    def nearly_full(self, rows):
        """The numbers of those that come to 90 percent."""
        return [number for number, row in enumerate(rows) if max(map(row.level, self.loads.moments)) >= NEARLY_FULL]

    def words(self):
        """The names, and a place for the figure of each link and table that comes to 90 percent."""
        put = places.Words(self.points, self.ends)
        for number, name in enumerate(self.short_names):
            yield words_at(put.beside(number, name), name)
        for number in self.nearly_full(self.loads.links):
            yield words_at(put.along(self.ends[number], self.aside(number)), "", class_="figure", id=f"figure-link-{number}")
        for number in self.nearly_full(self.loads.tables):
            yield words_at(put.beside(number, "table 100%"), "", class_="figure", id=f"figure-table-{number}")

    def drawing(self):
        width, height = places.size_of(len(self.points))
        parts = [*map(self.link, range(len(self.ends))), *map(self.switch, range(len(self.points))), *self.words()]
        words = f"The network with the load of each link, which the tables below have in figures: {counted(len(self.points), 'switch')}"
        return tag("svg", "\n".join(parts), viewBox=f"0 0 {width} {height}", style=f"min-width:{0.75 * width:.0f}px", role="img", aria_label=words)


def head_row(first, loads):
    """The heads of a table: what a row is, with what it has now, and each moment."""
    cells = [tag("th", tag("div", tag("span", first) + tag("span", "now"), class_="what"), scope="col")]
    for moment in loads.moments:
        words = f"{moment // 2}" if moment % 2 == 0 else tag("span", "→", aria_hidden="true") + tag("span", title_of(moment, loads.steps), class_="spoken")
        cells.append(tag("th", words, scope="col", class_="step" if moment % 2 else "stage"))
    columns = "<col>" + "".join(f'<col class="{"step" if moment % 2 else "stage"}">' for moment in loads.moments)
    return tag("colgroup", columns) + tag("thead", tag("tr", "".join(cells)))


def load_cell(row, moment):
    percent, taken = row.percent(moment), row.taken[moment]
    words = "&lt;1" if taken and not percent else str(percent)
    return tag("td", words, class_=f"load level-{row.level(moment)}", style=f"--share:{100 * row.share(moment):.1f}%", title=f"{taken} of {row.room}")


def row_head(words, now, marks):
    """A name, which marks what it names in the drawing, and what it has now."""
    name = tag("button", html.escape(words), type="button", data_marks=" ".join(marks), aria_pressed="false")
    return tag("th", tag("div", name + tag("span", class_="now", id=f"now-{now}"), class_="what"), scope="row")


def rows_of(rows, kind, loads):
    """A row for each link or table, those first that come nearest to what they have."""
    for number in sorted(range(len(rows)), key=lambda place: -rows[place].most()):
        row, target = rows[number], f"{kind}-{number}"
        cells = [row_head(arrow(row.names), target, [target])] + [load_cell(row, moment) for moment in loads.moments]
        yield tag("tr", "".join(cells), data_names=json.dumps(row.names))


def tunnel_cell(change, tunnel, moment):
    """At a stage a tunnel's rate, or nothing where it isn't there; in a step, what becomes of it."""
    stage = moment // 2
    rates, there = ([one[key][tunnel] for one in change.stages[stage:stage + 2]] for key in ("rates", "installed"))
    if moment % 2 == 0:
        return tag("td", f"{rates[0]:,}" if there[0] else tag("span", "–", title="not installed"), class_="" if there[0] else "gone")
    if there[0] != there[1]:
        return tag("td", "comes" if there[1] else "goes", class_="becomes")
    return tag("td", f"{rates[1] - rates[0]:+,}".replace("-", "−") if rates[0] != rates[1] else "", class_="becomes")


def flow_rows(change, loads):
    """A group of rows for each flow: its total, and each tunnel with its path."""
    link_at = {tuple(row.names): place for place, row in enumerate(loads.links)}
    for flow, own in enumerate(change.own):
        totals = [change.total(flow, moment // 2) if moment % 2 == 0 else None for moment in loads.moments]
        cells = [tag("th", html.escape(shown(change.flows[flow]["name"])), scope="rowgroup")]
        cells += [tag("td", "" if total is None else f"{total:,}") for total in totals]
        rows = [tag("tr", "".join(cells), class_="flow")]
        for tunnel in own:
            path = change.tunnels[tunnel]["path"]
            width = change.tunnels[tunnel].get("width", 1)
            links = [f"link-{link_at[ends]}" for ends in zip(path, path[1:])]
            head = row_head(arrow(path) + (f", width {width}" if width > 1 else ""), f"tunnel-{tunnel}", links)
            rows.append(tag("tr", head + "".join(tunnel_cell(change, tunnel, moment) for moment in loads.moments)))
        yield group(rows)


def group(rows):
    return tag("tbody", "\n".join(rows))


def table(first, groups, loads, **keys):
    return tag("table", head_row(first, loads) + "\n".join(groups), **keys)


def section(name, title, words, rows):
    scrolled = tag("div", rows, class_="wide", tabindex="0", role="region", aria_label=title)
    return tag("section", tag("h2", title) + tag("p", words, class_="told") + scrolled, id=name)


def summary(change, loads):
    parts = [counted(loads.steps, "step"), counted(len(loads.tables), "switch"), counted(len(loads.links), "link"),
             f"rates change in {change.moving():,} of {counted(len(change.flows), 'flow')}"]
    if loads.fullest:
        ends, most, room, step = loads.fullest
        parts.append(f"fullest link: {arrow(ends)}, {most} of {room} in {title_of(2 * step + 1, loads.steps)}")
    return html.escape(" · ".join(parts))


def legend():
    samples = [tag("span", tag("i", "", class_=f"sample level-{level}") + words) for level, words in enumerate(LEGEND)]
    samples.append(tag("span", tag("i", "", class_="sample level-3 changes") + "dashed: changes in this step"))
    samples.append(tag("span", tag("i", "", class_="sample ring") + "ring: the switch's table"))
    return tag("p", "".join(samples), class_="legend")


def steps_list(titles, happenings):
    rows = [tag("li", tag("button", tag("b", titles[2 * step + 1]) + "".join(tag("span", html.escape(line)) for line in lines), type="button",
                          data_moment=2 * step + 1)) for step, lines in enumerate(happenings)]
    return tag("ol", "".join(rows), class_="steps") if rows else tag("p", "The plan has no step: the old split is the new one.")


def controls(loads):
    slider = f'<input type="range" id="moment" min="0" max="{len(loads.moments) - 1}" value="0" step="1" aria-label="stage or step" autocomplete="off">'
    buttons = [tag("button", sign, type="button", id=name, aria_label=words) for sign, name, words in (("◀", "back", "one back"), ("▶", "on", "one on"))]
    return tag("div", tag("div", buttons[0] + slider + buttons[1], class_="slide") + tag("output", "", for_="moment", id="said", aria_live="polite"),
               class_="controls")


def data(change, loads, titles, happenings):
    """All that the slider changes. Figures are text: JavaScript's numbers are too short for some."""
    said = [f"{'; '.join(happenings[moment // 2]) + '; ' if moment % 2 else ''}{fullest_at(loads.links, moment)}" for moment in loads.moments]

    def taken(rows):
        return [{"room": str(row.room), "taken": list(map(str, row.taken)), "percent": list(map(row.percent, loads.moments)),
                 "level": list(map(row.level, loads.moments)), "changes": list(map(row.changes, loads.moments))} for row in rows]

    tunnels = [[rate_of(change, tunnel, moment) for moment in loads.moments] for tunnel in range(len(change.tunnels))]
    value = {"titles": titles, "said": said, "link": taken(loads.links), "table": taken(loads.tables), "tunnel": tunnels}
    return json.dumps(value, separators=(",", ":")).replace("<", "\\u003c")


def rate_of(change, tunnel, moment):
    """A tunnel's rate at a moment, in words."""
    ends = [change.stages[stage] for stage in range(moment // 2, (moment + 1) // 2 + 1)]
    told = [f"{stage['rates'][tunnel]:,}" if stage["installed"][tunnel] else "not there" for stage in ends]
    return told[0] if len(set(told)) == 1 else " to ".join(told)


def page(name, document, loads, said):
    """The whole page, as text."""
    change = Change(document)
    titles = [title_of(moment, loads.steps) for moment in loads.moments]
    happenings = [change.happenings(step) for step in range(loads.steps)]
    unit = f", in units of 1/{loads.scale} of the document's" if loads.scale > 1 else ""
    title = html.escape(f"Plan of {shown(name)}")
    drawing = tag("div", Network(loads, said).drawing(), class_="wide drawing", tabindex="0", role="region", aria_label="Network")
    network = tag("section", tag("h2", "Network", class_="spoken") + drawing + legend(), id="network")
    steps = tag("section", tag("h2", "What happens") + steps_list(titles, happenings), id="steps")
    links = section("links", "Links", LINKS.format(unit=unit), table("link", [group(rows_of(loads.links, "link", loads))], loads))
    tables = section("tables", "Tables", TABLES, table("switch", [group(rows_of(loads.tables, "table", loads))], loads))
    flows = section("flows", "Flows by tunnel", FLOWS.format(unit=unit), table("flow", flow_rows(change, loads), loads, class_="rates"))
    parts = ("network", "Network"), ("steps", "What happens"), ("links", "Links"), ("tables", "Tables"), ("flows", "Flows")
    ways = tag("nav", "".join(tag("a", words, href=f"#{place}") for place, words in parts), aria_label="parts of the page")
    head = (f'<meta charset="utf-8"><meta name="viewport" content="width=device-width, initial-scale=1"><meta name="color-scheme" content="light dark">'
            f'<meta http-equiv="Content-Security-Policy" content="{POLICY}"><title>{title}</title><style>{text_of("plan_page.css")}</style>')
    body = (tag("header", tag("h1", title) + tag("p", summary(change, loads)) + ways)
            + "<noscript><p>Without scripts the network shows no loads; the tables have all of them.</p></noscript>"
            + tag("main", tag("div", network + steps, class_="top") + controls(loads) + links + tables + flows)
            + f'<script type="application/json" id="plan">{data(change, loads, titles, happenings)}</script><script>{text_of("plan_page.js")}</script>')
    return f'<!DOCTYPE html>\n<html lang="en"><head>{head}</head>\n<body>{body}</body></html>\n'
