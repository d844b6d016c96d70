"""Every fault of an input at every kind of place, and of two faults the one that is told: runs the program on each input and
compares its status and its line.

    python3 tests/faults.py PROGRAM
"""

import copy
import json
import subprocess
import sys

from outcomes import report

DOCUMENT = {
    "problem": {
        "format": 2,
        "switches": [{"name": name, "table": 100} for name in "ABCD"],
        "links": [{"from": a, "to": b, "capacity": 10} for a, b in ("AB", "BC", "AC", "CB")],
        "flows": [
            {"name": "f", "tunnels": [{"path": ["A", "B"], "old": 4, "new": 1, "width": 2}, {"path": ["A", "C", "B"], "old": 0, "new": 3, "width": 1}]},
            {"name": "g", "tunnels": [{"path": ["A", "C"], "old": None, "new": 1, "width": 1}]},
        ],
    },
    "plan": {"scale": 1, "stages": [
        {"installed": [True, True, False], "rates": [4, 0, 0]},
        {"installed": [True, True, True], "rates": [4, 0, 0]},
        {"installed": [True, True, True], "rates": [1, 3, 1]},
    ]},
    "script": [["round"], ["send", 0], ["crash", "lost"]],
}
PROBLEM, PLAN = ("problem",), ("plan",)
SWITCH, LINK, FLOW = PROBLEM + ("switches", 1), PROBLEM + ("links", 1), PROBLEM + ("flows", 0)
TUNNEL, STAGE = FLOW + ("tunnels", 1), PLAN + ("stages", 2)

# An object, with its keys in the order in which they are read; a list, with how many elements it may have; a text, with how many
# bytes; a number, with its limit; a mark.
OBJECT, LIST, TEXT, NUMBER, MARK = "object", "list", "text", "number", "mark"
PLACES = [
    ("top", (), OBJECT, ("problem", "plan", "script")),
    ("problem", PROBLEM, OBJECT, ("switches", "links", "flows")),
    ("format", PROBLEM + ("format",), NUMBER, None),
    ("switches", PROBLEM + ("switches",), LIST, 1024),
    ("switches[1]", SWITCH, OBJECT, ("name", "table")),
    ("switches[1].name", SWITCH + ("name",), TEXT, 128),
    ("switches[1].table", SWITCH + ("table",), NUMBER, 1000000),
    ("links", PROBLEM + ("links",), LIST, 2048),
    ("links[1]", LINK, OBJECT, ("from", "to", "capacity")),
    ("links[1].from", LINK + ("from",), TEXT, None),
    ("links[1].to", LINK + ("to",), TEXT, None),
    ("links[1].capacity", LINK + ("capacity",), NUMBER, 1000000000000),
    ("flows", PROBLEM + ("flows",), LIST, 1024),
    ("flows[0]", FLOW, OBJECT, ("name", "tunnels")),
    ("flows[0].name", FLOW + ("name",), TEXT, 128),
    ("flows[0].tunnels", FLOW + ("tunnels",), LIST, 16),
    ("flows[0].tunnels[1]", TUNNEL, OBJECT, ("path", "old", "new", "width")),
    ("flows[0].tunnels[1].path", TUNNEL + ("path",), LIST, 17),
    ("flows[0].tunnels[1].path[1]", TUNNEL + ("path", 1), TEXT, None),
    ("flows[0].tunnels[1].old", TUNNEL + ("old",), NUMBER, 1000000000),
    ("flows[0].tunnels[1].new", TUNNEL + ("new",), NUMBER, 1000000000),
    ("flows[0].tunnels[1].width", TUNNEL + ("width",), NUMBER, 16),
    ("plan", PLAN, OBJECT, ("scale", "stages")),
    ("plan.scale", PLAN + ("scale",), NUMBER, 65536),
    ("plan.stages", PLAN + ("stages",), LIST, 256),
    ("plan.stages[2]", STAGE, OBJECT, ("installed", "rates")),
    ("plan.stages[2].installed", STAGE + ("installed",), LIST, 4096),
    ("plan.stages[2].installed[1]", STAGE + ("installed", 1), MARK, None),
    ("plan.stages[2].rates", STAGE + ("rates",), LIST, 4096),
    ("plan.stages[2].rates[1]", STAGE + ("rates", 1), NUMBER, 65536000000000),
    ("script", ("script",), LIST, 100000),
]
SAMPLES = {OBJECT: "{}", LIST: "[]", TEXT: '"x"', NUMBER: "1", MARK: "true", "null": "null"}
NO_WHOLE_NUMBERS = ("1.5", "-1", "-0", "1.0", "1e3", "18446744073709551616")


class Raw(str):
    """JSON text that is to stand as it is."""


def text_of(document):
    """The document as JSON text, where each Raw stands as it is."""
    raw = []

    def marked(value):
        if isinstance(value, Raw):
            raw.append(value)
            return f"\0{len(raw) - 1}\0"
        if isinstance(value, dict):
            return {key: marked(inner) for key, inner in value.items()}
        return [marked(inner) for inner in value] if isinstance(value, list) else value

    text = json.dumps(marked(document))
    for number, value in enumerate(raw):
        text = text.replace(json.dumps(f"\0{number}\0"), value)
    return text


def at(document, path):
    for key in path:
        document = document[key]
    return document


def put(value, path, document=None):
    """A copy of the document with a value at a path."""
    if not path:
        return value
    document = copy.deepcopy(DOCUMENT if document is None else document)
    at(document, path[:-1])[path[-1]] = value
    return document


def without(path, key):
    document = copy.deepcopy(DOCUMENT)
    del at(document, path)[key]
    return document


def faults_of_kinds():
    """For each place a value of every other kind, a key that is missing, a number that isn't whole, one and one more than the limit."""
    for printed, path, kind, limit in PLACES:
        others = [text for other, text in SAMPLES.items() if other != kind and not (text == "null" and printed.endswith((".old", ".new")))]
        for text in others:
            yield f"{text} at {printed}", put(Raw(text), path), f"{printed}: wrong kind"
        if kind == OBJECT:
            for key in limit:
                yield f"no {key} at {printed}", without(path, key), f'{printed}: missing "{key}"'
        if kind == NUMBER:
            for text in NO_WHOLE_NUMBERS:
                yield f"{text} at {printed}", put(Raw(text), path), f"{printed}: not a whole number"
        if kind == NUMBER and limit is not None:
            for number in (limit + 1, 2 ** 64 - 1):
                yield f"{number} at {printed}", put(number, path), f"{printed}: {number} above {limit}"
        if kind == TEXT and limit is not None:
            for name in ("x" * (limit + 1), "é" * (limit // 2) + "x"):
                yield f"{limit + 1} bytes at {printed}", put(name, path), f"{printed}: {limit + 1} above {limit}"
        if kind == LIST:
            yield f"{limit + 1} elements at {printed}", put(Raw("[" + ",".join(["0"] * (limit + 1)) + "]"), path), f"{printed}: {limit + 1} above {limit}"


def faults_of_places():
    """Those that one kind of place alone has."""
    yield "a switch's name twice", put("A", SWITCH + ("name",)), "switches[1].name: name twice"
    yield "a flow's name twice", put("f", PROBLEM + ("flows", 1, "name")), "flows[1].name: name twice"
    for end in ("from", "to"):
        yield f"a link {end} nowhere", put("E", LINK + (end,)), f"links[1].{end}: unknown switch"
    yield "a link twice", put({"from": "A", "to": "B", "capacity": 1}, PROBLEM + ("links", 2)), "links[2]: link twice"
    path = "flows[0].tunnels[1].path"
    yield "a path of none", put([], TUNNEL + ("path",)), f"{path}: 0 below 2"
    yield "a path of one", put(["A"], TUNNEL + ("path",)), f"{path}: 1 below 2"
    yield "a path over no switch", put(["A", "E", "B"], TUNNEL + ("path",)), f"{path}[1]: unknown switch"
    yield "a path from no switch", put(["E", "B"], TUNNEL + ("path",)), f"{path}[0]: unknown switch"
    yield "a path that comes back", put(["A", "B", "A"], TUNNEL + ("path",)), f"{path}[2]: switch twice"
    yield "a path along no link", put(["A", "D", "B"], TUNNEL + ("path",)), f"{path}[1]: no such link"
    yield "a link the wrong way", put(["B", "A"], TUNNEL + ("path",)), f"{path}[1]: no such link"
    yield "another last switch", put(["A", "C"], TUNNEL + ("path",)), "flows[0].tunnels[1]: ends differ"
    yield "another first switch", put(["C", "B"], TUNNEL + ("path",)), "flows[0].tunnels[1]: ends differ"
    yield "width 0", put(0, TUNNEL + ("width",)), "flows[0].tunnels[1].width: width 0"
    for number in (0, 3, 2 ** 64 - 1):
        yield f"format {number}", put(number, PROBLEM + ("format",)), f"format: format {number}"
    for event in ([], ["rounds"], [1], ["round", 0], ["send"], ["send", "0"], ["send", None], ["send", 0, 0], ["crash"], ["crash", "x"], ["start", "x"]):
        yield f"the event {event}", put(event, ("script", 1)), "script[1]: no event"
    for event in ("round", 0, {}, None, True):
        yield f"the event {event!r}", put(event, ("script", 1)), "script[1]: wrong kind"
    yield "an event's number that isn't whole", put(["hand", 1.5], ("script", 1)), "script[1]: not a whole number"
    yield "an event's number above its limit", put(["hand", 2 ** 32], ("script", 1)), "script[1]: 4294967296 above 4294967295"
    many = [{"name": f"f{n}", "tunnels": [{"path": ["A", "B"], "old": 0, "new": 0, "width": 1}] * 16} for n in range(256)]
    last = [{"name": "last", "tunnels": [{"path": ["A", "B"], "old": 0, "new": 0, "width": 1}] * 2}]
    yield "4098 tunnels of all flows", put(many + last, PROBLEM + ("flows",)), "flows[256].tunnels: 4098 above 4096"


def orders():
    """Two faults, of which the first that is named is told."""
    def both(*changes):
        document = DOCUMENT
        for path, value in changes:
            document = put(value, path, document)
        return document

    problem, long = PROBLEM, "x" * 129
    yield "the problem ahead of the plan", both((PROBLEM, 0), (PLAN, 0)), "problem: wrong kind"
    yield "the plan ahead of the script", both((PLAN, 0), (("script",), 0)), "plan: wrong kind"
    yield "the format ahead of the switches", both((problem + ("format",), 3), (problem + ("switches",), 0)), "format: format 3"
    yield "switches ahead of links", both((problem + ("switches",), 0), (problem + ("links",), 0)), "switches: wrong kind"
    yield "links ahead of flows", both((problem + ("links",), 0), (problem + ("flows",), 0)), "links: wrong kind"
    yield "a count ahead of the elements", put(Raw("[" + ",".join(["0"] * 1025) + "]"), problem + ("switches",)), "switches: 1025 above 1024"
    yield "elements in order", both((problem + ("switches", 2), 0), (problem + ("switches", 1), 0)), "switches[1]: wrong kind"
    yield "a name ahead of the table", both((SWITCH + ("name",), 0), (SWITCH + ("table",), "x")), "switches[1].name: wrong kind"
    yield "a name's length ahead of an earlier one", both((problem + ("switches", 0, "name"), "x"), (SWITCH + ("name",), long)), "switches[1].name: 129 above 128"
    yield "a name that is there ahead of the table", both((SWITCH + ("name",), "A"), (SWITCH + ("table",), "x")), "switches[1].name: name twice"
    yield "from ahead of to", both((LINK + ("from",), "E"), (LINK + ("to",), 0)), "links[1].from: unknown switch"
    yield "an end ahead of the capacity", both((LINK + ("to",), "E"), (LINK + ("capacity",), "x")), "links[1].to: unknown switch"
    yield "the capacity ahead of a link that is there", put({"from": "A", "to": "B", "capacity": "x"}, LINK), "links[1].capacity: wrong kind"
    yield "a flow's name ahead of its tunnels", both((FLOW + ("name",), 0), (FLOW + ("tunnels",), 0)), "flows[0].name: wrong kind"
    yield "the count of tunnels ahead of the tunnels", put(Raw("[" + ",".join(["0"] * 17) + "]"), FLOW + ("tunnels",)), "flows[0].tunnels: 17 above 16"
    yield "the count of a path ahead of its names", put([0], TUNNEL + ("path",)), "flows[0].tunnels[1].path: 1 below 2"
    yield "a path's names in order", put(["A", 0, "E"], TUNNEL + ("path",)), "flows[0].tunnels[1].path[1]: wrong kind"
    yield "a switch that is twice ahead of a link that isn't there", put(["A", "A"], TUNNEL + ("path",)), "flows[0].tunnels[1].path[1]: switch twice"
    yield "an unknown switch ahead of the links", put(["A", "D", "E"], TUNNEL + ("path",)), "flows[0].tunnels[1].path[1]: no such link"
    yield "a path ahead of its ends", put(["C", "B", "E"], TUNNEL + ("path",)), "flows[0].tunnels[1].path[2]: unknown switch"
    yield "the ends ahead of old", put({"path": ["C", "B"], "new": 1, "width": 1}, TUNNEL), "flows[0].tunnels[1]: ends differ"
    yield "old ahead of new", both((TUNNEL + ("old",), "x"), (TUNNEL + ("new",), 1.5)), "flows[0].tunnels[1].old: wrong kind"
    yield "new ahead of the width", both((TUNNEL + ("new",), "x"), (TUNNEL + ("width",), 0)), "flows[0].tunnels[1].new: wrong kind"
    yield "a missing key ahead of later values", put({"path": ["A", "B"], "new": "x", "width": 1}, TUNNEL), 'flows[0].tunnels[1]: missing "old"'
    yield "a value ahead of a later key that is missing", put({"path": 0, "new": 1, "width": 1}, TUNNEL), "flows[0].tunnels[1].path: wrong kind"
    yield "the scale ahead of the stages", both((PLAN + ("scale",), "x"), (PLAN + ("stages",), 0)), "plan.scale: wrong kind"
    yield "the marks ahead of the rates", both((STAGE + ("installed",), 0), (STAGE + ("rates",), 0)), "plan.stages[2].installed: wrong kind"
    yield "a kind ahead of a whole number", put(Raw('"1.5"'), TUNNEL + ("old",)), "flows[0].tunnels[1].old: wrong kind"
    yield "the parts of an event ahead of its number", put(["send", 1.5, 0], ("script", 1)), "script[1]: no event"
    yield "the grammar of the script ahead of the plan's validity", both((PLAN + ("scale",), 2), (("script", 1), 0)), "script[1]: wrong kind"


def alone():
    """A problem by itself, whose own object is the top."""
    for text in ("[]", '"x"', "1", "null", "true"):
        yield f"{text} alone", Raw(text), "top: wrong kind"
    for key in ("switches", "links", "flows"):
        yield f"no {key} alone", {other: inner for other, inner in DOCUMENT["problem"].items() if other != key}, f'top: missing "{key}"'
    yield "two hundred open lists alone", Raw("[" * 200), "not JSON"
    yield "a table of 2^64 alone", Raw('{"switches":[{"name":"A","table":18446744073709551616}],"links":[],"flows":[]}'), "switches[0].table: not a whole number"
    yield "a place alone", put(1.5, PROBLEM + ("flows", 0, "tunnels", 0, "old"))["problem"], "flows[0].tunnels[0].old: not a whole number"


def told(program, word, document):
    done = subprocess.run([program, word], input=text_of(document).encode(), capture_output=True)
    return done.returncode, done.stdout, done.stderr.decode()


def outcomes(program):
    for word, cases in (("sim", faults_of_kinds), ("sim", faults_of_places), ("sim", orders), ("plan", alone)):
        for name, document, fault in cases():
            found = told(program, word, document)
            yield name, None if found == (3, b"", f"input: {fault}\n") else f"wanted {fault}, found {found}"
    yield "the document as it is", None if told(program, "sim", DOCUMENT)[0] == 0 else "it is refused"


if __name__ == "__main__":
    report("faults", "inputs", outcomes(sys.argv[1]))
