"""The page of a plan, by tools/picture: shown in a browser without a window, gone through moment by moment with the keyboard, and read back.

    python3 tests/pictures.py PROGRAM

At each moment the figures of each link and table stand in the drawing, at the head of its row and in its cell; all three, read back and put in lines, have to
be what PROGRAM's `loads` prints. Besides what it refuses, which wants no browser.
"""

import contextlib
import importlib.machinery
import importlib.util
import itertools
import json
import math
import os
import re
import subprocess
import sys
import tempfile

import browser
import documents
from named import EXAMPLES, read
from outcomes import report
from rolling import planned, same

TOOLS = os.path.join(os.path.dirname(os.path.abspath(__file__)), "..", "tools")
SCRIPT, RADIUS = os.path.join(TOOLS, "picture"), 11
NETWORKS = ("networks/abilene.out", "networks/b4.out", "networks/nsfnet.out", "networks/geant-planned.json", "networks/two-thirds.out", "loads.json")
# What the program refuses, by the end of its name, the status, and how each line on standard error begins.
REFUSALS = [
    ("a problem", [os.path.join(EXAMPLES, "networks", "nsfnet.json")], 3, ['input: top: missing "problem"', "picture: /", "is a problem without a plan: swanroll plan makes its document"]),
    ("a plan that isn't valid", [os.path.join(EXAMPLES, "not-valid.json")], 3, ['input: plan: P3 at stage 0, link "A">"X": 4 against 2']),
    ("no file", ["/nowhere/document.json"], 2, ["picture: /nowhere/document.json: No such file or directory"]),
    ("no program", [os.path.join(EXAMPLES, "loads.json"), "--program", "/nowhere/swanroll"], 7, ["picture: /nowhere/swanroll: No such file or directory"]),
    ("another program", [os.path.join(EXAMPLES, "loads.json"), "--program", "/bin/echo"], 7, ["picture: /bin/echo loads prints no loads"]),
]
# The same where a page can be drawn: the folder is asked for last.
DRAWN_AND_REFUSED = [
    ("a page in no folder", [os.path.join(EXAMPLES, "loads.json"), "-o", "/nowhere/page.html"], 2, ["picture: /nowhere/page.html: No such file or directory"]),
]
# What the page says of the steps of NSFNET.
HAPPENINGS = ["step 0 to 1|5 tunnels installed (19 entries)", "step 1 to 2|3 flows shrink: SaltLakeCity to Ithaca (400 to 380), SaltLakeCity to PaloAlto (280 to 160), "
              "SaltLakeCity to Lincoln (50 to 40)|2 flows move: Lincoln to AnnArbor, Atlanta to SanDiego", "step 2 to 3|2 flows move: SaltLakeCity to PaloAlto, Princeton to "
              "PaloAlto|1 flow grows: Seattle to SaltLakeCity (40 to 120)", "step 3 to 4|3 tunnels removed (11 entries)"]
# Rates and room beyond what JavaScript can count, in names that a page could take for its own.
HOSTILE = {"switches": [{"name": "</script><b>", "table": 9, "at": [0, 0]}, {"name": 'a"b\\>\n', "table": 2, "at": [200, 0]}, {"name": "é\u202e😀", "table": 1, "at": [50, 80.5]}],
           "links": [{"from": '</script><b>', "to": 'a"b\\>\n', "capacity": 10 ** 12}, {"from": 'a"b\\>\n', "to": "é\u202e😀", "capacity": 999_999_937}],
           "flows": [{"name": "<i>&amp;", "tunnels": [{"path": ["</script><b>", 'a"b\\>\n'], "old": 10 ** 9, "new": 1}]},
                     {"name": "", "tunnels": [{"path": ['a"b\\>\n', "é\u202e😀"], "old": None, "new": 999_999_937}]}]}
# What the page shows now of each link and table: the row's names, the drawing's title, the figures at the row's head and in the cell of the moment, and the looks.
NOW = """(() => {
  const moment = Number(document.getElementById("moment").value);
  return [moment, [...document.querySelectorAll("[data-names]")].map((row) => {
    const id = row.querySelector("[data-marks]").dataset.marks, drawn = document.getElementById(id), line = drawn.querySelector(".line, .ring");
    const looks = getComputedStyle(line), cell = row.cells[moment + 1], figure = document.getElementById(`figure-${id}`);
    return { id, names: JSON.parse(row.dataset.names), title: drawn.querySelector("title").textContent, head: row.querySelector(".now").textContent, cell: cell.title,
      percent: cell.textContent, stroke: looks.stroke, width: parseFloat(looks.strokeWidth), dashed: id.startsWith("link") ? looks.strokeDasharray !== "none" :
      getComputedStyle(drawn.querySelector(".dashes")).display !== "none", beside: figure ? figure.textContent : "",
      here: row.closest("table").querySelector("th[data-here]").cellIndex - 1 };
  })];
})()"""
REACHED = """(() => { const one = document.activeElement; return [...document.querySelectorAll("a, button, input, [tabindex]")].indexOf(one); })()"""
# Whether words can be read on what is below them: the least contrast of the page's colours for them.
CONTRAST = """(() => {
  const found = getComputedStyle(document.documentElement), light = (name) => {
    const parts = found.getPropertyValue(name).trim().match(/[0-9a-f]{2}/g).map((part) => parseInt(part, 16) / 255);
    const [r, g, b] = parts.map((part) => part <= 0.04045 ? part / 12.92 : ((part + 0.055) / 1.055) ** 2.4);
    return 0.2126 * r + 0.7152 * g + 0.0722 * b + 0.05;
  };
  const pairs = ["--ink", "--faint"].flatMap((words) => ["--ground", "--panel", "--here"].map((below) => [light(words), light(below)]));
  return [light("--ground") < light("--ink"), Math.min(...pairs.map(([a, b]) => Math.max(a, b) / Math.min(a, b)))];
})()"""


def picture():
    """The script, as a module."""
    loader = importlib.machinery.SourceFileLoader("picture", SCRIPT)
    module = importlib.util.module_from_spec(importlib.util.spec_from_loader("picture", loader))
    loader.exec_module(module)
    return module


def drawn(program, words, text=None, *options):
    """The status of the script, what it prints, and the lines on standard error."""
    words = ["plan", *words] + (["--program", program] if "--program" not in words else [])
    done = subprocess.run([sys.executable, *options, "-B", SCRIPT, *words], input=text and text.encode(), capture_output=True)
    return done.returncode, done.stdout.decode(), done.stderr.decode().split("\n")[:-1]


def refusals(program, folder, python):
    page = os.path.join(folder, "refused.html")
    for name, words, status, lines in REFUSALS + (DRAWN_AND_REFUSED if python else []):
        found = drawn(program, words + ([] if "-o" in words else ["-o", page]))
        fits = found[0] == status and not found[1] and all(line in "\n".join(found[2]) for line in lines) and not os.path.exists(page)
        yield name, None if fits else f"gives {found}"
    yield "no words", same(subprocess.run([sys.executable, "-B", SCRIPT], capture_output=True).returncode, 2)
    one = json.loads(read("loads.json"))
    for at in (5, [1], [1, 2, 3], ["1", 2], [True, 2], [1e7, 2], [10 ** 400, 2], [float("nan"), 2], {}):
        one["problem"]["switches"][3]["at"] = at
        found = drawn(program, ["-", "-o", "-"], json.dumps(one)) if at == 5 else refused_place(one)
        yield f"the place {at}", same(found, (3, "", ["picture: problem.switches[3].at: not two numbers up to 1,000,000"]))
    found = drawn(program, ["-", "-o", "-"], read("loads.json"), "-S")
    yield "no networkx", None if found[:2] == (6, "") and "apt-get install python3-networkx" in found[2][-1] else f"gives {found}"
    for number, switch in enumerate(one["problem"]["switches"]):
        switch["at"] = [number, number * number]
    found = drawn(program, ["-", "-o", "-"], json.dumps(one), "-S")
    yield "no networkx, where each switch has its place", None if found[0] == 0 and found[1].startswith("<!DOCTYPE html>") else f"gives {found}"


def refused_place(document):
    """What the script would say of a document's places."""
    tool = picture()
    try:
        return list(tool.said_places(document["problem"]["switches"]))
    except tool.Refused as why:
        return why.args[0], "", [f"picture: {why.args[1]}"]


def loads(program, text):
    done = subprocess.run([program, "loads"], input=text.encode(), capture_output=True, check=True)
    return done.stdout.decode().split("\n")


def figures(words):
    """The two numbers of `LOAD of ROOM`, as text."""
    return re.fullmatch(r"(?:entries )?(\d+) of (\d+)", words).groups()


def line_of(names, found):
    """The line that `loads` has where these are the figures of a row."""
    taken = [f"({one})" if moment % 2 else one for moment, (one, _) in enumerate(found)]
    name = ">".join(json.dumps(one, ensure_ascii=False) for one in names)
    return f"load {'table ' * (len(names) == 1)}{name} of {found[0][1]}: {' '.join(taken)}"


def wrong_looks(rows, moment, taken):
    """What is wrong with how links and tables are drawn; `taken` has the figures of each row at all moments."""
    colours = {}
    for row, found in zip(rows, taken):
        load, room = map(int, found[moment])
        percent = 100 * load // max(room, 1)
        level = "full" if load and load == room else "amber" if percent >= 90 else percent * bool(load)
        colours.setdefault(level if isinstance(level, str) else "below", set()).add(row["stroke"])
        changes = moment % 2 == 1 and len({one for one, _ in found[moment - 1:moment + 2]}) > 1
        beside = f"{'table ' * (len(row['names']) == 1)}{percent}%" if isinstance(level, str) else ""
        wanted = {"here": moment, "dashed": changes, "beside": beside, "percent": "<1" if load and not percent else str(percent), "cell": " of ".join(found[moment])}
        if {key: row[key] for key in wanted} != wanted:
            return f"{row['names']} looks as {row}, and not {wanted}"
        if row["id"].startswith("link") and abs(row["width"] - (1.3 + 6 * percent / 100)) > 0.1:
            return f"{row['names']} at {percent}% is {row['width']} wide"
    apart = colours.get("full", set()) & colours.get("amber", set()) or (colours.get("full", set()) | colours.get("amber", set())) & colours.get("below", set())
    return f"the colours {colours}" if apart or len(colours.get("full", "1")) > 1 or len(colours.get("amber", "1")) > 1 else None


def gone_through(shown, program, text):
    """What is wrong with a page, which is gone through by keys from its first moment to its last."""
    lines = loads(program, text)
    shown.value('document.getElementById("moment").focus()')
    moments, (moment, rows) = [], shown.value(NOW)
    while moment == len(moments):
        moments.append(rows)
        shown.press("ArrowRight")
        moment, rows = shown.value(NOW)
    if f"steps {(len(moments) - 1) // 2}, " not in lines[0]:
        return f"has {len(moments)} moments, where loads has {lines[0]}"
    readings = [[figures(row["head"].removesuffix(" ~")) for row in rows] for rows in moments]
    in_drawing = [[figures(re.search(r": ((?:entries )?\d+ of \d+), ", row["title"])[1]) for row in rows] for rows in moments]
    if in_drawing != readings:
        return "has other figures in the drawing than at the heads of rows"
    taken = list(zip(*readings))
    found = [line_of(row["names"], one) for row, one in zip(moments[0], taken)]
    if sorted(found) != sorted(lines[1:-2]):
        return f"shows {sorted(set(found) ^ set(lines[1:-2]))}"
    return next(filter(None, (wrong_looks(rows, moment, taken) for moment, rows in enumerate(moments))), None)


def rates_shown(shown, document):
    """Whether the rows of tunnels have the document's rates, `–` where a tunnel isn't there."""
    rows = shown.value('[...document.querySelectorAll("#flows tr:not(.flow)")].slice(1).map((row) => [...row.cells].slice(1).filter((_, at) => at % 2 == 0).map((one) => one.textContent))')
    stages = document["plan"]["stages"]
    wanted = [[f"{stage['rates'][tunnel]:,}" if stage["installed"][tunnel] else "–" for stage in stages] for tunnel in range(len(stages[0]["rates"]))]
    return same(rows, wanted)


def by_keyboard(shown):
    """All that can be pressed is reached by the key Tab, and a step is shown by the key Enter."""
    wanted = set(shown.value('[...document.querySelectorAll("a, button, input, [tabindex]")].map((one, at) => one.disabled ? -1 : at)')) - {-1}
    reached = set()
    for _ in range(len(wanted) + 5):
        shown.press("Tab")
        reached.add(shown.value(REACHED))
    yield "what the key Tab reaches", same(sorted(wanted - reached), [])
    shown.value('document.querySelectorAll("[data-moment]")[2].focus()')
    shown.press("Enter")
    yield "a step that is pressed", same(shown.value('[document.getElementById("moment").value, document.getElementById("said").textContent.split(":")[0]]'), ["5", "step 2 to 3"])
    shown.value('document.querySelector("#flows [data-marks]").focus()')
    shown.press("Enter")
    marked = [shown.value('document.querySelector("#flows [data-marks]").dataset.marks.split(" ")'), shown.value('[...document.querySelectorAll(".marked")].map((one) => one.id)')]
    yield "a tunnel that is pressed", same(sorted(marked[1]), sorted(marked[0]))


def pages(program, folder):
    """Each page, its file and its document."""
    tool = picture()
    all_of_them = [(name, read(name)) for name in NETWORKS] + [("large numbers and odd names", json.dumps(with_places(planned(program, HOSTILE))))]
    for name, text in all_of_them + [("nothing", documents.DOCUMENTS[0][2])]:
        path = os.path.join(folder, f"{os.path.basename(name).partition('.')[0]}.html")
        with open(path, "w", encoding="utf-8") as file:
            file.write(tool.page_of(program, name, text.encode()))
        yield name, path, text


def with_places(document):
    """The document with the places of its switches, which the program leaves out."""
    for switch, given in zip(document["problem"]["switches"], HOSTILE["switches"]):
        switch["at"] = given["at"]
    return document


def placed(shown):
    """The switches with the odd names stand where they say, but for the picture's size."""
    found = switches_at(shown)
    (x, y), (right, _), _ = found
    scale = (right - x) / 200
    wanted = [[round(x + at[0] * scale), round(y + at[1] * scale)] for at in (switch["at"] for switch in HOSTILE["switches"])]
    yield "places that are given", same([[round(one) for one in point] for point in found], wanted)


def crowded(shown):
    """Which switches stand outside of the drawing, or one on another."""
    wide, high = shown.value('document.querySelector("svg").getAttribute("viewBox").split(" ").map(Number)')[2:]
    found = switches_at(shown)
    outside = [point for point in found if not (RADIUS < point[0] < wide - RADIUS and RADIUS < point[1] < high - RADIUS)]
    return same(outside + [pair for pair in itertools.combinations(found, 2) if math.dist(*pair) < 3 * RADIUS], [])


def switches_at(shown):
    return shown.value('[...document.querySelectorAll(".switch")].map((one) => one.getAttribute("transform").match(/[0-9.]+/g).map(Number))')


def happenings(shown):
    said = shown.value('[...document.querySelectorAll("#steps button")].map((one) => [...one.children].map((part) => part.textContent).join("|"))')
    yield "what happens", same(said, HAPPENINGS)


def light_and_dark(shown):
    for dark in (True, False):
        shown.dark(dark)
        is_dark, least = shown.value(CONTRAST)
        yield "words in the dark" if dark else "words in the light", None if is_dark == dark and least >= 4.5 else f"dark {is_dark}, contrast {least}"


# What else is looked at on one page.
MORE = {"networks/nsfnet.out": (happenings, light_and_dark), "loads.json": (by_keyboard,), "large numbers and odd names": (placed,)}


def clicks(shown, program, folder):
    for name, path, text in pages(program, folder):
        shown.wide(1280, 900)
        shown.show(path)
        yield name, gone_through(shown, program, text)
        yield f"{name}, its switches", crowded(shown)
        yield f"{name}, its rates", rates_shown(shown, json.loads(text))
        yield f"{name}, by itself", same(list(shown.complaints()), [])
        for part in MORE.get(name, ()):
            yield from part(shown)
        shown.wide(390, 844)
        yield f"{name} on a phone", same(shown.value("document.documentElement.scrollWidth"), 390)
    shown.show(os.path.join(folder, "nsfnet.html"), "#step-1")
    yield "a page that is asked for a step", same(shown.value('document.getElementById("moment").value'), "3")


def skipped(why):
    print(f"pictures: skipped the pages: {why}")


def with_networkx():
    """A Python that has networkx and scipy; None where there is none."""
    for python in dict.fromkeys((sys.executable, "/usr/bin/python3")):
        if os.path.exists(python) and subprocess.run([python, "-c", "import networkx, scipy"], capture_output=True).returncode == 0:
            return python
    return None


def outcomes(program, python):
    with tempfile.TemporaryDirectory() as folder, contextlib.ExitStack() as stack:
        yield from refusals(program, folder, python)
        if not python:
            return skipped("this machine has no Python with networkx and scipy")
        if not browser.program():
            return skipped(f"this machine has no browser of {', '.join(browser.NAMES)}")
        try:
            shown = stack.enter_context(browser.Browser())
        except browser.Failed as why:
            return skipped(f"{browser.program()} doesn't start: {why}")
        yield from clicks(shown, program, folder)


def main():
    python = with_networkx()
    if python and python != sys.executable:
        os.execv(python, [python, "-B", *sys.argv])
    report("pictures", "refusals and looks at pages", outcomes(os.path.abspath(sys.argv[1]), python))


if __name__ == "__main__":
    main()
