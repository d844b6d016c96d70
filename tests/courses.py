"""The page of a rollout, by tools/picture: of logs, of journals and of scripts, read back out of the page, and in a browser without a window where there is one.

    python3 tests/courses.py PROGRAM

The page's table has each operation that was begun, with the moments of its intent and its answer, as the log, the journal or the lines of PROGRAM's `sim` have them; the
fullest links have the peaks of `report`, and end where `loads` ends; what waited for room lacked it on a link of its own. Besides what is refused, which wants no browser.
"""

import contextlib
import html
import importlib.machinery
import importlib.util
import json
import os
import re
import subprocess
import sys
import tempfile

import browser
from journal_files import BEGIN, entries_in
from named import EXAMPLES, read
from outcomes import report
from rolling import planned, rollout, same

SCRIPT = os.path.join(os.path.dirname(os.path.abspath(__file__)), "..", "tools", "picture")
NSFNET = os.path.join(EXAMPLES, "networks", "nsfnet.out")
ONE = os.path.join(EXAMPLES, "one.out")
LOADS = os.path.join(EXAMPLES, "loads.json")
# Names that a page could take for its own, in a plan of one step.
HOSTILE = {"switches": [{"name": "</svg><b>", "table": 9}, {"name": 'a"b\\>\n', "table": 9}], "links": [{"from": "</svg><b>", "to": 'a"b\\>\n', "capacity": 10 ** 12}],
           "flows": [{"name": "<i>&amp;", "tunnels": [{"path": ["</svg><b>", 'a"b\\>\n'], "old": 10 ** 9, "new": 1}]}]}
ROW = re.compile(r'<tr data-row="(\d+) (\d+)">(.*?)</tr>')
CELL = re.compile(r"<td[^>]*>(.*?)</td>")
# What the page shows: each bar's operation and width, each course with its steps, and whether all of it lies in the drawing.
SHOWN = """(() => ({
  bars: [...document.querySelectorAll("[data-op]")].map((bar) => [bar.dataset.op, bar.getBoundingClientRect().width > 0]),
  rows: [...document.querySelectorAll("[data-row]")].map((row) => [row.dataset.row, [...row.cells].map((cell) => cell.textContent)]),
  courses: [...document.querySelectorAll("#fullest [data-name]")].map((one) => [one.dataset.name, JSON.parse(one.dataset.steps)]),
  outside: [...document.querySelectorAll(".wide > svg")].filter((svg) => { const box = svg.getBBox(); return box.x < -1 || box.y < -1 || box.x + box.width > svg.viewBox.baseVal.width + 1 || box.y + box.height > svg.viewBox.baseVal.height + 1; }).length,
}))()"""


def picture():
    """The script, as a module."""
    loader = importlib.machinery.SourceFileLoader("picture", SCRIPT)
    module = importlib.util.module_from_spec(importlib.util.spec_from_loader("picture", loader))
    loader.exec_module(module)
    return module


def page_of(program, text, course):
    course = course.encode() if isinstance(course, str) else course
    return picture().rollout_page_of(program, "a document", text.encode(), "a course", course)


def moment(cell):
    return int(cell.replace(",", "")) if cell else None


def rows_of(page):
    """Of each operation in the page's table what it does, where, when it was begun and settled, and what it waited for."""
    found = {}
    for item, number, cells in ROW.findall(page):
        _, _, what, switch, begun, settled, waited = map(html.unescape, CELL.findall(cells))
        found[int(item), int(number)] = what, switch, moment(begun), moment(settled), waited
    return found


def log_of(entries, apart=10, first=1_700_000_000_000, found=0):
    """A log of these entries, one each so many milliseconds."""
    lines = [f"{first} start {found}"] + [f"{first + apart * place} {'begin' if kind == BEGIN else 'done'} {item} {number}" for place, (kind, item, number) in enumerate(entries)]
    return "\n".join(lines) + "\n"


def times_of(entries, apart=1):
    """When each operation of these entries was begun and settled."""
    found = {}
    for place, (kind, item, number) in enumerate(entries):
        found.setdefault((item, number), [None, None])[kind != BEGIN] = apart * place
    return {key: tuple(both) for key, both in found.items()}


def moments(rows):
    return {key: row[2:4] for key, row in rows.items()}


def ran(program, text):
    """The bytes of the journal that a run leaves, and its list."""
    with rollout(program, text) as one:
        one.run("run --workers 1")
        image = one.image()
    return image, entries_in(image)


def by_course(program):
    """The same rollout as a journal, a log, and the front of a log; and each page, for the browser."""
    for name in (NSFNET, LOADS, ONE):
        text, base = read(os.path.relpath(name, EXAMPLES)), os.path.basename(name)
        image, entries = ran(program, text)
        page = page_of(program, text, image)
        yield f"{base}, its peaks", peaks(program, text, page, image)
        rows = rows_of(page)
        yield f"{base}, a journal", same(moments(rows), times_of(entries))
        rows = rows_of(page_of(program, text, log_of(entries)))
        yield f"{base}, a log", same(moments(rows), times_of(entries, 10))
        yield f"{base}, its homes", same([row[:2] for row in rows.values()], [told(program, text)[key] for key in rows])
        some = entries[:len(entries) // 2]
        yield f"{base}, half a log", same(moments(rows_of(page_of(program, text, log_of(some) + "17000"))), times_of(some, 10))
        yield f"{base}, two runs", two_runs(program, text, entries)


def peaks(program, text, page, image):
    """The most that each of the fullest links has on the page is the peak that a report on the journal tells."""
    with rollout(program, text, image) as one:
        lines = one.report()[1]
    told_by = {" › ".join(json.loads(name) for name in names): int(most) for *names, most in re.findall(r'peak ("(?:[^"\\]|\\.)*")>("(?:[^"\\]|\\.)*") (\d+) of', lines)}
    found = {html.unescape(name): max(int(taken) for _, taken in json.loads(html.unescape(steps))) for name, steps in re.findall(r'data-name="([^"]*)" data-steps="([^"]*)"', page.partition('id="fullest"')[2])}
    return same(found, {name: told_by[name] for name in found}) or (None if found else "no link")


def two_runs(program, text, entries):
    """The time between two runs is left out."""
    half = len(entries) // 2
    both = log_of(entries[:half]) + log_of(entries[half:], first=1_800_000_000_000, found=half)
    wanted = {key: tuple(None if one is None else one - 10 * (one // 10 >= half) for one in pair) for key, pair in times_of(entries, 10).items()} if half else {}
    return same(moments(rows_of(page_of(program, text, both))), wanted)


def told(program, text):
    """What `explain` says of each operation, as the page has it: what it does, in words, and where."""
    done = subprocess.run([program, "explain"], input=text.encode(), capture_output=True, check=True).stdout.decode()
    found, name, switch, entry = {}, None, None, ""
    for line in done.split("\n")[1:-1]:
        item = re.fullmatch(r'item (\d+): (?:flow ("(?:[^"\\]|\\.)*") at (.*)|entry at (".*?") of flow ("(?:[^"\\]|\\.)*") tunnel \d+ (.*)), operations \d+', line)
        if item:
            name, switch, entry = json.loads(item[2] or item[5]), json.loads(item[3] or item[4]), item[6] and " › ".join(json.loads(one) for one in item[6].split(">"))
            continue
        number, operation, stage, what = re.match(r"item (\d+) operation (\d+): to stage (\d+), (\w+)", line).groups()
        found[int(number), int(operation)] = f"flow {name} to stage {stage}" if what == "rates" else f"{what} entry of {name}, tunnel {entry}", switch
    return found


def waits(program):
    """What waited for room: on NSFNET there is some, each on a link or a table of its own."""
    text = read("networks/nsfnet.out")
    _, entries = ran(program, text)
    rows, document = rows_of(page_of(program, text, log_of(entries))), json.loads(text)
    found = {key: row[4].split(": ", 1)[1] for key, row in rows.items() if row[4]}
    links = {flow: {" › ".join(ends) for tunnel in document["problem"]["flows"][flow]["tunnels"] for ends in zip(tunnel["path"], tunnel["path"][1:])}
             for flow in range(len(document["problem"]["flows"]))}
    yield "waits for room", None if found and all(place in links.get(item, ()) for (item, _), place in found.items()) else f"{found}"


def scripts(program):
    """Acts of scripts: an operation is begun in the round before it is sent first, and settled in that behind its answer."""
    for name in ("repeated.json", "rehearsal.json", "reordered.json"):
        text = read(name)
        lines = subprocess.run([program, "sim"], input=text.encode(), capture_output=True, check=True).stdout.decode().split("\n")
        rounds = [int(line.split(" ")[0]) for line in lines if re.match(r"\d+ round:", line)]
        sends = [tuple(map(int, found.groups())) for found in map(re.compile(r"(\d+) send \d+: item (\d+) operation (\d+)").fullmatch, lines) if found]
        wanted = {}
        for act, item, number in sends:
            wanted.setdefault((item, number), max((one for one in rounds if one < act), default=0))
        rows = rows_of(page_of(program, text, text))
        yield f"{name}, what was begun", same({key: row[2] for key, row in rows.items()}, wanted)
        settled = sum(int(found[1]) for found in map(re.compile(r"\d+ round: dones (\d+), .*").fullmatch, lines) if found)
        yield f"{name}, what was settled", same(sum(row[3] is not None for row in rows.values()), settled)


def refusals(program):
    """What isn't of the document, by a part of the line and the status."""
    cases = [("nothing of a log", "hello\n", 3, "line 1 is none of a log"), ("another document's", "1 start 0\n2 begin 999 1\n", 3, "item 999 operation 1 is none of the document's"),
             ("an operation that isn't there", "1 start 0\n2 done 0 9\n", 3, "item 0 operation 9 is none of the document's"), ("bytes", b"\xff\xfe\n", 3, "is neither a log nor a journal"),
             ("a journal without a part", b"\x54" + bytes(40), 3, "no part of the journal is open")]
    with tempfile.TemporaryDirectory() as folder:
        path, page = os.path.join(folder, "course"), os.path.join(folder, "page.html")
        for name, course, status, words in cases:
            with open(path, "wb") as file:
                file.write(course.encode() if isinstance(course, str) else course)
            done = subprocess.run([sys.executable, "-S", "-B", SCRIPT, "rollout", ONE, path, "-o", page, "--program", program], capture_output=True, text=True)
            yield name, None if (done.returncode, done.stdout) == (status, "") and words in done.stderr and not os.path.exists(page) else f"gives {done}"
        done = subprocess.run([sys.executable, "-S", "-B", SCRIPT, "rollout", ONE, os.path.join(folder, "none"), "-o", page, "--program", program], capture_output=True, text=True)
        yield "no course", None if done.returncode == 2 and "No such file" in done.stderr else f"gives {done}"
    yield "an empty log", same(rows_of(page_of(program, read("one.out"), "")), {})


def pages(program, folder):
    """Each page, its file, and the document and the log of it."""
    hostile = planned(program, HOSTILE)
    texts = [("NSFNET", read("networks/nsfnet.out")), ("odd names", json.dumps(hostile)), ("nothing", None)]
    for name, text in texts:
        entries = ran(program, text)[1] if text else []
        text = text or read("one.out")
        path = os.path.join(folder, f"{name.replace(' ', '-')}.html")
        with open(path, "w", encoding="utf-8") as file:
            file.write(page_of(program, text, log_of(entries, 25)))
        yield name, path, text, entries


def last_loads(program, text):
    """What `loads` says that each link carries at last, by the link's names."""
    lines = subprocess.run([program, "loads"], input=text.encode(), capture_output=True, check=True).stdout.decode().split("\n")
    found = [re.fullmatch(r'load ("(?:[^"\\]|\\.)*")>("(?:[^"\\]|\\.)*") of \d+: .*?(\d+)', line) for line in lines]
    return {" › ".join(name if name.isprintable() else json.dumps(name) for name in map(json.loads, one.groups()[:2])): one[3] for one in found if one}


def looks(shown, program, folder):
    for name, path, text, entries in pages(program, folder):
        shown.wide(1280, 900)
        shown.show(path)
        found = shown.value(SHOWN)
        yield f"{name}, the bars", same(sorted(found["bars"]), sorted([f"{item} {number}", True] for item, number in times_of(entries)))
        yield f"{name}, the table", same({key: tuple(moment(cell) for cell in cells[4:6]) for key, cells in found["rows"]},
                                         {f"{item} {number}": both for (item, number), both in times_of(entries, 25).items()})
        last = last_loads(program, text)
        yield f"{name}, the fullest links at last", same([(link, steps[-1][1]) for link, steps in found["courses"]], [(link, last[link]) for link, _ in found["courses"]])
        yield f"{name}, all in the drawings", same(found["outside"], 0)
        yield f"{name}, by itself", same(list(shown.complaints()), [])
        shown.wide(390, 844)
        yield f"{name} on a phone", same(shown.value("document.documentElement.scrollWidth"), 390)


def skipped(why):
    print(f"courses: skipped the browser: {why}")


def in_browser(program):
    if not browser.program():
        return skipped(f"this machine has none of {', '.join(browser.NAMES)}")
    with tempfile.TemporaryDirectory() as folder, contextlib.ExitStack() as stack:
        try:
            shown = stack.enter_context(browser.Browser())
        except browser.Failed as why:
            return skipped(f"{browser.program()} doesn't start: {why}")
        try:
            yield from looks(shown, program, folder)
        except browser.Failed as why:
            yield "the browser", str(why)


def outcomes(program):
    for part in (refusals, by_course, waits, scripts, in_browser):
        yield from part(program)


if __name__ == "__main__":
    report("courses", "refusals and pages of rollouts", outcomes(os.path.abspath(sys.argv[1])))
