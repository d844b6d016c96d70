"""What shows that fewer rate steps are impossible: what `least` writes for the examples, and what `check` says of it and of changes in it.

    python3 tests/least.py PROGRAM

The certificate of `examples/shown.json` excludes two steps; `docs/CERTIFICATE.md` reads it.
"""

import copy
import json
import os
import subprocess
import sys

from outcomes import report

EXAMPLES = os.path.join(os.path.dirname(os.path.abspath(__file__)), "..", "examples")
LARGEST = 2 ** 127 - 1
# Of each example, what is said of its plan: the keys beside `steps`, the steps that are impossible; or the status and the line.
SAID = {
    "one": ([], 0), "exchange": ([], 0), "full-tables": ([], 0), "one-link": (["link"], 1), "pause": (["link"], 1),
    "three-steps": (["rows"], 2), "least": (["rows"], 2), "networks/two-thirds": (["link"], 1),
    "fewest": (15, "least: too wide\n"),
    "no-slack": (4, 'no plan: link "A">"X" old load 5 of 5 leaves no slack\n'),
    "refused": (3, "input: flows[0].tunnels[0].new: not a whole number\n"),
}
# The rows of the certificate whose multiplier is 1, one of the others that has a bound above 0, and one that has 0.
# Of the last one half is enough: what it leaves is positive, and does no harm.
USED, LAST, ABOVE, AT_ZERO = (0, 5, 10, 15, 16, 20, 24), 24, 23, 1
# What is no fraction in its one shortest spelling, or is too large.
NO_FRACTIONS = (
    "", "1", "/", "1/", "/1", "1/0", "0/0", "01/1", "00/1", "1/01", "+1/1", "1/+1", "-0/1", "0/2", "2/2", "4/6", "-2/4", "1/-1", "--1/1", "-/1", "1//1",
    "1/1/1", " 1/1", "1/1 ", "1 /1", "1.0/1", "1e0/1", "0x1/1", f"{LARGEST + 1}/1", f"1/{LARGEST + 1}", f"-{LARGEST + 1}/1", "9" * 60 + "/1", "\u0661/1", "1/1\0",
)
FRACTIONS = ("0/1", "1/1", "-1/1", "2/3", "-2/3", f"{LARGEST}/1", f"-{LARGEST}/1", f"1/{LARGEST}", f"{LARGEST - 1}/{LARGEST}")


def example(name):
    with open(os.path.join(EXAMPLES, name + ".json"), encoding="utf-8") as file:
        return json.load(file)


def run(program, command, document):
    text = document if isinstance(document, str) else json.dumps(document)
    done = subprocess.run([program, command], input=text.encode(), capture_output=True)
    return done.returncode, done.stdout.decode(), done.stderr.decode()


def same(found, wanted):
    return None if found == wanted else f"{found}, not {wanted}"


def written(program, name, wanted):
    """What was wrong with what `least` writes for an example."""
    status, out, notes = run(program, "least", example(name))
    if wanted[0] in (3, 4, 15):
        return same((status, out, notes), (wanted[0], "", wanted[1]))
    if (status, notes) != (0, ""):
        return f"status {status}, {notes!r}"
    document = json.loads(out)
    plan = run(program, "plan", example(name))[1]
    said = document.pop("least")
    if json.dumps(document, separators=(",", ":"), ensure_ascii=False) + "\n" != plan:
        return "another document than that of plan"
    if (sorted(set(said) - {"steps"}), said["steps"]) != wanted:
        return f"{said}, not {wanted}"
    stages = document["plan"]["stages"]
    if said["steps"] != max(0, sum(a["rates"] != b["rates"] for a, b in zip(stages, stages[1:])) - 1):
        return "another number than the plan's rate steps less one"
    line = f"valid: steps {len(stages) - 1}, scale {document['plan']['scale']}"
    return same(run(program, "check", out), (0, line + ", least\n", "")) or same(run(program, "check", plan), (0, line + "\n", ""))


def with_rows(said, changes):
    """What is said, with other multipliers at some rows."""
    rows = list(said["rows"])
    for at, row in changes.items():
        rows[at] = row
    return {**said, "rows": rows}


def refusals(said):
    """Names, what a document may say instead, and where it is refused with which words."""
    shown = "least: not shown"
    yield "nothing", {}, 'least: missing "steps"'
    yield "a list", [], "least: wrong kind"
    yield "null", None, "least: wrong kind"
    yield "steps as a text", {**said, "steps": "2"}, "least.steps: wrong kind"
    yield "steps with a point", {**said, "steps": 1.5}, "least.steps: not a whole number"
    yield "too many steps", {**said, "steps": 2 ** 32}, f"least.steps: {2 ** 32} above {2 ** 32 - 1}"
    yield "a link as a text", {**said, "link": "0"}, "least.link: wrong kind"
    yield "too large a link", {**said, "link": 2 ** 32}, f"least.link: {2 ** 32} above {2 ** 32 - 1}"
    yield "rows that are none", {**said, "rows": {}}, "least.rows: wrong kind"
    yield "too many rows", {**said, "rows": ["0/1"] * 10_001}, "least.rows: 10001 above 10000"
    yield "a number as a row", with_rows(said, {3: 1}), "least.rows[3]: wrong kind"
    yield "steps before rows", {"steps": -1, "rows": {}}, "least.steps: not a whole number"
    yield "a link before rows", {**said, "link": -1, "rows": {}}, "least.link: not a whole number"
    for text in NO_FRACTIONS:
        yield f"{text!r} as a row", with_rows(said, {27: text}), "least.rows[27]: not shown"
    yield "the first of two rows", with_rows(said, {5: "2/2", 3: "x"}), "least.rows[3]: not shown"
    yield "no proof", {"steps": said["steps"]}, shown
    yield "one step less", {**said, "steps": said["steps"] - 1}, shown
    yield "one step more", {**said, "steps": said["steps"] + 1}, shown
    yield "no rows", {**said, "rows": []}, shown
    yield "a row less", {**said, "rows": said["rows"][:-1]}, shown
    yield "a row more", {**said, "rows": said["rows"] + ["0/1"]}, shown
    yield "zeros alone", {**said, "rows": ["0/1"] * len(said["rows"])}, shown
    for row in USED:
        yield f"row {row} left out", with_rows(said, {row: "0/1"}), shown
        yield f"row {row} negated", with_rows(said, {row: "-1/1"}), shown
        if row != LAST:
            yield f"a half of row {row}", with_rows(said, {row: "1/2"}), shown
    yield "a bound above", with_rows(said, {ABOVE: "1/1"}), shown
    yield "a row below 0", with_rows(said, {AT_ZERO: "-1/1"}), shown
    yield "a sum that is too large", with_rows(said, {0: f"{LARGEST}/1"}), shown
    yield "a link beside the rows", {**said, "link": 0}, shown


def accepted(said):
    """The same for what is accepted."""
    yield "the certificate", said
    yield "other keys beside it", {**said, "why": "it is so", "Link": 0}
    yield "twice the rows", {**said, "rows": ["2/1" if row == "1/1" else row for row in said["rows"]]}
    yield "a third of the rows", {**said, "rows": ["1/3" if row == "1/1" else row for row in said["rows"]]}
    yield "a half of the last row used", with_rows(said, {LAST: "1/2"})
    yield "a little of a bound above", with_rows(said, {ABOVE: "2/5"})


def equal_rates():
    """A problem in which no rate differs."""
    problem = example("one")
    for flow in problem["flows"]:
        for tunnel in flow["tunnels"]:
            tunnel["new"] = tunnel["old"]
    return problem


def outcomes(program):
    for name, wanted in SAID.items():
        yield name, written(program, name, wanted)
    document = example("shown")
    said, line = document["least"], "valid: steps 3, scale 1"
    for name, other, where in refusals(said):
        yield name, same(run(program, "check", {**document, "least": other}), (3, "", f"input: {where}\n"))
    for name, other in accepted(said):
        yield name, same(run(program, "check", {**document, "least": other}), (0, f"{line}, least\n", ""))
    for text in FRACTIONS:
        status, _, notes = run(program, "check", {**document, "least": with_rows(said, {27: text})})
        yield f"{text!r} as a row", None if (status, notes) in ((0, ""), (3, "input: least: not shown\n")) else f"status {status}, {notes!r}"
    yield "nothing said", same(run(program, "check", {key: document[key] for key in ("plan", "problem")}), (0, line + "\n", ""))
    broken = copy.deepcopy(document)
    broken["plan"]["stages"][1]["rates"] = [6, 0, 3, 3]
    yield "a plan that isn't valid", same(run(program, "check", broken), (3, "", 'input: plan: P3 at stage 0, link "A">"B": 9 against 6\n'))
    broken["least"] = {}
    yield "a fault before the plan's", same(run(program, "check", broken), (3, "", 'input: least: missing "steps"\n'))
    two = json.loads(run(program, "least", example("one-link"))[1])
    for link, right in ((0, False), (1, True), (2, False), (2 ** 32 - 1, False)):
        wanted = (0, "valid: steps 2, scale 1, least\n", "") if right else (3, "", "input: least: not shown\n")
        yield f"link {link} of two steps", same(run(program, "check", {**two, "least": {"steps": 1, "link": link}}), wanted)
    for name, other in (("rows of two steps", {"steps": 1, "rows": ["1/1"]}), ("nothing of two steps", {"steps": 1}), ("a link of another number", {"steps": 0, "link": 1})):
        yield name, same(run(program, "check", {**two, "least": other}), (3, "", "input: least: not shown\n"))
    one = json.loads(run(program, "least", example("one"))[1])
    for name, other in (("a link of one step", {"steps": 0, "link": 0}), ("rows of one step", {"steps": 0, "rows": []}), ("one step impossible", {"steps": 1})):
        yield name, same(run(program, "check", {**one, "least": other}), (3, "", "input: least: not shown\n"))
    none = run(program, "least", equal_rates())
    yield "equal rates", None if none[0] == 0 and json.loads(none[1])["least"] == {"steps": 0} else f"{none}"
    yield "equal rates, checked", same(run(program, "check", none[1]), (0, "valid: steps 0, scale 1, least\n", ""))


if __name__ == "__main__":
    report("least", "outcomes", outcomes(sys.argv[1]))
