"""What tools/plan_by_solver.py prints: over the examples, over networks that are drawn, and where it refuses.

    python3 tests/solver.py PROGRAM

Of each document that is printed PROGRAM's `check` has to accept the plan, its problem has to be the one that was given, and it has no more rate steps
than PROGRAM's own plan, where that has at most as many as are tried. Each that `plan` plans in one step is printed as `plan` prints it.
"""

import glob
import json
import os
import random
import subprocess
import sys

import documents
import fractions_of_plans
from named import EXAMPLES, read
from outcomes import report

TOOLS = os.path.join(os.path.dirname(os.path.abspath(__file__)), "..", "tools")
SCRIPT = os.path.join(TOOLS, "plan_by_solver.py")
MOST, SECONDS = 12, 3600
# How many rate steps it takes for the networks, as examples/README.md says.
NETWORKS = {"abilene": 3, "b4": 2, "nsfnet": 2, "geant": 5, "hundred": 3, "two-thirds": 2}
RING, FLOWS = 9, 8
DRAWN = [f"full {number}" for number in range(12)] + [f"tight {number}" for number in range(12)] + [f"large {number}" for number in range(4)]
TWO_FLOWS = range(0, fractions_of_plans.TWO_FLOWS, 16)
# A link and a table of two switches, with the flow's rates.
SMALL = ('{"switches":[{"name":"A","table":%d},{"name":"B","table":9}],"links":[{"from":"A","to":"B","capacity":4}],'
         '"flows":[{"name":"f","tunnels":[{"path":["A","B"],"old":%d,"new":%d}]}]}')
# A name, the words, the input, the status, and the last line on standard error.
REFUSALS = [
    ("no JSON", "", "nonsense", 3, "input: not JSON"),
    ("two values", "", SMALL % (1, 1, 1) + ',"x":' + SMALL % (1, 1, 1), 3, "input: not JSON"),
    ("a document in the place of a problem", "", read("two.json"), 3, 'input: problem: missing "switches"'),
    ("a rate of 1.5", "", read("refused.json"), 3, "input: flows[0].tunnels[0].new: not a whole number"),
    ("an old split that doesn't fit", "", SMALL % (1, 5, 4), 4, 'no plan: link "A">"B" old load 5 above 4'),
    ("a new split that doesn't fit", "", SMALL % (1, 4, 6), 4, 'no plan: link "A">"B" new load 6 above 4'),
    ("a table that is too small", "", SMALL % (0, 4, 3), 4, 'no plan: table "A" wants 1 above 0'),
    ("no plan", "--steps 3", read("no-slack.json"), 4, "no plan: none of up to 3 rate steps was found"),
    ("no steps", "--steps 0", "", 2, "plan_by_solver.py: error: argument --steps: not a number from 1 to 252"),
    ("no program", "--program /nowhere/swanroll", "{}", 7, "/nowhere/swanroll: No such file or directory"),
    ("another program", "--program /bin/false", "{}", 7, "/bin/false check ends with status 1: "),
]


def with_scipy():
    """A Python that has scipy; None where there is none."""
    for python in dict.fromkeys((sys.executable, "/usr/bin/python3")):
        if os.path.exists(python) and subprocess.run([python, "-c", "import scipy.optimize"], capture_output=True).returncode == 0:
            return python
    return None


def drawn(name):
    """A ring with links to the next switch and the next but one: flows whose rates move between three paths, on links with little room or none."""
    rng, kind = random.Random(f"solver {name}"), name.split(" ")[0]
    most = 10 ** 9 // FLOWS if kind == "large" else 50
    flows = []
    for number in range(FLOWS):
        first, far = rng.randrange(RING), rng.choice((2, 4))
        ways = [[1] * far, [2] * (far // 2), rng.sample([1] * (far - 2) + [2], far - 1)]
        total, tunnels = rng.randint(1, most), []
        cuts = [sorted((rng.randint(0, total), rng.choice((0, rng.randint(0, total))))) for _ in "on"]
        for place, way in enumerate(ways[:2] if far == 2 else ways):
            path = [first + sum(way[:hops]) for hops in range(len(way) + 1)]
            rates = [(low, high - low, total - high)[place] for low, high in cuts]
            old, new = (rate if rate or rng.randrange(2) else None for rate in rates)
            tunnels.append({"path": [f"s{switch % RING}" for switch in path], "old": old, "new": new})
        flows.append({"name": f"f{number}", "tunnels": tunnels})
    share = {"full": 0, "tight": 12, "large": 20}[kind]
    load = fractions_of_plans.links_of(flows, lambda _: 0)
    links = [dict(link, capacity=link["capacity"] + (-(-link["capacity"] // (share - 1)) if share else rng.choice((0, 0, 1, 5, most // 4)))) for link in load]
    return {"switches": [{"name": f"s{switch}", "table": 3 * FLOWS} for switch in range(RING)], "links": links, "flows": flows}


def problems():
    """All that is planned, by name: the examples that `plan` plans, and what is drawn."""
    for path in sorted(glob.glob(os.path.join(EXAMPLES, "*.json")) + glob.glob(os.path.join(EXAMPLES, "network*", "*.json"))):
        name = os.path.relpath(path, EXAMPLES)
        if not os.path.exists(path.removesuffix(".json") + ".words") and name != "refused.json":
            yield name, json.loads(read(name))
    for number in TWO_FLOWS:
        yield f"two flows {number}", fractions_of_plans.two_flows(number)
    yield "thirds", fractions_of_plans.thirds()
    for number in fractions_of_plans.HALVES:
        yield f"thirds beside {number}", fractions_of_plans.beside(fractions_of_plans.two_flows(number), fractions_of_plans.thirds())
    for name in DRAWN:
        yield name, drawn(name)


def asked(program, word, text):
    done = subprocess.run([program, word], input=text.encode(), capture_output=True)
    return done.returncode, done.stdout.decode()


def rate_steps(document):
    stages = json.loads(document)["plan"]["stages"]
    return sum(stage["rates"] != after["rates"] for stage, after in zip(stages, stages[1:]))


def wrong_with(program, problem, text, document, lines):
    """What is wrong with a document, or with there being none (None), for the problem of a text."""
    status, own = asked(program, "plan", text)
    steps = rate_steps(own) if status == 0 else None
    if document is None:
        return None if steps is None or steps > MOST else f"there is none, and `plan` has {steps} rate steps: {lines}"
    if asked(program, "check", document)[0] != 0:
        return f"isn't accepted: {document}"
    if json.loads(document)["problem"] != problem:
        return "has another problem"
    if steps is not None and rate_steps(document) > steps:
        return f"has {rate_steps(document)} rate steps in place of {steps}: {lines}"
    return None if steps is None or steps > 1 or document == own else f"isn't as `plan` prints it: {document}"


def planned(program, problem):
    """The document of a problem, or None, and what was told on the way."""
    import plan_by_solver
    lines = []
    try:
        return plan_by_solver.planned(plan_by_solver.read(program, json.dumps(problem).encode()), program, MOST, SECONDS, lines.append), lines
    except plan_by_solver.Refused as why:
        return None, lines + [why.args]


def by_script(words, text, *options):
    done = subprocess.run([sys.executable, *options, "-B", SCRIPT, *words], input=text.encode(), capture_output=True)
    return done.returncode, done.stdout.decode(), done.stderr.decode().removesuffix("\n").split("\n")[-1]


def outcomes(program):
    for name, problem in problems():
        document, lines = planned(program, problem)
        yield name, wrong_with(program, problem, json.dumps(problem), document, lines)
        if name.startswith("networks"):
            found, wanted = document and rate_steps(document), NETWORKS[os.path.basename(name).removesuffix(".json")]
            yield f"{name} in so many steps", None if found == wanted else f"has {found} in place of {wanted}"
    for name, problem, document in documents.DOCUMENTS:
        found = by_script(["--program", program], problem)
        yield name, None if found[:2] == (0, document + "\n") else f"gives {found}"
    for name, words, text, *wanted in REFUSALS:
        found = by_script((["--program", program] if "--program" not in words else []) + words.split(), text)
        yield name, None if [found[0], found[2]] == wanted and not found[1] else f"gives {found}"
    status, _, line = by_script([], "{}", "-S")
    yield "no scipy", None if status == 6 and "apt-get install python3-scipy" in line else f"gives {status}, {line}"
    lines = planned_in_no_time(program)
    yield "no time", None if lines == (5, "the solver gave up: 0 s weren't enough") else f"gives {lines}"


def planned_in_no_time(program):
    import plan_by_solver
    try:
        return plan_by_solver.planned(json.loads(read("three-steps.json")), program, MOST, 0, lambda _: None)
    except plan_by_solver.Refused as why:
        return why.args


def main():
    python = with_scipy()
    if python is None:
        print("solver: skipped: this machine has no Python with scipy")
    elif python != sys.executable:
        os.execv(python, [python, "-B", *sys.argv])
    else:
        sys.path.insert(0, TOOLS)
        report("solver", "documents and refusals", outcomes(sys.argv[1]))


if __name__ == "__main__":
    main()
