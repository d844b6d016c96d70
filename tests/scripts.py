"""What `swanroll sim` reads, to its limits: its words, documents and their plans, each event, how many a script may have and
how many commands it may send. Runs the program on each input and compares its status and its lines.

    python3 tests/scripts.py PROGRAM
"""

import json
import resource
import subprocess
import sys

from outcomes import report

FLOWS = 64
MOST_SENT = 4000000
STARTS = 4000
# How much of a processor's time so many starts may take, in seconds; where each read the whole journal anew they took thirty.
STARTED_WITHIN = 5
MOST_EVENTS = 100000


def refused(line):
    return 3, b"", f"input: {line}\n".encode()


def document(flows, script):
    """Flows that each move half of their rate from the link there to the way over C, all in one step."""
    return json.dumps({
        "problem": {
            "switches": [{"name": name, "table": 1000} for name in "ABC"],
            "links": [{"from": a, "to": b, "capacity": 1000} for a, b in ("AB", "AC", "CB")],
            "flows": [{"name": f"f{at}", "tunnels": [
                {"path": ["A", "B"], "old": 2, "new": 1}, {"path": ["A", "C", "B"], "old": 0, "new": 1},
            ]} for at in range(flows)],
        },
        "plan": {"scale": 1, "stages": [
            {"rates": rates * flows, "installed": [True, True] * flows} for rates in ([2, 0], [1, 1])
        ]},
        "script": script,
    }).encode()


def run(program, data, words=("sim",)):
    done = subprocess.run([program, *words], input=data, capture_output=True)
    return done.returncode, done.stdout, done.stderr


def words_with_a_policy(program):
    """Words that name a policy, and words that only look like it."""
    for words in ("sim", "sim --policy critical", "sim --policy order", "sim --policy freeze"):
        yield words, run(program, document(1, [["round"]]), words.split(" "))[0] == 0
    for words in (
        "sim --policy", "sim --policy none", "sim --policy Order", "sim --policy ", "sim --policy -", "sim --policy --policy", "sim --policy=order",
        "sim -policy order", "sim policy order", "sim --Policy order", "sim -- order", "sim order --policy", "sim --policy order --policy order",
        "sim --policy order critical", "sim --policy order --k 3", "sim --k 3", "plan --policy order", "check --policy order", "--policy order sim",
    ):
        yield words, run(program, document(1, []), words.split(" ")) == (2, b"", b"usage: swanroll COMMAND [--NAME VALUE]\n")


def documents(program):
    """Plans for a problem without rows: what the grammar takes is refused by the checker alone."""
    stage = '{"installed":[],"rates":[]}'

    def with_plan(plan, more=',"script":[]'):
        return run(program, ('{"problem":{"switches":[],"links":[],"flows":[]},"plan":' + plan + more + "}").encode())

    def with_stage(inside):
        return with_plan('{"scale":1,"stages":[' + inside + "]}")

    broken = "plan: P0 at stage 0, whole: "
    yield "a plan of one stage", with_plan('{"scale":1,"stages":[' + stage + "]}")[0] == 0
    yield "no script", with_plan('{"scale":1,"stages":[' + stage + "]}", "") == refused('top: missing "script"')
    for scale, line in (("65536", broken + "0 against 1"), ("0", broken + "0 against 1"), ("65537", "plan.scale: 65537 above 65536")):
        yield f"a scale of {scale}", with_plan('{"scale":' + scale + ',"stages":[]}') == refused(line)
    for inside, line in (
        ('{"installed":[true],"rates":[65536000000000]}', broken + "1 against 0"), ('{"installed":[],"rates":[7]}', broken + "1 against 0"),
        ('{"installed":[true],"rates":[]}', broken + "1 against 0"), ('{"installed":[true],"rates":[65536000000001]}', "plan.stages[0].rates[0]: 65536000000001 above 65536000000000"),
    ):
        yield f"the stage {inside}", with_stage(inside) == refused(line)
    yield "256 stages", with_stage(",".join([stage] * 256))[0] == 0
    yield "257 stages", with_stage(",".join([stage] * 257)) == refused("plan.stages: 257 above 256")
    for count, line in ((4096, broken + "4096 against 0"), (4097, None)):
        yield f"{count} marks", with_stage('{"installed":[' + ",".join(["true"] * count) + '],"rates":[]}') == refused(line or "plan.stages[0].installed: 4097 above 4096")
        yield f"{count} rates", with_stage('{"installed":[],"rates":[' + ",".join(["1"] * count) + "]}") == refused(line or "plan.stages[0].rates: 4097 above 4096")


def events_of_any_kind(program):
    """Each event."""
    right = [["round"], ["all"], ["stop"], ["start"], ["crash", "lost"], ["crash", "kept"], ["send", 0], ["deliver", 4294967295], ["hand", 1]]
    for event in right:
        yield f"the event {event}", run(program, document(1, [event]))[0] == 0


def counts_of_events(program):
    """The longest script, and one event more."""
    status, out, _ = run(program, document(1, [["start"]] * MOST_EVENTS))
    lines = out.decode().split("\n")
    yield "100000 events", status == 0 and lines[MOST_EVENTS - 1] == "99999 skipped" and lines[MOST_EVENTS].startswith("peak ")
    yield "100001 events", run(program, document(1, [["start"]] * (MOST_EVENTS + 1))) == refused("script: 100001 above 100000")


def counts_of_commands(program):
    """As many commands as a script may send, by All and one by one, and one more."""
    alls = MOST_SENT // FLOWS - 1
    script = [["round"]] + [["all"]] * alls + [["send", 0]] + [["all"]] + [["send", FLOWS - 1]] * (FLOWS - 1) + [["send", 0], ["all"], ["hand", 0]]
    status, out, _ = run(program, document(FLOWS, script))
    lines = out.decode().split("\n")
    at = alls + 1
    yield "the last All inside the limit", status == 0 and lines[at - 1] == f"{at - 1} all: {FLOWS}"
    yield "an All that would send too many", lines[at + 1] == f"{at + 1} skipped"
    last = at + FLOWS
    yield "the last command", lines[last] == f"{last} send {FLOWS - 1}: item {FLOWS - 1} operation 1"
    yield "a command too many", lines[last + 1] == f"{last + 1} skipped" and lines[last + 2] == f"{last + 2} skipped"
    yield "an act behind the last command", lines[last + 3] == f"{last + 3} hand 0: item 0 held 1"


def starts_in(script):
    """The lines of a script in which each round is followed by a stop and a start, and what each start finds."""
    return [f"{at} start: entries {script[at][1]}" if script[at][0] == "start" else None for at in range(len(script))]


def starts_find_what_came(program):
    """Each start finds all that became durable before it: behind a round, behind one that was lost or kept in a crash, and where nothing came."""
    begun, done = FLOWS, 2 * FLOWS
    acts = [("stop", 0), ("start", 0), ("crash lost", 0), ("start", 0), ("crash kept", 0), ("start", begun), ("stop", 0), ("start", begun), ("all", 0), ("crash lost", 0), ("start", begun),
            ("all", 0), ("crash kept", 0), ("start", done), ("round", 0), ("stop", 0), ("start", done)]
    status, out, _ = run(program, document(FLOWS, [act.split(" ") for act, _ in acts]))
    lines = out.decode().split("\n")
    for at, line in enumerate(starts_in(acts)):
        if line:
            yield f"what start {at} finds", status == 0 and lines[at] == line


def time_of_starts(program):
    """As many starts as would have held a machine up for half a minute."""
    before = resource.getrusage(resource.RUSAGE_CHILDREN)
    status, out, _ = run(program, document(1, [["round"], ["stop"], ["start"]] * STARTS))
    after = resource.getrusage(resource.RUSAGE_CHILDREN)
    yield f"{STARTS} starts", status == 0 and out.decode().split("\n")[3 * STARTS - 1] == f"{3 * STARTS - 1} start: entries 1"
    yield f"{STARTS} starts, their time", after.ru_utime + after.ru_stime - before.ru_utime - before.ru_stime < STARTED_WITHIN


def outcomes(program):
    for cases in (words_with_a_policy, documents, events_of_any_kind, counts_of_events, counts_of_commands, starts_find_what_came, time_of_starts):
        for name, passed in cases(program):
            yield name, None if passed else "another answer than wanted"


if __name__ == "__main__":
    report("scripts", "cases", outcomes(sys.argv[1]))
