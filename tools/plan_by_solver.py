#!/usr/bin/env python3
"""Plans a change by a linear solver, for networks where `swanroll plan` finds no plan, or one of many steps.

    tools/plan_by_solver.py [--program PATH] [--steps MOST] [--seconds N] < problem.json > document.json

Tries 1, 2, 3 .. rate steps, and prints the document of the first number for which it has a plan, as `plan` prints one. In each step a link has to carry
the larger of each tunnel's rates before and behind it (SWAN's rule); of all rates that fit the solver takes those that move least. They are rounded to
whole numbers, and the program's `check` decides: what it refuses isn't printed. Standard error has a line for each number of steps.

Ends with status 2 where the words aren't a command line, 3 where the input isn't a problem, 4 where no plan was found, 5 where the solver gave up, 6
where scipy isn't there, and 7 where the program doesn't answer.
"""

import argparse
import json
import os
import subprocess
import sys
import time

try:
    import numpy
    from scipy import optimize, sparse
except ImportError:
    optimize = None

PROGRAM = os.path.join(os.path.dirname(os.path.dirname(os.path.abspath(__file__))), "swanroll")
# A document has at most 256 stages, of which four may be those of tunnels that come and go.
MOST_STEPS = 252
# Whole rates are tried first, and then these parts of one.
SCALES = (1, 2, 12, 60, 2520)
# The solver keeps to its rows within 1e-7, so it is given rates of at most 10,000; what lies so near below a whole number is taken for it.
LARGEST, NEAR = 1e4, 1e-6
SAID = {0: "found", 1: "no time is left", 2: "there are none"}


class Refused(Exception):
    """The status to end with, and why."""


class Change:
    """A problem in arrays: the tunnels' rates and marks, which links each crosses, and whose it is."""

    def __init__(self, problem):
        self.problem = problem
        tunnels = [tunnel for flow in problem["flows"] for tunnel in flow["tunnels"]]
        self.old, self.new = (numpy.array([tunnel[side] or 0 for tunnel in tunnels], dtype=numpy.int64) for side in ("old", "new"))
        self.was_there, self.wanted = (numpy.array([tunnel[side] is not None for tunnel in tunnels], dtype=bool) for side in ("old", "new"))
        self.used = self.wanted | (self.old > 0)
        self.flow = numpy.repeat(numpy.arange(len(problem["flows"])), [len(flow["tunnels"]) for flow in problem["flows"]])
        link_at = {(link["from"], link["to"]): number for number, link in enumerate(problem["links"])}
        switch_at = {switch["name"]: number for number, switch in enumerate(problem["switches"])}
        self.along = [[link_at[ends] for ends in zip(tunnel["path"], tunnel["path"][1:])] for tunnel in tunnels]
        self.crossing = self.table_of(len(link_at), self.along)
        self.own = self.table_of(len(problem["flows"]), [[flow] for flow in self.flow])
        self.capacity = numpy.array([link["capacity"] for link in problem["links"]], dtype=numpy.int64)
        self.entries = self.table_of(len(switch_at), [[switch_at[name] for name in tunnel["path"]] for tunnel in tunnels])
        self.widths = numpy.array([tunnel.get("width", 1) for tunnel in tunnels], dtype=numpy.int64)
        totals = self.own @ self.old, self.own @ self.new
        self.least, self.most = numpy.minimum(*totals), numpy.maximum(*totals)

    @staticmethod
    def table_of(count, rows):
        """A sparse table of ones: a column for each tunnel, with its places among so many rows."""
        places = numpy.array([place for row in rows for place in row], dtype=numpy.int64)
        columns = numpy.repeat(numpy.arange(len(rows)), [len(row) for row in rows])
        return sparse.csr_matrix((numpy.ones(len(places), dtype=numpy.int64), (places, columns)), shape=(count, len(rows)))

    def over(self, rows, scale):
        """By how much each step asks more of each link than it has; `rows` has the rates from the old split to the new one."""
        return (self.crossing @ numpy.maximum(rows[:-1], rows[1:]).T).T - self.capacity * scale

    def refusal(self):
        """Why there is no plan of any number of steps, as `plan` says it; None where nothing is known against one."""
        for side in ("old", "new"):
            load = self.crossing @ getattr(self, side)
            for number in numpy.flatnonzero(load > self.capacity)[:1]:
                link = self.problem["links"][number]
                return f"link {text_of(link['from'])}>{text_of(link['to'])} {side} load {load[number]} above {self.capacity[number]}"
        for marks in (self.was_there, self.used):
            for switch, wanted in zip(self.problem["switches"], self.entries @ (self.widths * marks)):
                if wanted > switch["table"]:
                    return f"table {text_of(switch['name'])} wants {wanted} above {switch['table']}"
        return None


def text_of(value):
    return json.dumps(value, ensure_ascii=False, separators=(",", ":"), sort_keys=True)


def canonical(problem):
    """A problem without the keys that the program passes over."""
    wide = problem.get("format", 1) == 2
    return {
        **({"format": 2} if wide else {}),
        "switches": [{key: switch[key] for key in ("name", "table")} for switch in problem["switches"]],
        "links": [{key: link[key] for key in ("from", "to", "capacity")} for link in problem["links"]],
        "flows": [{"name": flow["name"], "tunnels": [{key: tunnel[key] for key in ("path", "old", "new") + ("width",) * wide} for tunnel in flow["tunnels"]]}
                  for flow in problem["flows"]],
    }


def document_of(change, scale, between):
    """The document with these rates behind each rate step but the last, and with the stages of tunnels that go and come around them."""
    old, new, used = change.old * scale, change.new * scale, change.used
    moves = [*between, new] if (change.old != change.new).any() else []
    stages = [(old, change.was_there)]
    stages += [(old, change.was_there & used)] if (change.was_there & ~used).any() else []
    stages += [(old, used)] if (used & ~change.was_there).any() else []
    stages += [(row, used) for row in moves]
    stages += [(new, change.wanted)] if (used & ~change.wanted).any() else []
    plan = {"scale": scale, "stages": [{"installed": marks.tolist(), "rates": rates.tolist()} for rates, marks in stages]}
    return text_of({"plan": plan, "problem": change.problem}) + "\n"


def solved(change, steps, seconds):
    """What the solver says of so many steps, and the rates at the stages between, a row for each. One step has none between."""
    if steps <= 1:
        return (2, None) if change.over(numpy.array([change.old, change.new]), 1).max(initial=0) > 0 else (0, [])
    count, unit = len(change.old), max(1.0, max(change.old.max(), change.new.max()) / LARGEST)
    old, new = change.old / unit, change.new / unit
    # No step asks a link for more than each flow's total twice.
    capacity = numpy.minimum(change.capacity, 2 * change.most.sum()) / unit
    before, behind = sparse.eye(steps, steps - 1, k=-1), sparse.eye(steps, steps - 1)
    # The unknowns are the rates at each stage between, and by how much each rate rises in each step; a tunnel's larger rate is the one before and that.
    rises = sparse.hstack([sparse.kron(behind - before, sparse.eye(count)), -sparse.eye(steps * count)])
    loads = sparse.hstack([sparse.kron(before, change.crossing), sparse.kron(sparse.eye(steps), change.crossing)])
    first, last = numpy.arange(steps) == 0, numpy.arange(steps) == steps - 1
    rows = [rises, loads]
    bounds = [numpy.kron(first, old) - numpy.kron(last, new), numpy.tile(capacity, steps) - numpy.kron(first, change.crossing @ old)]
    totals = sparse.hstack([sparse.kron(sparse.eye(steps - 1), change.own), sparse.csr_matrix(((steps - 1) * len(change.least), steps * count))]).tocsr()
    least, most = (numpy.tile(total / unit, steps - 1) for total in (change.least, change.most))
    free = least < most
    rows += [totals[free], -totals[free]]
    bounds += [most[free], -least[free]]
    done = optimize.linprog(
        numpy.repeat([0, 1], [(steps - 1) * count, steps * count]), sparse.vstack(rows, format="csr"), numpy.concatenate(bounds), totals[~free], least[~free],
        [(0, None if used else 0) for used in numpy.tile(change.used, steps - 1)] + [(0, None)] * (steps * count),
        method="highs", options={"time_limit": seconds})
    return done.status, None if done.x is None else done.x[:(steps - 1) * count].reshape(steps - 1, count) * unit


def rounded(change, rates, scale):
    """The rates of a stage as whole numbers of 1/scale, with each flow's total the nearest that it may have: the largest remainders are rounded up."""
    exact = numpy.maximum(rates, 0) * scale
    whole = numpy.floor(exact + NEAR).astype(numpy.int64)
    totals = numpy.clip(numpy.rint(change.own @ exact).astype(numpy.int64), change.least * scale, change.most * scale)
    missing = (totals - change.own @ whole)[change.flow]
    order = numpy.lexsort((-numpy.where(change.used, numpy.round(exact - whole, 4), -1), change.flow))
    sizes = numpy.bincount(change.flow, minlength=len(totals))
    rank = numpy.empty_like(whole)
    rank[order] = numpy.arange(len(order)) - numpy.repeat(numpy.cumsum(sizes) - sizes, sizes)
    return whole + (rank < missing) - (sizes[change.flow] - 1 - rank < -missing)


def moves_at(change, rows, step, link, scale):
    """Units that may leave a link in a step: from a tunnel across it at one or both of the step's stages, to another tunnel of the flow or to none."""
    inner = [stage for stage in (step, step + 1) if 0 < stage < len(rows) - 1]
    for down in change.crossing[link].indices:
        flow = change.flow[down]
        others = [up for up in change.own[flow].indices if change.used[up] and link not in change.along[up]]
        for stages in [[stage] for stage in inner] + [inner] * (len(inner) > 1):
            if rows[stages, down].min() > 0:
                may_fall = (rows[stages][:, change.flow == flow].sum(axis=1) > change.least[flow] * scale).all()
                yield from ((stages, down, up) for up in others + [None] * bool(may_fall))


def gain_of(change, rows, over, move):
    """How much less is asked of all links above what they have, in all steps, where a unit moves so."""
    stages, down, up = move
    first, risen = stages[0] - 1, {}
    for tunnel, more in ((down, -1), (up, 1)):
        if tunnel is not None:
            moved = rows[first:stages[-1] + 2, tunnel]
            was = numpy.maximum(moved[:-1], moved[1:])
            moved = moved.copy()
            moved[[stage - first for stage in stages]] += more
            for step, by in enumerate(numpy.maximum(moved[:-1], moved[1:]) - was, first):
                for link in change.along[tunnel]:
                    risen[step, link] = risen.get((step, link), 0) + by
    return sum(max(over[place], 0) - max(over[place] + by, 0) for place, by in risen.items())


def repaired(change, rows, scale):
    """The rows with single units moved until no step asks too much of a link; None where no move brings that nearer."""
    while (over := change.over(rows, scale)).max(initial=0) > 0:
        step, link = numpy.unravel_index(over.argmax(), over.shape)
        move = max(moves_at(change, rows, step, link, scale), key=lambda one: gain_of(change, rows, over, one), default=None)
        if move is None or gain_of(change, rows, over, move) <= 0:
            return None
        stages, down, up = move
        rows[stages, down] -= 1
        if up is not None:
            rows[stages, up] += 1
    return rows


def asked(program, document):
    """What the program's `check` says of a document: its status and its last line."""
    try:
        done = subprocess.run([program, "check"], input=document, capture_output=True)
    except OSError as fault:
        raise Refused(7, f"{program}: {fault.strerror}")
    line = (done.stderr if done.returncode else done.stdout).decode(errors="replace").strip().rpartition("\n")[2]
    if done.returncode not in (0, 3):
        raise Refused(7, f"{program} check ends with status {done.returncode}: {line}")
    return done.returncode, line


def read(program, text):
    """The problem of this text, where the program reads it as one. That its plan has no stage is what `check` says of it then."""
    _, line = asked(program, b'{"plan":{"scale":1,"stages":[]},"problem":' + text + b"}")
    if not line.startswith("input: plan: P0"):
        raise Refused(3, line)
    try:
        return canonical(json.loads(text))
    except ValueError:
        raise Refused(3, "input: not JSON")


def in_whole_numbers(change, program, between):
    """The document of these rates in the first scale in which `check` accepts them, and what is said of it."""
    for scale in SCALES:
        rows = numpy.array([change.old * scale, *(rounded(change, rates, scale) for rates in between), change.new * scale])
        rows = repaired(change, rows, scale)
        if rows is not None:
            document = document_of(change, scale, rows[1:-1])
            status, line = asked(program, document.encode())
            if status == 0:
                return document, f"check says {line}"
    return None, f"not in whole numbers at scale {', '.join(map(str, SCALES))}"


def planned(problem, program, most, seconds, tell):
    """The document of the fewest steps for which there is one."""
    change, until, gave_up = Change(problem), time.monotonic() + seconds, False
    if why := change.refusal():
        raise Refused(4, f"no plan: {why}")
    for steps in range(int((change.old != change.new).any()), most + 1):
        begun = time.monotonic()
        status, between = solved(change, steps, until - begun) if steps <= 1 or begun < until else (1, None)
        said = SAID.get(status, "numbers that are too far apart")
        document, judged = in_whole_numbers(change, program, between) if between is not None else (None, None)
        tell(f"rate steps {steps}: {said}, {time.monotonic() - begun:.1f} s{'; ' + judged if judged else ''}")
        if document:
            return document
        gave_up |= between is None and status != 2
        if status == 1:
            raise Refused(5, f"the solver gave up: {seconds} s weren't enough")
    raise Refused(5 if gave_up else 4, f"{'the solver gave up' if gave_up else 'no plan'}: none of up to {most} rate steps was found")


def number_up_to(most):
    def number(word):
        if not word.isdecimal() or not 1 <= int(word) <= most:
            raise argparse.ArgumentTypeError(f"not a number from 1 to {most}")
        return int(word)
    return number


def main():
    words = argparse.ArgumentParser(description="Plans a change by a linear solver: a problem on standard input, its document on standard output.")
    words.add_argument("--program", metavar="PATH", default=PROGRAM, help="whose check decides (the repository's ./swanroll)")
    words.add_argument("--steps", metavar="MOST", type=number_up_to(MOST_STEPS), default=12, help="how many rate steps are tried at most (12)")
    words.add_argument("--seconds", metavar="N", type=number_up_to(1_000_000), default=600, help="how long the solver may take in all (600)")
    given = words.parse_args()
    try:
        if optimize is None:
            raise Refused(6, f"{sys.executable} has no scipy: on Debian apt-get install python3-scipy, which is for /usr/bin/python3")
        document = planned(read(given.program, sys.stdin.buffer.read()), given.program, given.steps, given.seconds, lambda line: print(line, file=sys.stderr))
    except Refused as why:
        print(why.args[1], file=sys.stderr)
        sys.exit(why.args[0])
    sys.stdout.buffer.write(document.encode())


if __name__ == "__main__":
    main()
