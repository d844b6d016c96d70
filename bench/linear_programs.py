"""Times exact linear programs beside glpsol, or compares their ends with a reference.

    python3 bench/linear_programs.py                     # programs of 100 to 10,000 cells, beside `glpsol --exact`
    python3 bench/linear_programs.py --compare REFERENCE # a thousand random programs, and one that is spent

The programs to time are those of the planner: rates at each stage between, tops a step, and coefficients 0, 1 and -1. A cell is a
coefficient or a bound. Both programs' times leave out reading. REFERENCE is the folder with the reference's `oracle/lp.py`.
"""

import argparse
import collections
import fractions
import os
import random
import re
import shutil
import subprocess
import sys
import tempfile

from runs import PROGRAM, printed, used_by

CELLS = (100, 1000, 5000, 10000)
ENDS = ("point", "infeasible", "overflow")
MOST_EXCHANGES = 1000
Program = collections.namedtuple("Program", "unknowns rows")     # a row: a map from unknown to coefficient, and the bound


def text_of(program):
    lines = [str(program.unknowns)]
    for row, bound in program.rows:
        lines.append(" ".join(str(row.get(j, 0)) for j in range(program.unknowns)) + f" {bound}")
    return "\n".join(lines) + "\n"


def command_line(times):
    return [PROGRAM, "linear", str(times)]


def end_of(program, times=1):
    return printed(command_line(times), input=text_of(program)).split()


# ---- the planner's programs

def network(rng, flows, links):
    """Flows with two tunnels each, that trade places on links which are almost full."""
    tunnels = []
    for flow in range(flows):
        rate = rng.randint(1, 9)
        ways = [rng.sample(range(links), min(links, 2)) for _ in range(2)]
        tunnels.append([(ways[0], rate, 0), (ways[1], 0, rate)])
    load = [[sum(t[side] for own in tunnels for t in own if link in t[0]) for side in (1, 2)] for link in range(links)]
    return tunnels, [max(sides) + rng.randint(1, 9) for sides in load]


def planned(rng, flows, links, steps):
    """The program for so many rate steps of a network."""
    tunnels, capacities = network(rng, flows, links)
    every = [t for own in tunnels for t in own]
    count = len(every)
    rate = lambda stage, t: (stage - 1) * count + t
    top = lambda step, t: (steps - 1) * count + step * count + t
    rows = []
    for step in range(steps):
        for t, (_, old, new) in enumerate(every):
            for stage in (step, step + 1):
                if stage in (0, steps):
                    rows.append(({top(step, t): -1}, -(new if stage else old)))
                else:
                    rows.append(({rate(stage, t): 1, top(step, t): -1}, 0))
    for step in range(steps):
        for link, capacity in enumerate(capacities):
            rows.append(({top(step, t): 1 for t, (way, _, _) in enumerate(every) if link in way}, capacity))
    for stage in range(1, steps):
        for flow, own in enumerate(tunnels):
            total = sum(old for _, old, _ in own)
            numbers = [rate(stage, 2 * flow), rate(stage, 2 * flow + 1)]
            rows.append(({j: -1 for j in numbers}, -total))
            rows.append(({j: 1 for j in numbers}, total))
    return Program(count * (2 * steps - 1), rows)


def of_cells(rng, cells):
    """A program of the planner of about so many cells, the largest that isn't larger."""
    best = None
    for flows in range(1, 16):
        for steps in (2, 3, 4):
            program = planned(rng, flows, max(2, flows), steps)
            size = (program.unknowns + 1) * len(program.rows)
            if size <= cells and (best is None or size > best[0]):
                best = (size, program)
    return best


def exchanges(program):
    """How many exchanges Bland's rule makes on a program."""
    lines = {}
    for i, (row, bound) in enumerate(program.rows):
        lines[program.unknowns + i] = [fractions.Fraction(bound), {j: fractions.Fraction(-v) for j, v in row.items()}]
    for made in range(MOST_EXCHANGES):
        b = min((k for k in lines if lines[k][0] < 0), default=None)
        if b is None:
            return made
        constant, line = lines[b]
        c = min((j for j, v in line.items() if v > 0), default=None)
        if c is None:
            return made
        del lines[b]
        p = line.pop(c)
        constant, line = -constant / p, {j: -v / p for j, v in line.items()}
        line[b] = 1 / p
        for other in lines.values():
            t = other[1].pop(c, None)
            if t is not None:
                other[0] += t * constant
                for j, v in line.items():
                    value = other[1].get(j, 0) + t * v
                    if value:
                        other[1][j] = value
                    else:
                        other[1].pop(j, None)
        lines[c] = [constant, line]
    return MOST_EXCHANGES


# ---- times

def own_seconds(program):
    """The processor's seconds of one solution."""
    text, times = text_of(program).encode(), 2
    once = min(used_by(command_line(1), input=text) for _ in range(3))
    while True:
        taken = min(used_by(command_line(times), input=text) for _ in range(3)) - once
        if taken > 0.3 or times > 100000:
            return taken / (times - 1)
        times *= 4


def lp_text(program):
    lines = ["Minimize", " obj: 0 x0", "Subject To"]
    for i, (row, bound) in enumerate(program.rows):
        terms = " ".join(f"{'+' if v > 0 else '-'} {abs(v)} x{j}" for j, v in sorted(row.items()))
        lines.append(f" r{i}: {terms or '0 x0'} <= {bound}")
    return "\n".join(lines + ["End"]) + "\n"


def glpsol_seconds(program, folder):
    """The processor's seconds that glpsol takes beyond reading, and its exchanges."""
    path = os.path.join(folder, "program.lp")
    with open(path, "w") as file:
        file.write(lp_text(program))
    said = subprocess.run(["glpsol", "--exact", "--nopresol", "--lp", path], capture_output=True, text=True).stdout
    made = [int(found) for found in re.findall(r"^\*?\s*(\d+):\s+(?:infsum|objval)", said, re.M)]
    solve = min(used_by(["glpsol", "--exact", "--nopresol", "--lp", path]) for _ in range(5))
    read = min(used_by(["glpsol", "--check", "--lp", path]) for _ in range(5))
    return max(solve - read, 0), max(made, default=0)


def measure():
    beside = shutil.which("glpsol")
    if not beside:
        print("bench: skipped glpsol: it isn't installed (Debian's glpk-utils)")
    rng = random.Random(20)
    with tempfile.TemporaryDirectory() as folder:
        for cells in CELLS:
            size, program = of_cells(rng, cells)
            made, seconds = exchanges(program), own_seconds(program)
            line = f"{size} cells: {end_of(program)[0]}, {made} exchanges, {seconds * 1e3:.3f} ms, {seconds / max(made, 1) * 1e6:.1f} us each"
            if beside:
                theirs, steps = glpsol_seconds(program, folder)
                line += f"; glpsol {steps} exchanges, {theirs * 1e3:.3f} ms"
                if theirs > 0.0002:
                    line += f"; ratio {seconds / theirs:.3f} in all, {seconds / max(made, 1) / (theirs / max(steps, 1)):.3f} per exchange"
            print(line, flush=True)


# ---- the reference

def random_program(rng):
    unknowns, count = rng.randint(1, 7), rng.randint(1, 9)
    largest = rng.choice((3, 9) + 4 * (10 ** 9,))
    number = lambda: rng.choice((0, rng.randint(-largest, largest)))
    rows = [({j: number() for j in range(unknowns)}, rng.randint(-largest, largest)) for _ in range(count)]
    return Program(unknowns, rows)


def spent_program():
    """Blocks of ten unknowns: each and twice every later one of its block are together at least 1, which takes 27 exchanges."""
    block, unknowns = 10, 380
    rows = [({k: -1 if k == j else -2 for k in range(j, j - j % block + block)}, -1) for j in range(unknowns)]
    return Program(unknowns, rows)


def expected(lp, program):
    rows = lp.Rows(program.unknowns)
    for row, bound in program.rows:
        rows.add({j: (v, 1) for j, v in row.items()}, (bound, 1))
    name, given = lp.solve(rows)
    return [name] + ([f"{top}/{bottom}" for top, bottom in given] if isinstance(given, list) else [str(given)])


def compare(reference, count):
    sys.dont_write_bytecode = True
    sys.path.insert(0, os.path.abspath(reference))
    from oracle import lp

    rng, met = random.Random(7), collections.Counter()
    for program in [random_program(rng) for _ in range(count)] + [spent_program()]:
        wanted, found = expected(lp, program), end_of(program)
        if wanted != found:
            sys.exit(f"compare: {text_of(program)} ends with {found}, by the reference with {wanted}")
        met[wanted[0]] += 1
    print("compare: " + ", ".join(f"{name} {met[name]}" for name in ENDS + ("spent",)))
    if any(met[name] < count // 10 for name in ENDS) or not met["spent"]:
        sys.exit("compare: too few of an end")


def main():
    words = argparse.ArgumentParser(description=__doc__, formatter_class=argparse.RawDescriptionHelpFormatter)
    words.add_argument("--compare", metavar="REFERENCE")
    words.add_argument("--count", type=int, default=1000)
    given = words.parse_args()
    if given.compare:
        compare(given.compare, given.count)
    else:
        measure()


if __name__ == "__main__":
    main()
