"""Compares the program with an independent reference on generated inputs, journals and command lines, and on good inputs of which a few bytes
were changed: status, output, notes and the journal afterwards have to be the same byte for byte.

    python3 tests/against_reference.py REFERENCE PROGRAM [COUNT]

REFERENCE is the folder with the reference's `diff.py`. COUNT is that of each kind; without it each has its own. Prints what each kind met,
and fails where one differs.
"""

import collections
import json
import os
import random
import subprocess
import sys
import tempfile

from fractions_of_plans import problems

KINDS = {"plan": 3000, "bad": 3000, "check": 2000, "least": 2000, "back": 2000, "sim": 2000, "report": 2000, "trial": 1000, "words": 2000, "mutated": 2000}
# Scales that the plans of linear programs have to have, and how many such plans there have to be.
SCALES, PROGRAMS = (2, 3, 4, 5, 6), 200
# What the program does by now.
FEATURES = "none,places,planner,lp,widths,marks,crashes,sim,check,least,back,policies,freeze,migration,report,agent,trial,run,rollback,journal=r16"
PIECES = [b"null", b"true", b"-", b"1", b"1.5", b"99999999999", b'"A"', b"[]", b"{}", b",", b":", b"[", b"}", b'"', b"\\", b"\xff", b" "]


def mutated(rng, data):
    """The bytes with one to three places changed: a byte, a piece that goes, comes twice, or is put in."""
    for _ in range(rng.choice((1, 1, 2, 3))):
        at = rng.randrange(len(data) + 1)
        end = min(len(data), at + rng.choice((1, 1, 2, 8, 40)))
        change = rng.randrange(4)
        if change == 0:
            data = data[:at] + bytes([rng.randrange(256)]) + data[at + 1:]
        elif change == 1:
            data = data[:at] + data[end:]
        elif change == 2:
            data = data[:end] + data[at:end] + data[end:]
        else:
            data = data[:at] + rng.choice(PIECES) + data[at:]
    return data


def mutations(gen, cli, features, program, count):
    """How many good inputs with changes the program ends otherwise on than the reference, or with neither status 0 nor a refusal."""
    rng, met, wrong = random.Random(1), {}, 0
    unsaid = {name: value for name, value in os.environ.items() if name != "SWANROLL_CEILING"}
    for number in range(count):
        case = gen.make(rng.choice(("plan", "check", "sim")), "m", number, features)
        data = mutated(rng, case.data)
        status, out, notes = cli.run(case.words, data, case.env, None, features)
        done = subprocess.run([program] + case.words, input=data, capture_output=True, env={**unsaid, **case.env})
        if (done.returncode, done.stdout, done.stderr) != (status, out, notes) or status not in (0, 2, 3, 4):
            wrong += 1
            print(f"MISMATCH mutated {number} {case.words}: wanted {status} {notes!r}, got {done.returncode} {done.stderr!r}\n  {data!r}")
        met[status] = met.get(status, 0) + 1
    print(f"kind mutated: {count} cases, {wrong} mismatches, by status {dict(sorted(met.items()))}")
    return wrong


def fractions(cli, planner, features, program):
    """How many problems of the families of fractions end otherwise than by the reference, or 1 where too few of their plans come from a linear
    program, or none of them has one of the scales."""
    met, wrong = collections.Counter(), 0
    for problem in problems():
        data = json.dumps(problem).encode()
        status, out, notes = cli.run(["plan"], data, {}, None, features)
        if "linear program" in planner.trace:
            met[json.loads(out)["plan"]["scale"]] += 1
        done = subprocess.run([program, "plan"], input=data, capture_output=True)
        if (done.returncode, done.stdout, done.stderr) != (status, out, notes):
            wrong += 1
            print(f"MISMATCH fractions: wanted {status} {notes!r}, got {done.returncode} {done.stderr!r}\n  {data!r}")
    print(f"kind fractions: {len(problems())} cases, {wrong} mismatches, plans of linear programs by scale {dict(sorted(met.items()))}")
    return wrong or int(sum(met.values()) < PROGRAMS or any(not met[scale] for scale in SCALES))


def main():
    reference, program = os.path.abspath(sys.argv[1]), os.path.abspath(sys.argv[2])
    sys.dont_write_bytecode = True
    sys.path.insert(0, reference)
    import diff
    import gen
    from oracle import cli, features, planner

    with tempfile.TemporaryDirectory() as found:
        given = sys.argv[3:]
        rows = [(kind, "1", 0, int(given[0]) if given else count) for kind, count in KINDS.items()]
        failed = bool(fractions(cli, planner, features.from_env({}, None, FEATURES), program))
        for kind, seed, start, count in rows:
            if kind == "mutated":
                failed = bool(mutations(gen, cli, features.from_env({}, None, FEATURES), program, count)) or failed
                continue
            sys.argv[1:] = ["--bin", program, "--kind", kind, "--count", str(count), "--start", str(start), "--seed", seed, "--features", FEATURES,
                            "--out", found]
            try:
                failed = bool(diff.main()) or failed
            except SystemExit as end:
                failed = bool(end.code) or failed
    sys.exit(1 if failed else 0)


if __name__ == "__main__":
    main()
