"""How many operations a release tries where one that is done frees one of a thousand: a thousand flows from one switch to another, each
with an idle tunnel through a third, whose three entries have to be installed first. The last of them frees the rate step of its flow, and that step
frees nothing: so of four releases in a row one begins something.

    python3 tests/tries.py PROGRAM

PROGRAM makes the plan. Fails where a release tries more than a few, or where none begins what was freed.
"""

import json
import os
import subprocess
import sys

HERE = os.path.dirname(os.path.abspath(__file__))
MEASURE = os.path.join(HERE, "..", "crates", "measure", "out", "measure")
FLOWS, RELEASES, FEW, EACH = 1000, 900, 4, 4


def problem():
    table = 2 * FLOWS
    return {
        "switches": [{"name": name, "table": table} for name in "ABC"],
        "links": [{"from": one, "to": other, "capacity": 4 * FLOWS} for one, other in ("AB", "AC", "CB")],
        "flows": [
            {"name": f"f{flow}", "tunnels": [{"path": ["A", "B"], "old": 2, "new": 1}, {"path": ["A", "C", "B"], "old": None, "new": 1}]}
            for flow in range(FLOWS)
        ],
    }


def main():
    plan = subprocess.run([sys.argv[1], "plan"], input=json.dumps(problem()).encode(), capture_output=True, check=True).stdout
    printed = subprocess.run([MEASURE, "tries", str(RELEASES)], input=plan, capture_output=True, check=True).stdout.decode()
    releases = [[int(word) for word in line.replace("woken ", "").split(", began ")] for line in printed.splitlines()]
    most, freed = max(woken for woken, _ in releases), sum(began for _, began in releases)
    print(f"tries: {len(releases)} releases among {FLOWS} flows tried {most} operations at the most, and began {freed}")
    if len(releases) != RELEASES or most > FEW or freed != RELEASES // EACH:
        sys.exit("tries: a release tries what nothing has freed, or doesn't begin what was freed")


if __name__ == "__main__":
    main()
