"""Rollouts and takeovers of the program under the judge, which plays all switches and the disk: no run may have a violation.

    python3 tests/judged.py JUDGE PROGRAM KINDS

A takeover asks each switch what it holds, and asks again where no answer comes in time; then it makes its journal. A question that the judge reads from its
socket only after that is a command to it that isn't of the plan, though it was sent before. A question has the number 0, which no operation has, and no switch
changes what it holds by one. So such a line is counted apart, and is no violation.
"""

import re
import subprocess
import sys

COUNT, SEED, EVENTS = "60", "52000", "1000000"
LATE = re.compile(r"command: Command\(.*\bnumber=0\b.*\) isn't of this switch and plan$")


def main():
    judge, program, kinds = sys.argv[1:]
    words = [sys.executable, "-B", f"{judge}/judge.py", "--count", COUNT, "--seed", SEED, "--events", EVENTS, "--faults", kinds, "--", program]
    done = subprocess.run(words, capture_output=True, text=True)
    lines = done.stdout.splitlines()
    violations = [line.split("VIOLATION ", 1)[1] for line in lines if " VIOLATION " in line]
    late = [text for text in violations if LATE.match(text)]
    last = lines[-1] if lines else done.stderr.strip()
    told = re.match(rf"runs {COUNT}, with a violation \d+((?:, [a-z ]+: \d+)*);", last)
    kinds_told = set(re.findall(r", ([a-z ]+):", told[1])) if told else None
    if len(late) < len(violations) or kinds_told != {text.split(":")[0] for text in violations}:
        print(done.stdout + done.stderr, end="")
        sys.exit(1)
    print(f"judge: {last}" + (f"; {len(late)} questions that were read late" if late else ""))


if __name__ == "__main__":
    main()
