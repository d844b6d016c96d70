"""What each crate costs the gate: the processor minutes of its proof, of its tests and of its must-fail edits.

    python3 bench/gate.py [COMMAND ..]

Runs a command, `rt ci` where none is given, at the top of the repository, and looks every two seconds at the checkers that it has started. What was
kept from earlier runs costs nothing: take it where nothing is kept, and where nothing else runs, which makes the same work take longer. It prints a
table, the dearest crate first, and ends with the command's status.
"""

import collections
import os
import subprocess
import sys
import tempfile
import time

HERE = os.path.dirname(os.path.abspath(__file__))
KINDS = ("proof", "tests", "edits")
TICKS = os.sysconf("SC_CLK_TCK")


def parent_of(process):
    with open(f"/proc/{process}/stat", encoding="utf-8", errors="replace") as line:
        return int(line.read().rsplit(")", 1)[1].split()[1])


def is_below(process, top):
    """Whether a process was started by another, or by one that this has started, and so on."""
    while process > 1 and process != top:
        process = parent_of(process)
    return process == top


def checkers(top):
    """Each checker that runs below a process now: its number, its words, and the processor's seconds that it has taken."""
    for process in filter(str.isdigit, os.listdir("/proc")):
        try:
            with open(f"/proc/{process}/cmdline", encoding="utf-8", errors="replace") as line:
                words = line.read().split("\0")
            if os.path.basename(words[0]) != "rattle" or "--crate-name" not in words or not is_below(int(process), top):
                continue
            with open(f"/proc/{process}/stat", encoding="utf-8", errors="replace") as line:
                fields = line.read().rsplit(")", 1)[1].split()
            yield process, words, (int(fields[11]) + int(fields[12])) / TICKS
        except (OSError, IndexError):  # it has ended
            continue


def kind_of(words):
    """Which part of the gate a checker works for. A crate and its tests are built; the check that edits begin with, and that of each edit, builds nothing."""
    if "--test" in words:
        return "tests"
    return "edits" if words[1] == "check" and "-o" not in words else "proof"


def watched(running, every):
    """The processor's seconds by crate and kind while a process runs."""
    seen = {}
    while running.poll() is None:
        for process, words, seconds in checkers(running.pid):
            seen[process, words[words.index("--crate-name") + 1], kind_of(words)] = seconds
        time.sleep(every)
    taken = collections.Counter()
    for (_, crate, kind), seconds in seen.items():
        taken[crate, kind] += seconds
    return taken


def table(taken):
    """The lines of the table, in minutes."""
    crates = sorted({crate for crate, _ in taken}, key=lambda crate: -sum(taken[crate, kind] for kind in KINDS))
    yield "| Crate | Proof | Tests | Edits | In all |"
    yield "|---|---|---|---|---|"
    for crate in crates:
        minutes = [taken[crate, kind] / 60 for kind in KINDS]
        yield f"| `{crate}` | {' | '.join(f'{value:.1f}' if value else '' for value in minutes)} | {sum(minutes):.1f} |"
    sums = [sum(seconds for (_, of), seconds in taken.items() if of == kind) / 60 for kind in KINDS]
    yield f"| all | {' | '.join(f'{value:.0f}' for value in sums)} | {sum(sums):.0f} |"


def main():
    command = sys.argv[1:] or ["rt", "ci"]
    with tempfile.TemporaryFile() as log:
        running = subprocess.Popen(command, cwd=os.path.join(HERE, ".."), stdout=log, stderr=subprocess.STDOUT)
        for line in table(watched(running, 2)):
            print(line)
        log.seek(0)
        sys.stdout.write(log.read().decode(errors="replace").rstrip("\n").rsplit("\n", 1)[-1] + "\n")
    sys.exit(running.returncode)


if __name__ == "__main__":
    main()
