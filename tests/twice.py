"""No 12 lines of code stand in two places but those that docs/ARCHITECTURE.md says are meant, and each pair that it names is there.

    python3 tests/twice.py

The pairs are found by `duplicates`, a command of the machine that the code is made on; where there is none nothing is tried. Crates of cases, tests and worked
examples are left out: a case is read by itself.
"""

import os
import re
import shutil
import subprocess
import tempfile

from outcomes import report

TOP = os.path.join(os.path.dirname(os.path.abspath(__file__)), "..")
LEAST = 12
SECTION = "## What stands twice"
ROW = re.compile(r"^D\d+ (\S+?):\d+-\d+ ~ (\S+?):\d+-\d+")


def is_tried(crate, path):
    return not crate.endswith("_cases") and crate != "measure" and path.endswith(".rt") and "tests" not in path.split(os.sep) and os.path.basename(path) != "worked.rt"


def copy_to(folder):
    """The code, each file with the ending of a language that the command reads."""
    for crate in sorted(os.listdir(os.path.join(TOP, "crates"))):
        source = os.path.join(TOP, "crates", crate, "src")
        for at, _, names in os.walk(source):
            for name in names:
                path = os.path.relpath(os.path.join(at, name), os.path.join(TOP, "crates"))
                if is_tried(crate, path):
                    to = os.path.join(folder, path[:-len(".rt")] + ".rs")
                    os.makedirs(os.path.dirname(to), exist_ok=True)
                    shutil.copyfile(os.path.join(at, name), to)


def pair(one, other):
    return tuple(sorted((one, other)))


def found():
    """The pairs of files that share so many lines; a file with itself is a pair too."""
    with tempfile.TemporaryDirectory() as folder:
        copy_to(folder)
        asked = ["duplicates", "--repo", folder, "--most", "200", "--min-lines", str(LEAST), "--seconds", "300"]
        lines = subprocess.run(asked, capture_output=True, text=True, check=True).stdout.replace("/src/", "/").replace(".rs", "").split("\n")
    if any(line.startswith(("incomplete:", "(+")) for line in lines):
        raise SystemExit("twice: not all pairs were told: " + "; ".join(line for line in lines if line.startswith(("incomplete:", "(+"))))
    return {pair(*match.groups()) for match in map(ROW.match, lines) if match}


def meant():
    """The pairs that the document names: `one` ~ `other` ~ .. are all pairs of these, and a name by itself is a file with itself."""
    with open(os.path.join(TOP, "docs/ARCHITECTURE.md"), encoding="utf-8") as file:
        rows = file.read().split(SECTION, 1)[1].split("\n## ", 1)[0].split("\n")
    for row in rows:
        if row.startswith("| ") and row.count("|") == 3 and "`" in row:
            for group in row.split("|")[2].split(","):
                names = re.findall(r"`([a-z0-9_/]+)`", group)
                yield from ([pair(names[0], names[0])] if len(names) == 1 else [pair(a, b) for k, a in enumerate(names) for b in names[k + 1:]])


def cases():
    if shutil.which("duplicates") is None:
        return
    there, known = found(), set(meant())
    for one, other in sorted(there | known):
        wrong = "it isn't named in docs/ARCHITECTURE.md" if (one, other) not in known else None if (one, other) in there else "it stands once by now"
        yield f"{one} ~ {other}", wrong


if __name__ == "__main__":
    report("twice", "pairs", cases())
