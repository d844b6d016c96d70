"""Each must-fail edit can be applied: those that the gate tries (NAME.edit), and those that are kept to be read and to be taken up again (NAME.edit.md).

    python3 tests/edits.py

An edit names files of its crate, and of each the texts that it replaces, one line each: a text stands in its file exactly once, and the whole changes something.
"""

import glob
import os

from outcomes import report

TOP = os.path.join(os.path.dirname(os.path.abspath(__file__)), "..")


def text(path):
    with open(path, encoding="utf-8") as file:
        return file.read()


def fault(edit, crate):
    """What keeps an edit from being applied to its crate, or None."""
    path, old, texts, was = "", None, {}, {}
    for line in text(edit).split("\n"):
        if line.startswith("file: "):
            path = os.path.join(crate, line[len("file: "):].strip())
            if not os.path.isfile(path):
                return f"there is no file {path}"
            was.setdefault(path, text(path))
            texts.setdefault(path, was[path])
        elif line.startswith("old: "):
            old = line[len("old: "):]
        elif line.startswith("new:"):
            if not path or not old:
                return "a new text stands before its file or its old one"
            found = texts[path].count(old)
            if found != 1:
                return f"stands {found} times: {old.strip()}"
            texts[path] = texts[path].replace(old, line[len("new:"):].removeprefix(" "))
            old = None
    return None if texts != was else "it changes nothing"


def cases():
    for edit in sorted(glob.glob(os.path.join(TOP, "crates/*/must-fail/*"))):
        is_known = edit.endswith((".edit", ".edit.md"))
        yield os.path.relpath(edit, TOP), fault(edit, os.path.dirname(os.path.dirname(edit))) if is_known else "its name ends neither in .edit nor in .edit.md"


if __name__ == "__main__":
    report("edits", "edits", cases())
