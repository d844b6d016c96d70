"""The texts of named networks that stand in the crates of cases, which can't read a file, are those that stand under examples/.

    python3 tests/texts.py
"""

import glob
import json
import os
import re

from named import document, read
from outcomes import report

CRATES = os.path.join(os.path.dirname(os.path.abspath(__file__)), "..", "crates")
# The documents by their names; of `one` the problem alone, too.
NAMED = {
    "one": [json.loads(read("one.json")), json.loads(read("one.out"))], "one_planned": [json.loads(read("one.out"))], "two": [document("two.json")],
    "late": [document("late.json")], "ahead": [document("ahead.json")], "tables": [document("tables.json")],
}
TEXT = re.compile(r'(?:fn (\w+)\(\) -> &\'static str {|const (\w+): &str =)\s*(?:r#"(.*?)"#|"((?:[^"\\]|\\.)*)")\s*[};]')


def outcomes():
    for path in sorted(glob.glob(f"{CRATES}/*_cases/src/**/*.rt", recursive=True)):
        with open(path, encoding="utf-8") as file:
            found = TEXT.findall(file.read())
        for function, constant, raw, text in found:
            name = function or constant.lower()
            if name in NAMED:
                value = json.loads(raw or json.loads(f'"{text}"'))
                yield f"{name} in {os.path.relpath(path, CRATES)}", None if value in NAMED[name] else f"it is {value}"


if __name__ == "__main__":
    report("texts", "texts", outcomes())
