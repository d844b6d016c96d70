"""The texts of small documents that `swanroll plan` writes, byte by byte: keys in order, names escaped where they have to be, and widths where the problem
has them.

    python3 tests/documents.py PROGRAM
"""

import subprocess
import sys

from outcomes import report

# A name, the problem, and the document.
DOCUMENTS = [
    ("nothing", '{"switches":[],"links":[],"flows":[]}',
     '{"plan":{"scale":1,"stages":[{"installed":[],"rates":[]}]},"problem":{"flows":[],"links":[],"switches":[]}}'),
    ("names with escapes",
     r'{"switches":[{"name":"q\"b\\s","table":1},{"name":"\n\u0001\u001f\u007f\/\u00e9\u20ac\ud83d\ude00","table":1000000}],'
     r'"links":[{"from":"q\"b\\s","to":"\n\u0001\u001f\u007f/é€😀","capacity":1000000000000}],'
     r'"flows":[{"name":"\t\r\b\f","tunnels":[{"path":["q\"b\\s","\n\u0001\u001f\u007f/é€😀"],"old":4,"new":null}]}]}',
     r'{"plan":{"scale":1,"stages":[{"installed":[true],"rates":[4]},{"installed":[true],"rates":[0]},{"installed":[false],"rates":[0]}]},'
     r'"problem":{"flows":[{"name":"\t\r\b\f","tunnels":[{"new":null,"old":4,"path":["q\"b\\s","\n\u0001\u001f~/é€😀"]}]}],'
     r'"links":[{"capacity":1000000000000,"from":"q\"b\\s","to":"\n\u0001\u001f~/é€😀"}],'
     r'"switches":[{"name":"q\"b\\s","table":1},{"name":"\n\u0001\u001f~/é€😀","table":1000000}]}}'.replace("~", "\x7f")),
    ("widths", '{"format":2,"switches":[{"name":"A","table":16},{"name":"B","table":16}],"links":[{"from":"A","to":"B","capacity":10}],'
     '"flows":[{"name":"f","tunnels":[{"path":["A","B"],"old":null,"new":1,"width":16}]}]}',
     '{"plan":{"scale":1,"stages":[{"installed":[false],"rates":[0]},{"installed":[true],"rates":[0]},{"installed":[true],"rates":[1]}]},'
     '"problem":{"flows":[{"name":"f","tunnels":[{"new":1,"old":null,"path":["A","B"],"width":16}]}],"format":2,'
     '"links":[{"capacity":10,"from":"A","to":"B"}],"switches":[{"name":"A","table":16},{"name":"B","table":16}]}}'),
]


def outcomes(program):
    for name, problem, document in DOCUMENTS:
        done = subprocess.run([program, "plan"], input=problem.encode(), capture_output=True)
        found = done.returncode, done.stdout.decode(), done.stderr
        yield name, None if found == (0, document + "\n", b"") else f"gives {found}"


if __name__ == "__main__":
    report("documents", "documents", outcomes(sys.argv[1]))
