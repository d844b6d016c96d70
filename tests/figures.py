"""The front page says what stands elsewhere: its figures and those of docs/TESTED.md are those of bench/README.md, what it shows of a command is what the
examples print, the clause that it quotes is that of the code, and it keeps to a length that a person reads.

    python3 tests/figures.py
"""

import re

from names import crates, same, text
from outcomes import report

MOST_LINES, MOST_COLUMNS, MOST_WORDS_A_SENTENCE = 150, 100, 22
NETWORKS, WAYS = ("six", "two-thirds", "nsfnet", "kernel"), ("push", "careful", "run")
# What each command of the front page prints, and where that stands; what `..` stands for is left out.
PRINTED = {
    "./swanroll plan < examples/one-link.json": "examples/one-link.out",
    "./swanroll sim < examples/rehearsal.json": "examples/rehearsal.out",
    "examples/network/first-hour": "examples/network/first-hour.out",
}


def flat(words):
    return re.sub(r"\s+", " ", words)


def rows(words):
    """The rows of all tables of a text, without the marks of a bold cell and of a name."""
    return [[cell.strip().replace("*", "").replace("`", "") for cell in line.strip("|").split(" |")] for line in words.splitlines() if line.startswith("|")]


def stands_in(shown, whole):
    """Whether the pieces of what is shown, cut at each `..`, stand in the whole one after the other."""
    place = 0
    for piece in shown.split(".."):
        found = whole.find(piece.strip(), place)
        if found < 0:
            return False
        place = found + len(piece.strip())
    return True


def lab():
    """Each cell of the front page's table beside the row of its network and way."""
    measured = {row[0]: row for row in rows(text("bench/README.md"))}
    shown = {row[0]: row[1:] for row in rows(text("README.md")) if row[0] in NETWORKS}
    yield "the networks of the lab", same(sorted(shown), sorted(NETWORKS))
    for network, cells in shown.items():
        for way, cell in zip(WAYS, cells):
            _, load, _, lost, *_ = measured[f"{network}, {way}"]
            yield f"{network} by {way}", same(cell, f"{load}, {lost}")
    longer = re.search(r"takes longer: (\S+) s in `two-thirds`, .* take (\S+) s", flat(text("README.md")))
    times = [measured[f"two-thirds, {way}"][-1] for way in WAYS]
    yield "how long it takes", same([longer[2], longer[2], longer[1]], times)


def sizes():
    """Times and memory, in the words of the page and by the rows of the tables."""
    bench = rows(text("bench/README.md"))
    plan = next(row for row in bench if row[:2] == ["plan", "the largest"])
    plain = next(row for row in bench if row[:4] == ["20", "220", "10,000", "without a start"])
    started = next(row for row in bench if row[:3] == ["20", "220", "10,000"] and "some 185" in row[3])
    front, tested = flat(text("README.md")), flat(text("docs/TESTED.md"))
    for name, page, words in (
        ("the largest problem, in front", front, f"largest problem inside the limits is then planned in {plan[3]} and {plan[4]}."),
        ("the largest problem", tested, f"largest problem inside the limits takes {plan[3]} and {plan[4]}."),
        ("a long script", tested, f"10,000 events on a plan of 20 flows takes {plain[4]} and {plain[5]}."),
        ("its starts", tested, f"With some 185 starts it takes {started[4]} and {started[5]}, each of which reads what came since the last one."),
    ):
        yield name, None if words in page else f"it doesn't say: {words}"


def needed_crates():
    """The crates that the program stands on, itself among them."""
    uses = {name: below.split() for name, below in re.findall(r"^([a-z_0-9]+)[^:#\n]*:(.*)$", text("crates.txt"), re.M)}
    needed, waiting = set(), ["swanroll"]
    while waiting:
        name = waiting.pop()
        if name in uses and name not in needed:
            needed.add(name)
            waiting += uses[name]
    return needed & set(crates())


def build():
    time, memory = re.search(r"`\./build` goes crate by crate\. From nothing this takes (.*?), and (\d+ GB) for each processor", flat(text("bench/README.md"))).groups()
    for name, page, words in (
        ("the build, in front", "README.md", f"build: {len(needed_crates())} crates to prove, lowest first; from nothing this takes {time}; the log is"),
        ("the build's own words", "build", f"crates to prove, lowest first; from nothing this takes {time}; the log is"),
        ("its memory, in front", "README.md", f"Proving takes {memory} for each processor"),
        ("its memory", "docs/COMMANDS.md", f"to prove it takes {memory} for each processor"),
    ):
        yield name, None if words in flat(text(page)) else f"it doesn't say: {words}"


def shown():
    """What stands below each command, up to the next line of prose."""
    page = text("README.md")
    for command, place in PRINTED.items():
        block = re.search(rf"^    {re.escape(command)}\n\n((?:    .*\n)+)", page, re.M)
        yield f"what {command} prints", None if block and stands_in(block[1].replace("\n    ", "\n"), text(place)) else f"it isn't {place}"
    clause = re.search(r"^    (ensures \{.*?\})\n\n", page, re.M | re.S)[1]
    yield "the clause of the call", None if stands_in(flat(clause), flat(text("crates/swanroll_top/src/top.rt"))) else "the code has another"


def sentences(page):
    """The sentences of a page's prose: what stands as it is, tables, headings and pictures are none."""
    prose = "\n".join("" if re.match(r"    |\||#|!\[", line) else line for line in page.splitlines())
    return [words.split() for words in re.split(r"\.\**\s+(?=[A-Z`*-])|\n\n|\n- ", prose) if re.search(r"\w", words)]


def length():
    page = text("README.md")
    yield "its lines", None if len(page.splitlines()) <= MOST_LINES else f"there are {len(page.splitlines())}"
    longest = max(map(len, page.splitlines()))
    yield "its columns", None if longest <= MOST_COLUMNS else f"a line has {longest}"
    counts = [len(words) for words in sentences(page)]
    mean = sum(counts) / len(counts)
    yield "its sentences", None if mean < MOST_WORDS_A_SENTENCE else f"they have {mean:.1f} words"


def outcomes():
    for part in (lab, sizes, build, shown, length):
        yield from part()


if __name__ == "__main__":
    report("figures", "figures", outcomes())
