"""The names of commands, of their options, of the environment and of crates are the same in the code, in the launcher's help and in the documents;
each name and file that a document cites is there, each page of docs/ says whom it is for, and each test stands in docs/TESTED.md.

    python3 tests/names.py
"""

import os
import re

from outcomes import report

TOP = os.path.join(os.path.dirname(os.path.abspath(__file__)), "..")
WORDS_APART = ("crates/swanroll_top/src/left_words.rt", "crates/retarget_top/src/words.rt")
DOCUMENTS = ["docs/COMMANDS.md", "docs/TEXTS.md", "bin/help.txt"]

# Names that stand for others in a document, and those of other people's protocols and of the toolchain's modules.
PLACEHOLDERS = {"NAME", "BringsNAME", "NAMEPromise", "Enum", "Variant", "Pn", "add_", "rows_below"}
FOREIGN = {"Lts", "DATAPLANE_ATOMIC", "FIB_PROGRAMMED", "RIB_AND_FIB_ACK", "RIB_PROGRAMMED"}


def text(*path):
    with open(os.path.join(TOP, *path), encoding="utf-8") as file:
        return file.read()


def codes_of_words():
    """The code that reads words: of the commands that make a text of their input, and of all."""
    return [text(f"crates/{crate}/src/words.rt") for crate in ("text_commands", "swanroll_top")]


def commands():
    """The words of the commands, as the code has them."""
    found = [name for code in codes_of_words() for name in re.findall(r'^\s*"([a-z]+)" => Some\((?:Text)?Kind::', code, re.M)]
    return found + [name for path in (*WORDS_APART, "crates/takeover_top/src/taking_words.rt") for name in re.findall(r'word == "([a-z]+)"', text(path))]


def live_options():
    """Those of a report of a journal as it stands, whose words are read apart."""
    return re.findall(r'"(--[a-z]+)"', text("crates/swanroll_top/src/live_words.rt"))


def taking_options():
    """Those of a takeover, whose words are read apart; its term is the only one that `run` takes besides its own."""
    return re.findall(r'"(--[a-z]+)"', re.search(r"^fn takes\(.*?^}", text("crates/takeover_top/src/taking_words.rt"), re.M | re.S).group())


def options():
    return sorted(set(re.findall(r'"(--[a-z]+)"', "".join(codes_of_words() + [text(path) for path in WORDS_APART])) + live_options() + taking_options()))


def options_of():
    """The options that each command takes, by its word."""
    texts, code = codes_of_words()
    bodies = [re.search(rf"^(?:pub )?fn {name}\(.*?^}}", of, re.M | re.S).group() for name, of in (("text_takes", texts), ("takes", code))]
    numbers = re.findall(r'"(--[a-z]+)"', re.search(r"^fn names_a_number\(.*?^}", code, re.M | re.S).group())
    arms = [arm for body in bodies for arm in re.findall(r"((?:Kind::\w+(?:\s*\| (?:Text)?)?)+)(?:\(\w+\))? =>\s+(.*?),\n", body)]
    taken = {kind.lower(): re.findall(r'"(--[a-z]+)"', arm) + ("names_a_number" in arm) * numbers for kinds, arm in arms for kind in re.findall(r"Kind::(\w+)", kinds)}
    del taken["text"]
    taken["report"] = list({*taken["report"], *live_options()})
    for name, path in zip(("left", "retarget"), WORDS_APART):
        taken[name] = re.findall(r'"(--[a-z]+)"', re.search(r"^fn takes\(.*?^}", text(path), re.M | re.S).group())
    taken["takeover"] = taking_options()
    taken["run"] = list({*taken["run"], *re.findall(r'"(--[a-z]+)"', text("crates/takeover_top/src/term_words.rt"))})
    return {command: sorted(names) for command, names in taken.items()}


def script_options():
    """Those of the scripts that documents tell of as well: of `./build`, `bin/why` and the lab."""
    words = re.findall(r'add_argument\("(--[a-z]+)', text("examples/linux/lab") + text("bin/why"))
    return sorted(set(words + re.findall(r"(?<![-\w])--[a-z]+\b", text("build"))))


def variables():
    return sorted(set(re.findall(r'"(SWANROLL_[A-Z]+)"', text("crates/swanroll/src/devices.rt"))))


def parts(help_text):
    """What the launcher's help says of each command."""
    found = re.split(r"^== ([a-z]+)$", help_text, flags=re.M)
    return dict(zip(found[1::2], found[2::2]))


def crates():
    return re.findall(r"^([a-z_0-9]+):", text("crates.txt"), re.M)


def statuses():
    """The exit statuses of the code."""
    bodies = [re.search(r"pub fn status\(.*?\n    }\n", text(f"crates/text_commands/src/{name}.rt"), re.S).group() for name in ("command_end", "unfinished")]
    left = re.findall(r"^            (\d+)$", text("crates/swanroll_top/src/left.rt") + text("crates/takeover_top/src/telling.rt"), re.M)
    return sorted(set(map(int, re.findall(r"=> (\d+),", "".join(bodies)) + left)))


def names_in(cell):
    """The names between back quotes."""
    return re.findall(r"`([a-z_0-9]+)`", cell)


def rows_of(document, head, whole=False):
    """The rows of the table whose first column has this head: what stands between the first cell's back quotes, or all of it, and the cells beside."""
    table = re.search(rf"^\| {head} \|.*\n\|[-|]+\n((?:\|.*\n)*)", text(document), re.M)
    rows = [[cell.strip() for cell in row.strip("|").split(" |")] for row in table.group(1).splitlines()]
    return {row[0] if whole else row[0].strip("`"): row[1:] for row in rows}


def scripts_of_tests():
    """The Python scripts that ./test runs."""
    return sorted(set(re.findall(r"(?:tests|bench)/(\w+\.py)", text("test"))))


def same(found, wanted):
    return None if found == wanted else f"{found}, and not {wanted}"


def documents():
    return ["README.md"] + sorted(f"docs/{name}" for name in os.listdir(os.path.join(TOP, "docs")) if name.endswith(".md"))


def names_of_code():
    """Each word of the sources, specs, proofs and scripts, and the names of their files and folders."""
    words = set()
    for folder, below, files in os.walk(TOP):
        below[:] = [name for name in below if name not in ("out", ".git", "docs", "wip", "__pycache__")]
        words.add(os.path.basename(folder))
        for name in files:
            words.add(name.rsplit(".", 1)[0])
            if not name.endswith(".md"):
                with open(os.path.join(folder, name), encoding="utf-8", errors="replace") as file:
                    words.update(re.findall(r"[A-Za-z_][A-Za-z_0-9]*", file.read()))
    return words


def proofs_cited():
    """Of each crate the modules of proofs that other crates cite."""
    found = {}
    for crate in crates():
        for folder, below, files in os.walk(os.path.join(TOP, "crates", crate)):
            below[:] = [name for name in below if name not in ("out", "must-fail")]
            code = "".join(text(folder, name) for name in files if name.endswith((".rt", ".antt")))
            for other, module in re.findall(r"\b(\w+)(?:\.|::)proofs(?:\.|::)([A-Z]\w*)", code):
                if other in crates() and other != crate:
                    found.setdefault(other, set()).add(module)
    return found


def proofs_told():
    """Of each crate the modules of proofs that docs/ARCHITECTURE.md says are cited; None where it says all."""
    table = text("docs/ARCHITECTURE.md").split("Of lower proofs they cite", 1)[1].split("\n\n", 2)[1]
    rows = re.findall(r"^\| `(\w+)` \| (.*?) \|", table, re.M)
    return {crate: None if cell.startswith("all") else set(re.findall(r"`([A-Z]\w*)`", cell)) for crate, cell in rows}


def names_cited(document):
    """What looks like a name of the code between a document's back quotes: `like_this`, `LikeThis`, `This`."""
    prose = re.sub(r"```.*?```", "", text(document), flags=re.S)
    cited = " ".join(re.findall(r"`([^`\n]+)`", prose))
    return {name for name in re.findall(r"[A-Za-z_][A-Za-z_0-9]*", cited) if re.search(r"[a-z][A-Z]|_|^[A-Z][a-z]+$", name)}


def paths_cited(document):
    """The files and folders of the repository that a document names, from the top or beside it."""
    return set(re.findall(r"`(?:\./)?((?:agents|bench|crates|docs|examples|packaging|tests)/[^`\s]*|[A-Z-]+\.md)[^`\n]*`", text(document)))


def outcomes():
    help_text = text("bin/help.txt")
    told = parts(help_text)
    yield "the commands that help tells", None if sorted(told) == sorted(commands()) else f"{sorted(told)}, the code has {sorted(commands())}"
    for command in commands():
        named = re.search(rf"^  {command} +\S", help_text, re.M) and command in told and f"swanroll {command}" in told[command]
        yield f"{command} in help", None if named else "it isn't told with its own line and call"
        for document in DOCUMENTS[:2]:
            yield f"{command} in {document}", None if f"`{command}`" in text(document) else "it isn't named"
        rows = rows_of("docs/COMMANDS.md", "Command")
        yield f"{command} in the table of commands", None if command in rows else "it has no row"
        yield f"a section on {command}", None if f"\n## swanroll {command}\n" in text("docs/COMMANDS.md") else "there is none"
    yield "the commands whose options are known", same(sorted(options_of()), sorted(commands()))
    yield "the options of all commands", same(sorted(set(sum(options_of().values(), []))), options())
    for command, names in options_of().items():
        yield f"the options of {command} in help", same(sorted(set(re.findall(r"(?<![-\w])--[a-z]+\b", told.get(command, "")))), names)
        takers = [name for name, row in rows_of("docs/COMMANDS.md", "Option").items() if f"`{command}`" in row[0]]
        yield f"the options of {command} in docs/COMMANDS.md", same(sorted(name.split()[0] for name in takers), names)
    for document in DOCUMENTS + ["README.md"]:
        words = text(document)
        for name in options() if document != "README.md" else []:
            yield f"{name} in {document}", None if re.search(rf"{name}\b", words) else "it isn't named"
        known = set(options()) | {"--help", "--NAME"} | set(script_options() if document.endswith(".md") else [])
        unknown = sorted(set(re.findall(r"(?<![-\w])--[a-z]+\b", words)) - known)
        yield f"the options in {document}", None if not unknown else f"no command takes {unknown}"
    yield "the table of the environment", same(sorted(rows_of("docs/COMMANDS.md", "Variable")), variables())
    for name in variables():
        yield f"{name} in bin/help.txt", None if name in text("bin/help.txt") else "it isn't named"
    told_of = proofs_told()
    for crate, modules in proofs_cited().items():
        told_modules = told_of.get(crate, set())
        yield f"the proofs of {crate} that others cite", None if told_modules is None else same(sorted(told_modules), sorted(modules))
    yield "the table of statuses", same(sorted(map(int, rows_of("docs/COMMANDS.md", "Status"))), statuses())
    yield "the table of crates", same(sorted(sum(map(names_in, rows_of("docs/PROVED.md", "Crate", whole=True)), [])), sorted(crates()))
    sections = sum(map(names_in, re.findall(r"^### (.*)$", text("docs/PROVED.md"), re.M)), [])
    yield "the sections on crates", same(sorted(sections), sorted(crates()))
    for name in crates():
        yield f"{name} in docs/ARCHITECTURE.md", None if re.search(rf"\b{name}\b", text("docs/ARCHITECTURE.md")) else "it isn't named"
    for name in scripts_of_tests():
        yield f"{name} in docs/TESTED.md", None if re.search(rf"`(tests/|bench/)?{name}`", text("docs/TESTED.md")) else "it isn't named"
    for document in documents()[1:]:
        yield f"whom {document} is for", None if re.match(r"# .*\n\nFor ", text(document)) else "its first line doesn't say"
    known_names = names_of_code() | PLACEHOLDERS | FOREIGN
    for document in documents():
        unknown = sorted(names_cited(document) - known_names)
        yield f"the names in {document}", None if not unknown else f"nothing has the names {unknown}"
        cited = set(re.findall(r"`crates/([a-z_0-9]+)", text(document)))
        gone = sorted(cited - set(crates()))
        yield f"the crates in {document}", None if not gone else f"there are no {gone}"
        gone = sorted(path for path in paths_cited(document) if not any(os.path.exists(os.path.join(TOP, folder, path)) for folder in (".", "docs")))
        yield f"the files in {document}", None if not gone else f"there are no {gone}"


if __name__ == "__main__":
    report("names", "names", outcomes())
