"""What a prover would take minutes to say, or wouldn't say, in seconds: that no line of a clause has more than 100 columns, that no modules of
proofs or definitions cite each other in a circle, and that no lemma is stated in two modules of proofs.

    python3 tests/proofs.py

Left out of the first are the two crates of definitions and laws of a rollout, whose statements stay as they are, and rows of worked texts, which can't
be broken. Two lemmas are one where they state the same of the same names, whatever they call what they bind. Those in the middle of a module, which stand
on what it is about, are left out.
"""

import glob
import itertools
import os
import re

from outcomes import report

CRATES = os.path.join(os.path.dirname(os.path.abspath(__file__)), "..", "crates")
COLUMNS = 100
STAY = {"rollout_rules", "rollout_laws"}
CLAUSE = re.compile(r"\s*(requires|ensures)\b")
USE = re.compile(r"^\s*(?:pub )?use Rattle\.(\w+)\.[\w.+-]*?(?:\.\{([^}]*)\}| as (\S+))\s*$", re.M)
HEAD = re.compile(r"(?:pub )?([^\s:()]+) : (.*)")
BOUND = re.compile(r"[({λ]\s*([^:(){}λ.]+?)\s*:")
SAYS = re.compile(r"[≡≢≤<⊥]|(?<![^\s(])(?:Is|Are|Has|All)[A-Z_ ]")
WORD = re.compile(r"[^\s(){}\[\],;.]+")
KEPT = {"Type", "if", "then", "else", "let", "in"}


def clause_lines(text):
    """The lines of the clauses of a module, with their numbers."""
    depth = 0
    for number, line in enumerate(text.split("\n"), 1):
        if depth > 0 or CLAUSE.match(line):
            yield number, line
            depth += line.count("{") - line.count("}")


def wide_line(crate):
    """The first line of a clause that is too wide, or None."""
    for path in sorted(glob.glob(f"{CRATES}/{crate}/src/**/*.rt", recursive=True)):
        with open(path, encoding="utf-8") as file:
            for number, line in clause_lines(file.read()):
                if len(line) > COLUMNS and not line.strip().startswith('"'):
                    return f"{os.path.relpath(path, CRATES)}, line {number}: {len(line)} columns"
    return None


def cited(crate):
    """The modules of a crate's proofs and definitions, each with those of the same crate that it cites."""
    uses = re.compile(rf"^\s*(?:pub )?use Rattle\.{crate}\.([\w.]+?)(?:\.\{{| as |\s*$)", re.M)
    modules = {}
    for path in glob.glob(f"{CRATES}/{crate}/proofs/**/*.antt", recursive=True) + glob.glob(f"{CRATES}/{crate}/specs/**/*.antt", recursive=True):
        with open(path, encoding="utf-8") as file:
            modules[os.path.relpath(path, f"{CRATES}/{crate}")[:-5].replace("/", ".")] = uses.findall(file.read())
    return {name: [other for other in others if other in modules] for name, others in modules.items()}


def circle(modules):
    """Two modules, of which each leads to the other, or None. What leads nowhere is taken away until nothing is left, or a circle is."""
    left = dict(modules)
    while left:
        ends = [name for name, others in left.items() if not any(other in left for other in others)]
        if not ends:
            name = min(left)
            return f"{name} leads back to itself, by {min(other for other in left[name] if other in left)}"
        for name in ends:
            del left[name]
    return None


def imported(text):
    """The names that a module imports, each with the crate and the name that it has there."""
    names = {}
    for crate, listed, alias in USE.findall(text):
        for name in listed.split(",") if listed else [alias]:
            own, _, other = name.strip().partition(" as ")
            names[other or own] = f"{crate}.{own}"
    return names


def lemmas(text):
    """The lemmas at the margin of a module: the name of each and what it states, on one line."""
    lines = text.split("\n")
    for number, line in enumerate(lines):
        found = HEAD.match(line)
        if found and not line.startswith("--"):
            rest = itertools.takewhile(lambda after: after[:1].isspace(), lines[number + 1:])
            stated = " ".join([found[2], *map(str.strip, rest)])
            if "→" in stated and SAYS.search(stated) and not stated.endswith("Type 0"):
                yield found[1], stated


def known_by(stated, names, module):
    """What a lemma states, with what it binds by its number and each other name by where it comes from."""
    bound = {}
    for name in " ".join(BOUND.findall(stated)).split():
        bound.setdefault(name, f"${len(bound)}")

    def told(found):
        word, is_field = found[0], stated[:found.start()].endswith(".")
        if is_field or word in KEPT:
            return word
        return bound.get(word) or names.get(word) or (f"{module}.{word}" if word[0].isalpha() else word)

    return WORD.sub(told, stated)


def homes():
    """What each lemma states, with the modules that state it."""
    found = {}
    for path in sorted(glob.glob(f"{CRATES}/*/proofs/**/*.antt", recursive=True)):
        with open(path, encoding="utf-8") as file:
            text = file.read()
        module, names = os.path.relpath(path, CRATES)[:-5], imported(text)
        for name, stated in lemmas(text):
            found.setdefault(known_by(stated, names, module), {}).setdefault(module, name)
    return found


def outcomes():
    for crate in sorted(os.listdir(CRATES)):
        if crate not in STAY:
            yield f"clauses of {crate}", wide_line(crate)
        yield f"modules of {crate}", circle(cited(crate))
    for places in homes().values():
        (module, name), *others = places.items()
        yield f"{name} of {module}", f"{others[0][1]} of {others[0][0]} states the same" if others else None


if __name__ == "__main__":
    report("proofs", "clauses and modules of crates, and lemmas", outcomes())
