"""What `swanroll rehearse` writes, beside the same in plain Python: what is drawn is PCG's words, and what a round does `swanroll sim` says. Over the
examples and drawn documents: the bytes, at each run; each act of the script happens, and `sim` on it ends finished; what a policy holds back stays.

    python3 tests/rehearsals.py PROGRAM
"""

import json
import os
import random
import re
import subprocess
import sys

from outcomes import report

TOP = os.path.join(os.path.dirname(os.path.abspath(__file__)), "..")
USAGE = (2, b"", b"usage: swanroll COMMAND [--NAME VALUE]\n")
MOST_ACTS, WORD, WORDS = 100_000, 2**32, 2**64
MULTIPLIER = 6_364_136_223_846_793_005
PROBLEMS = ["one", "three-steps"]
DRAWN, SEED = 6, 44_000


class Draws:
    """The words of a seed, one after the other (O'Neill's PCG with 32-bit words)."""

    def __init__(self, seed):
        filled, state = [], seed
        for _ in range(4):
            state = (state * MULTIPLIER + 11_634_580_027_462_260_723) % WORDS
            filled.append(self.output(state))
        self.increment = (filled[2] | filled[3] << 32) | 1
        self.state = ((filled[0] | filled[1] << 32) + self.increment) % WORDS
        self.step()

    @staticmethod
    def output(state):
        mixed, turn = ((state >> 18 ^ state) >> 27) % WORD, state >> 59
        return (mixed >> turn | mixed << (-turn & 31)) % WORD

    def step(self):
        self.state = (self.state * MULTIPLIER + self.increment) % WORDS

    def draw(self, below):
        word = self.output(self.state)
        self.step()
        return word % below


def run(program, words, data, ceiling=None):
    environment = {name: value for name, value in os.environ.items() if name != "SWANROLL_CEILING"}
    if ceiling is not None:
        environment["SWANROLL_CEILING"] = ceiling
    done = subprocess.run([program, *words], input=data, capture_output=True, env=environment)
    return done.returncode, done.stdout, done.stderr


def compact(value):
    return json.dumps(value, ensure_ascii=False, separators=(",", ":")).encode()


def with_script(document, script):
    """A document in its one form, as `plan` writes it, with a script."""
    return document.rstrip(b"\n")[:-1] + b',"script":' + compact(script) + b"}\n"


class Rehearsal:
    """A script so far, what is in flight, how many commands and answers there are, and what the rounds of `sim` say."""

    def __init__(self, program, document, policy, ceiling):
        self.program, self.document, self.ceiling = program, document, ceiling
        self.words = ["sim", "--policy", policy]
        self.acts, self.flying, self.sent, self.given, self.up, self.left = [], 0, 0, 0, True, None

    def lines(self, more):
        """What `sim` says of the acts so far with these behind them."""
        status, out, notes = run(self.program, self.words, with_script(self.document, self.acts + more), self.ceiling)
        assert (status, notes) == (0, b""), notes
        return out.decode().split("\n")

    def round(self):
        """What a round would settle and begin now, and what is left behind it."""
        lines = self.lines([["round"]])
        dones, begins = map(int, re.fullmatch(r"\d+ round: dones (\d+), begins (\d+)", lines[len(self.acts)]).groups())
        last = lines[-2]
        self.left = 0 if last == "finished" else int(last.removeprefix("unfinished: "))
        return begins - dones

    def happens(self, act):
        name = act[0]
        if name == "deliver":
            return act[1] < self.sent
        if name == "start":
            return not self.up
        return self.up and not (name == "send" and act[1] >= self.flying or name == "hand" and act[1] >= self.given)

    def join(self, act):
        if len(self.acts) >= MOST_ACTS or not self.happens(act):
            return
        if act == ["round"] or act == ["crash", "kept"]:
            self.flying += self.round()
        self.sent += {"send": 1, "all": self.flying}.get(act[0], 0)
        self.given += {"deliver": 1, "all": self.flying}.get(act[0], 0)
        self.up = act[0] not in ("crash", "stop") and (self.up or act[0] == "start")
        self.acts.append(act)

    def finished(self):
        return self.lines([])[-2] == "finished"

    def drawn(self, draws):
        """The act of the next event, or None where there is nothing that it could be done with."""
        if not self.up:
            return ["start"]
        number = draws.draw(100)
        for below, act, among in ((25, ["round"], None), (50, "send", self.flying), (72, "deliver", self.sent), (94, "hand", self.given), (96, ["crash", "lost"], None), (98, ["crash", "kept"], None), (100, ["stop"], None)):
            if number < below:
                break
        if among is None:
            return act
        if among == 0:
            return None
        return [act, draws.draw(among) if act == "send" else among - 1 - draws.draw(min(64, among))]


def operations(document):
    """How many operations there are: for each flow and each entry the stages at which it changes."""
    flows, stages = document["problem"]["flows"], document["plan"]["stages"]
    count = first = 0
    for flow in flows:
        last = first + len(flow["tunnels"])
        for before, after in zip(stages, stages[1:]):
            count += before["rates"][first:last] != after["rates"][first:last]
            for at, tunnel in enumerate(flow["tunnels"]):
                count += len(tunnel["path"]) * (before["installed"][first + at] != after["installed"][first + at])
        first = last
    return count


def script_of(program, document, seed, events, policy="critical", ceiling=None):
    """The script that is to be drawn."""
    rehearsal, draws = Rehearsal(program, document, policy, ceiling), Draws(seed)
    for _ in range(events):
        act = rehearsal.drawn(draws)
        if act is not None:
            rehearsal.join(act)
    if not rehearsal.up:
        rehearsal.join(["start"])
    for _ in range(operations(json.loads(document)) + 1):
        if len(rehearsal.acts) >= MOST_ACTS or rehearsal.finished():
            break
        rehearsal.join(["all"])
        rehearsal.join(["round"])
    return rehearsal.acts


def problem_of(chance):
    """A ring of switches with chords, and flows of two tunnels each of which moves some of its rate."""
    count = chance.randint(3, 6)
    names = [f"s{at}" for at in range(count)]
    links = [(a, b) for a in names for b in names if a != b]
    flows = []
    for at in range(chance.randint(1, 4)):
        a, b, c = chance.sample(names, 3)
        old, new = chance.randint(0, 9), chance.randint(0, 9)
        flows.append({"name": f"f{at}", "tunnels": [
            {"path": [a, b], "old": old, "new": chance.choice([new, None])}, {"path": [a, c, b], "old": chance.choice([None, 3]), "new": 9},
        ]})
    return {"switches": [{"name": name, "table": 100} for name in names], "links": [{"from": a, "to": b, "capacity": chance.randint(60, 90)} for a, b in links], "flows": flows}


def documents(program):
    """The examples' problems and drawn ones, each with the plan that `plan` finds."""
    for name in PROBLEMS:
        with open(os.path.join(TOP, "examples", name + ".json"), "rb") as file:
            status, out, _ = run(program, ["plan"], file.read())
        if status == 0:
            yield name, out
    for at in range(DRAWN):
        status, out, _ = run(program, ["plan"], compact(problem_of(random.Random(SEED + at))))
        if status == 0:
            yield f"drawn {at}", out


def wrong_with(program, document, seed, events, policy="critical", ceiling=None):
    """What is wrong with a rehearsal that is written, or None."""
    words = ["rehearse", "--seed", str(seed), "--events", str(events), "--policy", policy]
    done = run(program, words, document, ceiling)
    if done != (0, with_script(document, script_of(program, document, seed, events, policy, ceiling)), b""):
        return "another text than wanted"
    if run(program, words, document, ceiling) != done:
        return "another text at the second run"
    return None


def wrong_with_sim(program, text, policy="critical", ceiling=None, last="finished"):
    """What is wrong with what `sim` says of a text that was written, or None."""
    status, out, notes = run(program, ["sim", "--policy", policy], text, ceiling)
    lines = out.decode().split("\n")
    if (status, notes) != (0, b"") or any(line.endswith(" skipped") for line in lines):
        return "an act that doesn't happen"
    return None if re.fullmatch(last, lines[-2]) else f"the last line is {lines[-2]}"


def texts(program):
    """The bytes that are written, under each policy, and what `sim` says of them."""
    for at, (name, document) in enumerate(documents(program)):
        for events, policy in ((0, "critical"), (30, "order"), (80, "critical")):
            yield f"{name}, {events} events by {policy}", wrong_with(program, document, SEED + at, events, policy)
            _, out, _ = run(program, ["rehearse", "--seed", str(at), "--events", str(events), "--policy", policy], document)
            yield f"{name}, {events} events by {policy}, rehearsed", wrong_with_sim(program, out, policy)
        yield f"{name}, with its defaults", None if run(program, ["rehearse"], document) == run(program, ["rehearse", "--seed", "1", "--events", "1000", "--policy", "critical"], document) else "another text"


def held(program):
    """A policy that holds operations back: a drain gives up, and nothing that can't happen is written."""
    for name, document in documents(program):
        for ceiling in ("0", "1", "256"):
            yield f"{name}, frozen at {ceiling}", wrong_with(program, document, 7, 30, "freeze", ceiling)
            _, out, _ = run(program, ["rehearse", "--seed", "8", "--policy", "freeze"], document, ceiling)
            yield f"{name}, frozen at {ceiling}, rehearsed", wrong_with_sim(program, out, "freeze", ceiling, r"finished|unfinished: \d+")


def largest(program):
    """The most events, over a document as a person wrote it: no script has more acts than there may be."""
    with open(os.path.join(TOP, "examples", "two.json"), "rb") as file:
        status, out, _ = run(program, ["rehearse", "--events", str(MOST_ACTS)], file.read())
    yield "the most events", wrong_with_sim(program, out) if status == 0 and len(json.loads(out)["script"]) <= MOST_ACTS else f"status {status}, or too many acts"


def inputs(program):
    """What else stands in a document is passed over; what is no document, or not valid, is refused as by `check`."""
    name, document = next(documents(program))
    plain = run(program, ["rehearse"], document)
    for what, more in (("script", b',"script":[["start"]]}'), ("wrong script", b',"script":7}'), ("unknown key", b',"more":{}}')):
        yield f"{name} with a {what}", None if run(program, ["rehearse"], document.rstrip(b"\n")[:-1] + more) == plain else "another text"
    yield "what is written, drawn once more", None if run(program, ["rehearse"], plain[1]) == plain else "another text"
    for data in (b"", b"[]", b"{}", document[:-9], document.replace(b'"scale":', b'"scale":9', 1)):
        yield f"refused: {data[:20]!r}", None if run(program, ["rehearse"], data)[:3] == run(program, ["check"], data)[:3] != (0, b"", b"") else "another line than that of check"
    with open(os.path.join(TOP, "examples", "not-valid.json"), "rb") as file:
        data = file.read()
    yield "not valid", None if run(program, ["rehearse"], data) == run(program, ["check"], data) else "another line than that of check"


def words(program):
    """Numbers at both ends of their range, and just outside; names that aren't taken."""
    _, document = next(documents(program))
    for name, low, high in (("--seed", 0, 10**18), ("--events", 0, 100_000)):
        for value in (low, high):
            yield f"{name} {value}", None if run(program, ["rehearse", name, str(value)], document)[0] == 0 else "another status"
        for value in (low - 1, high + 1):
            yield f"{name} {value}", None if run(program, ["rehearse", name, str(value)], document) == USAGE else "taken"
    for more in (["--k", "4"], ["--flows", "1"], ["--switches", "3"], ["--migration", "1"], ["--policy", "none"], ["--seed"], ["--seed", "1", "--seed", "1"], ["--seed=1"], ["--events", "+1"], ["--events", ""], ["7"]):
        yield " ".join(more), None if run(program, ["rehearse", *more], document) == USAGE else "taken"


def outcomes(program):
    for cases in (texts, held, largest, inputs, words):
        yield from cases(program)


if __name__ == "__main__":
    report("rehearsals", "cases", outcomes(sys.argv[1]))
