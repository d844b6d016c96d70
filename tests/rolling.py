"""A rollout over switches that the tests play: its document, its journal's file, and the program that is started over them."""

import contextlib
import json
import os
import subprocess
import tempfile

from carried import Items
from journal_files import text_of
from named import ONE
from switches import Switch, plain, write_fleet
from waiting import LONG_LIMIT, PATIENCE

DEVICES = ("SWANROLL_JOURNAL", "SWANROLL_FLEET", "SWANROLL_LISTEN", "SWANROLL_TIMEOUT", "SWANROLL_LOG")


def planned(program, problem):
    done = subprocess.run([program, "plan"], input=json.dumps(problem), capture_output=True, text=True, check=True)
    return json.loads(done.stdout)


class Rollout:
    """A document, the switches of its network, the file of its journal, and the program that is started over them."""

    # what plays a switch
    plays = Switch

    def __init__(self, program, folder, document, image, fates):
        self.program, self.text = program, document if isinstance(document, str) else text_of(document)
        self.document = json.loads(self.text)
        self.journal, self.fleet = os.path.join(folder, "journal"), os.path.join(folder, "fleet")
        self.put(image)
        fates = fates if isinstance(fates, dict) else {switch["name"]: fates for switch in self.document["problem"]["switches"]}
        self.switches = {switch["name"]: self.plays(switch["name"], fates.get(switch["name"], plain)) for switch in self.document["problem"]["switches"]}
        write_fleet(self.fleet, self.switches.values())
        self.environment = {key: value for key, value in os.environ.items() if key not in DEVICES}
        self.environment.update(SWANROLL_JOURNAL=self.journal, SWANROLL_FLEET=self.fleet, SWANROLL_TIMEOUT=LONG_LIMIT)

    def put(self, image):
        if image is not None:
            with open(self.journal, "wb") as file:
                file.write(image)

    def image(self):
        """The bytes of the journal; None where the file isn't there."""
        try:
            with open(self.journal, "rb") as file:
                return file.read()
        except FileNotFoundError:
            return None

    def without(self, *names):
        """The environment without some names."""
        return {key: value for key, value in self.environment.items() if key not in names}

    def having(self, **changes):
        """The environment with some changes."""
        return dict(self.environment, **changes)

    def start(self, words="run", environment=None, **streams):
        streams = {"stdin": subprocess.PIPE, "stdout": subprocess.PIPE, "stderr": subprocess.PIPE, **streams}
        return subprocess.Popen([self.program, *words.split(" ")], env=environment or self.environment, **streams)

    def fed(self, words="run", environment=None, **streams):
        """What was started, with the document read to its end."""
        started = self.start(words, environment, **streams)
        started.stdin.write(self.text.encode())
        started.stdin.close()
        started.stdin = None
        return started

    def ended(self, started, text=None):
        """Status, output and notes of what was started. What doesn't end by itself is killed, which its status tells."""
        data = (self.text if text is None else text).encode() if started.stdin else None
        try:
            out, notes = started.communicate(data, timeout=PATIENCE)
        except subprocess.TimeoutExpired:
            started.kill()
            out, notes = started.communicate()
        return started.returncode, (out or b"").decode(), notes.decode()

    def run(self, words="run", environment=None, text=None, **streams):
        """The same of a start while no controller is connected, once the switches have dealt with what came."""
        end = self.ended(self.start(words, environment, **streams), text)
        for switch in self.switches.values():
            switch.settle()
        return end

    def report(self, words="report"):
        return self.run(words)

    def guests(self):
        """The switches that were connected to."""
        return {name for name, switch in self.switches.items() if switch.guests}

    def commands(self):
        return sum(len(switch.commands) for switch in self.switches.values())

    def hold(self, pairs):
        """From now on the switches hold these pairs of a migration and a number, by item, and what the operations bring."""
        items = Items(self.document)
        for item, (migration, number) in pairs.items():
            switch = self.switches[items.homes[item]]
            switch.held[item], switch.content[item] = (migration, number), (items.brings(item, number), items.scale)

    def misses(self, migration=0, document=None):
        """What differs from the target at the switches, or None."""
        items = Items(document or self.document)
        for item in range(items.count):
            number = len(items.changes[item])
            switch = self.switches.get(items.homes[item])
            if number and switch.held.get(item) != (migration, number):
                return f"item {item} holds {switch.held.get(item)}, not {(migration, number)}"
            if number and switch.content[item] != (items.content(item, -1), items.scale):
                return f"item {item} carries {switch.content[item]}"
        return next((wrong for switch in self.switches.values() for wrong in switch.wrong), None)

    def close(self):
        for switch in self.switches.values():
            switch.close()


@contextlib.contextmanager
def rollout(program, document=ONE, image=None, fates=plain, of=Rollout):
    with tempfile.TemporaryDirectory() as folder, contextlib.closing(of(program, folder, document, image, fates)) as one:
        yield one


def finished(operations, found):
    return 0, f"finished: operations {operations}, found {found}\n", ""


def stopped(status, line):
    return status, "", line + "\n"


def shown(value):
    if isinstance(value, tuple):
        return f"({', '.join(map(shown, value))})"
    return value.hex() if isinstance(value, bytes) else repr(value)


def same(found, wanted):
    """What was wrong with an answer, or None."""
    return None if found == wanted else f"{shown(found)} in place of {shown(wanted)}"
