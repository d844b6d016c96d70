"""The log of a rollout, which `run` writes to the file that SWANROLL_LOG names, beside the list of the journal.

    python3 tests/logs.py PROGRAM

Of a run over switches that the tests play: a line for each entry of the list behind the one found, in its order, and in front of them how many were found. Besides runs that
are killed, files that are none, and a picture that is drawn of a log.
"""

import errno
import os
import re
import subprocess
import sys
import tempfile
import time

from journal_files import BEGIN, DONE, entries_in
from named import ONE, read
from outcomes import report
from rolling import finished, rollout, same
from syncs import Calls
from waiting import until

LINE = re.compile(r"(\d+) (?:(begin|done) (\d+) (\d+)|start (\d+))")
KINDS = {"begin": BEGIN, "done": DONE}
LONG_AGO = 7_200_000  # milliseconds


class Log:
    """The lines of a log's file; none where it isn't there."""

    def __init__(self, path):
        self.text = ""
        if os.path.exists(path):
            with open(path, encoding="ascii") as file:
                self.text = file.read()
        self.rows = [LINE.fullmatch(line) for line in self.text.split("\n")[:-1]]

    def wrong(self):
        """What is wrong with how its lines look, or None."""
        if not self.rows or None in self.rows or not self.text.endswith("\n"):
            return f"the lines are {self.text[:200]!r}"
        times = [int(row[1]) for row in self.rows]
        now = time.time() * 1000
        return None if times == sorted(times) and now - LONG_AGO < times[0] and times[-1] < now + 1000 else f"the times are {times}, and it is {now:.0f}"

    def entries(self):
        return [(KINDS[row[2]], int(row[3]), int(row[4])) for row in self.rows if row[2]]

    def starts(self):
        """How many entries stand in front of each start, and how many it says that were found."""
        return [(sum(bool(other[2]) for other in self.rows[:place]), int(row[5])) for place, row in enumerate(self.rows) if row[5]]


def beside(one, path, starts=((0, 0),)):
    """What a log has that the journal hasn't, or the other way round, or None."""
    log = Log(path)
    return log.wrong() or same(log.entries(), [tuple(entry) for entry in entries_in(one.image())]) or same(log.starts(), list(starts))


def whole(program, folder):
    """A run to its end, by one worker and by four; a second one adds nothing, and neither does a report."""
    for name, document in (("one operation", ONE), ("NSFNET", read("networks/nsfnet.out"))):
        for workers in (1, 4):
            path = os.path.join(folder, f"{workers}-{name}.log".replace(" ", "-"))
            with rollout(program, document) as one:
                environment = one.having(SWANROLL_LOG=path)
                end = one.run(f"run --workers {workers}", environment)
                yield f"{name} by {workers}", (None if end[0] == 0 else repr(end)) or beside(one, path)
                before = Log(path).text
                count = len(entries_in(one.image()))
                yield f"{name} by {workers}, again", same(one.run(f"run --workers {workers}", environment), finished(count // 2, count)) or same(Log(path).text, before)
                yield f"{name} by {workers}, a report", same(one.run("report", environment)[0], 0) or same(Log(path).text, before)


def behind_others(program, folder):
    """A file that has lines gets more behind them."""
    path = os.path.join(folder, "behind.log")
    with open(path, "w", encoding="ascii") as file:
        file.write("1 start 0\n")
    with rollout(program) as one:
        yield "behind other lines, the run", same(one.run("run", one.having(SWANROLL_LOG=path))[0], 0)
        with open(path, encoding="ascii") as file:
            lines = file.read().split("\n")
        yield "behind other lines", same([lines[0], lines[1].split(" ", 1)[1]], ["1 start 0", "start 0"])


def killed(program, folder):
    """A controller that is killed while operations are in flight, and the next one: the lines of both are the list, but for those of the last batch before the kill, of which a
    front may be there."""
    path = os.path.join(folder, "killed.log")
    with rollout(program, read("networks/nsfnet.out")) as one:
        environment = one.having(SWANROLL_LOG=path)
        for count in (1, 5, 20):
            started = one.fed("run", environment)
            until(lambda: one.commands() >= count or started.poll() is not None, look=0.002)
            started.kill()
            one.ended(started)
            entries = [tuple(entry) for entry in entries_in(one.image())] if one.image() else []
            logged = Log(path).entries()
            yield f"killed behind {count} commands", None if set(logged) <= set(entries) else f"the log has {logged} and the journal {entries}"
        end = one.run("run", environment)
        entries = [tuple(entry) for entry in entries_in(one.image())]
        log = Log(path)
        place, found = log.starts()[-1] if log.starts() else (0, None)
        yield "killed, and run to its end", same(end, finished(len(entries) // 2, found)) or same(log.entries()[place:], entries[found:])


def ends_of_logs(program, folder):
    """A log that can't be written ends, and not the run."""
    path = os.path.join(folder, "pipe")
    os.mkfifo(path)
    kept = os.path.join(folder, "kept.log")
    with open(kept, "w", encoding="ascii"):
        os.chmod(kept, 0o400)
    cases = [("no name", ""), ("a folder", folder), ("a file in no folder", os.path.join(folder, "none", "log")), ("a device", "/dev/full"), ("a pipe that nobody reads", path)]
    cases += [] if os.geteuid() == 0 else [("a file that mustn't be written", kept)]
    for name, place in cases:
        with rollout(program) as one:
            yield name, same(one.run("run", one.having(SWANROLL_LOG=place)), finished(len(entries_in(one.image() or b"")) // 2, 0)) or one.misses()
    with rollout(program) as one:
        yield "the journal", same(one.run("run", one.having(SWANROLL_LOG=one.journal)), finished(1, 0)) or same(one.run("run"), finished(1, 2)) or one.misses()
    with rollout(program) as one:
        one.run("run", one.without("SWANROLL_LOG"))
        yield "no variable", same(sorted(os.listdir(os.path.dirname(one.journal))), ["fleet", "journal"])
    yield "a file that is only read", same(os.path.getsize(kept), 0) if os.geteuid() else None


class Failing:
    """The write of this number, from 0, fails, and no other."""

    def __init__(self, number):
        self.number, self.count = number, 0

    def __call__(self, name, process):
        self.count += 1
        return errno.EIO if self.count == self.number + 1 else None


def cut_off(program, folder):
    """A write of the log that fails is its last one, though a further one would be made; and the run comes to its end."""
    for number in range(4):
        path = os.path.join(folder, f"cut-{number}.log")
        with open(path, "w", encoding="ascii"):
            failing = Failing(number)
        with rollout(program, read("networks/nsfnet.out")) as one:
            calls = Calls(path, ("write", "pwrite"), failing)
            started = one.start("run", one.having(SWANROLL_LOG=path), preexec_fn=calls.in_child)
            seen = calls.attach()
            end = one.ended(started)
            for switch in one.switches.values():
                switch.settle()
            calls.close()
            if not seen:
                yield "calls can't be seen on this machine", None
                return
            entries, logged = [tuple(entry) for entry in entries_in(one.image())], Log(path).entries()
            yield f"write {number} fails, the run", same(end, finished(len(entries) // 2, 0)) or one.misses()
            yield f"write {number} fails, its writes", same(failing.count, number + 1)
            yield f"write {number} fails, its lines", same(logged, entries[:len(logged)]) or same(len(logged) < len(entries) and bool(logged) == bool(number), True)


def refused(program, folder):
    """Where nothing is begun, no file is made."""
    path = os.path.join(folder, "refused.log")
    with rollout(program) as one:
        environment = one.having(SWANROLL_LOG=path, SWANROLL_FLEET="")
        yield "no fleet", same(one.run("run", environment)[0], 9) or (f"there is {Log(path).text!r}" if os.path.exists(path) else None)
        yield "refused input", same(one.run("run", environment, text="{}")[0], 3) or ("there is a log" if os.path.exists(path) else None)


def drawn(program, folder):
    """What tools/picture says of a log that a run has written."""
    path, page, text = os.path.join(folder, "drawn.log"), os.path.join(folder, "drawn.html"), read("networks/nsfnet.out")
    document = os.path.join(folder, "nsfnet.json")
    with open(document, "w", encoding="utf-8") as file:
        file.write(text)
    with rollout(program, text) as one:
        one.run("run", one.having(SWANROLL_LOG=path))
    tool = os.path.join(os.path.dirname(os.path.abspath(__file__)), "..", "tools", "picture")
    done = subprocess.run([sys.executable, "-B", tool, "rollout", document, path, "-o", page, "--program", program], capture_output=True, text=True)
    yield "a picture of a log", None if done.returncode == 0 and "38 of 38 operations settled" in open(page, encoding="utf-8").read() else repr(done)


def outcomes(program):
    with tempfile.TemporaryDirectory() as folder:
        for part in (whole, behind_others, killed, ends_of_logs, cut_off, refused, drawn):
            yield from part(program, folder)


if __name__ == "__main__":
    report("logs", "logs and ends of logs", outcomes(os.path.abspath(sys.argv[1])))
