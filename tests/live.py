"""`report --live`: a journal that is read as it stands, while a controller has it open and appends to it.

    python3 tests/live.py PROGRAM

Beside rollouts over switches that the tests play: each text is the report of a front of the list that the journal has in the end, with as many entries as it had while the command was
there; the lock isn't asked for, and nothing of the file is changed. With `--follow` each text is another one than the one before, up to the last. Besides journals that nobody has, files that are none, words, and a front that changes between the two readings.
"""

import fcntl
import json
import os
import re
import subprocess
import sys
import tempfile
import threading
import time

from carried import Items
from journal_files import count_of, digest_of, entries_in, part, size_of, slot
from named import ONE, read
from outcomes import report
from rolling import finished, rollout, same, stopped
from rollouts import FINISHED, NOTHING_YET, ROLLED, USAGE
from switches import plain, silent
from waiting import PATIENCE, by_first_that_fits, until

FAULT, IN_USE = stopped(8, "journal device fault"), stopped(8, "journal: in use, try again")
NSFNET = read("networks/nsfnet.out")
MOST_LOOKS, PAUSES, LATE = 200, (0.5, 5, 30), 120
FIRST = re.compile(r"entries (\d+), settled \d+ of \d+, flying \d+\n")


def look(one, words="report --live", text=None, environment=None, journal=None):
    """Status, output and notes of a command that looks, while a controller may be connected."""
    return one.ended(one.start(words, environment or one.having(SWANROLL_JOURNAL=journal or one.journal)), text)


def journal_with(document, entries):
    """A journal of a document with this list."""
    items = Items(document)
    size = size_of(items.count, items.operations)
    return b"\x54" + slot(35, size) + bytes(17) + part(digest_of(document), [0] * items.count, entries)


def reported(one, entries, folder):
    """What a plain report says of a journal with these entries."""
    path = os.path.join(folder, "front")
    with open(path, "wb") as file:
        file.write(journal_with(one.document, entries))
    return look(one, "report", journal=path)


def state(path):
    """All of a file that a write, or a file in its place, would change."""
    found = os.stat(path)
    with open(path, "rb") as file:
        return file.read(), found.st_ino, found.st_mtime_ns, found.st_size, sorted(os.listdir(os.path.dirname(path)))


def standing(given, pause):
    """Beside a controller that waits for a switch, and has begun nothing for so many seconds: the text is the report of the list, the file stays, and the controller goes on."""
    program, folder = given
    document = json.loads(NSFNET)
    silent_one = Items(document).homes[next(item for item, changes in enumerate(Items(document).changes) if changes)]
    fates = {switch["name"]: silent if switch["name"] == silent_one else plain for switch in document["problem"]["switches"]}
    with rollout(program, NSFNET, None, fates) as one:
        started = one.fed()
        counts = [0, 0]

        def stands():
            counts.append(count_of(one.image()))
            return counts[-1] and counts[-1] == counts[-2]

        until(stands, look=pause)
        before = state(one.journal)
        entries = entries_in(before[0])
        yield "beside a controller, a plain report", same(look(one, "report"), FAULT)
        live = look(one)
        yield "beside a controller", same(live, reported(one, entries, folder)) or same(live[0], 0)
        yield "beside a controller, the file", same(state(one.journal), before)
        yield "beside a controller, another migration", same(look(one, "report --live --migration 1")[0], 10) or same(state(one.journal), before)
        yield "beside a controller, a document that is none", same(look(one, text="{}")[0], 3)
        started.kill()
        one.ended(started)
        yield "behind a controller that was killed", same(look(one), live) or same(state(one.journal), before)
        for switch in one.switches.values():
            switch.fate = plain
        yield "and gone on", same(one.run(), finished(Items(document).operations, len(entries))) or one.misses()
        yield "in the end", None if look(one)[1].endswith("\nfinished\n") else repr(look(one))


def growing(program, folder):
    """Beside a controller that appends meanwhile, a command being answered with each look: each text is that of a front of the list, of a length between those before and after."""
    turns = threading.Semaphore(0)

    def in_turn(switch, guest, command):
        turns.acquire(timeout=PATIENCE)
        plain(switch, guest, command)

    for workers in (1, 4):
        with rollout(program, NSFNET, None, in_turn) as one:
            started, looks = one.fed(f"run --workers {workers}"), []
            until(one.image, look=0.002)
            while started.poll() is None and len(looks) < MOST_LOOKS:
                before = count_of(one.image())
                turns.release()
                looks.append((before, look(one), count_of(one.image())))
            turns.release(MOST_LOOKS)
            yield f"by {workers}, the run", same(one.ended(started)[0], 0)
            turns = threading.Semaphore(0)
            entries, counts = entries_in(one.image()), []
            for number, (before, end, after) in enumerate(looks):
                if end == IN_USE and not before:  # the start wasn't over
                    continue
                line = FIRST.match(end[1])
                count = int(line[1]) if line else -1
                fits = line and (before is None or before <= count) and (after is None or count <= after)
                yield f"by {workers}, look {number}", None if fits and end[0] == 0 else f"{end} with {before} entries before and {after} after"
                if count not in counts:
                    counts.append(count)
                    yield f"by {workers}, the text of {count} entries", same(end, reported(one, entries[:count], folder))
            yield f"by {workers}, in order", same(counts, sorted(counts)) or (None if len(counts) > 3 else f"no more than {counts} were seen")


def alone(program, folder):
    """A journal that nobody has, or whose lock is another's."""
    with rollout(program, ONE, ROLLED) as one:
        before = state(one.journal)
        yield "nobody there", same(look(one), (0, FINISHED, "")) or same(state(one.journal), before)
        with open(one.journal, "r+b") as file:
            fcntl.flock(file, fcntl.LOCK_EX)
            yield "the lock is another's, a plain report", same(look(one, "report"), FAULT)
            yield "the lock is another's", same(look(one), (0, FINISHED, "")) or same(state(one.journal), before)
        os.chmod(one.journal, 0o400)
        yield "a file that is only read", same(look(one), (0, FINISHED, ""))
        yield "a plain report behind it", same(state(one.journal)[0], ROLLED)
        for length in range(len(ROLLED)):
            one_cut = os.path.join(folder, "cut")
            with open(one_cut, "wb") as file:
                file.write(ROLLED[:length])
            live, kept = look(one, journal=one_cut), open(one_cut, "rb").read()
            yield f"cut at {length}", same(kept, ROLLED[:length]) or same(live, look(one, "report", journal=one_cut))
    for name, image in (("an empty file", b""), ("one byte", b"\0")):
        with rollout(program, ONE, image) as one:
            yield name, same(look(one), (0, NOTHING_YET, "")) or same(one.image(), image)
    with rollout(program, ONE, b"x" * 40) as one:
        yield "no journal", same(look(one), stopped(10, "journal: first byte 120")) or same(one.image(), b"x" * 40)


def none(program, folder):
    """Files that are none, and words that are none. A pipe that nobody writes is not waited for."""
    pipe = os.path.join(folder, "pipe")
    os.mkfifo(pipe)
    missing = os.path.join(folder, "missing")
    with rollout(program) as one:
        for name, path in (("a folder", folder), ("a file that isn't there", missing), ("a pipe", pipe), ("a device", "/dev/zero"), ("a file in no folder", os.path.join(missing, "journal"))):
            yield name, same(look(one, journal=path), FAULT)
        yield "no name", same(look(one, environment=one.having(SWANROLL_JOURNAL="")), FAULT)
        yield "no variable", same(look(one, environment=one.without("SWANROLL_JOURNAL")), FAULT)
        yield "it isn't made", None if not os.path.exists(missing) and one.image() is None else "there is one"
        long = os.path.join(folder, "long")
        with open(long, "wb") as file:
            file.write(ROLLED)
            file.truncate(33_554_433)
        yield "a file that is too long", same(look(one, journal=long), FAULT)
        os.truncate(long, 33_554_432)
        yield "one that isn't", same(look(one, journal=long), (0, FINISHED, ""))
        further = os.path.join(folder, "further")
        with open(further, "wb") as file:
            file.write(ROLLED[:1] + slot(35, 40_000_000) + ROLLED[18:])
        yield "a part that is told longer than there is room", same(look(one, journal=further), (0, FINISHED, ""))
        for words in ("report --migration 0 --live", "report --live --live", "report --live 1", "run --live", "report --live --policy order", "report --live --migration", "report --live --migration x",
                      "report --live --follow", "report --live --follow 86401", "report --live --follow x", "report --follow 1", "report --live --follow 1 --follow 1"):
            yield words, same(look(one, words), USAGE)


def following(program, folder):
    """Anew, each time that it is another report: beside a controller that is killed and started again, up to the report of the finished rollout."""
    turns = threading.Semaphore(0)

    def in_turn(switch, guest, command):
        turns.acquire(timeout=PATIENCE)
        plain(switch, guest, command)

    with rollout(program, NSFNET, None, in_turn) as one:
        yield "nothing there", same(look(one, "report --live --follow 1"), FAULT)
        started = one.fed()
        until(lambda: count_of(one.image()), look=0.002)  # the start is over
        path = os.path.join(folder, "followed")
        with open(path, "wb") as told:
            follower = one.fed("report --live --follow 1", stdout=told)
        for count in range(4):  # each command that is answered is another report
            said = os.path.getsize(path)
            turns.release()
            until(lambda: os.path.getsize(path) > said, seconds=LATE)
        started.kill()
        one.ended(started)
        started = one.fed()
        turns.release(MOST_LOOKS)
        yield "the run", same(one.ended(started)[0], 0)
        status, _, notes = one.ended(follower)
        with open(path, encoding="utf-8") as file:
            out = file.read()
        texts = [text for text in re.split(r"(?<=finished\n)|(?<=finished: \d\n)|(?<=finished: \d\d\n)", out) if text]
        counts = [int(FIRST.match(text)[1]) for text in texts if FIRST.match(text)]
        entries = entries_in(one.image())
        yield "following, its end", same((status, notes), (0, "")) or same(texts[-1:], [look(one)[1]])
        yield "following, its texts", same(len(counts), len(texts)) or same(counts, sorted(set(counts))) or (None if len(counts) > 2 else f"no more than {counts}")
        for count, text in zip(counts, texts):
            yield f"following, the text of {count} entries", same((0, text, ""), reported(one, entries[:count], folder))
        before = state(one.journal)
        yield "following what is finished", same(look(one, "report --live --follow 86400"), look(one)) or same(state(one.journal), before)
        yield "in nought seconds", same(look(one, "report --live --follow 0"), look(one))
        with open("/dev/full", "wb") as full:
            yield "following to a full device", same(one.ended(one.start("report --live --follow 1", stdout=full)), stopped(7, "write fault"))
        yield "following another migration", same(look(one, "report --live --follow 1 --migration 1")[0], 10)
        tool = os.path.join(os.path.dirname(os.path.abspath(__file__)), "..", "tools", "progress")
        done = subprocess.run([sys.executable, "-B", tool], input=out, capture_output=True, text=True, check=False)
        lines = done.stdout.split("\n")[:-1]
        yield "as lines", same((done.returncode, len(lines)), (0, len(texts))) or (None if re.fullmatch(r"\[#{30}\] 38 of 38, flying 0, \d+\.\d entries/s, fullest .* \d+ of \d+", lines[-1]) else repr(lines[-1]))
        halted = subprocess.run([sys.executable, "-B", tool], input=texts[0], capture_output=True, text=True, check=False)
        yield "as a line of what isn't finished", same((halted.returncode, halted.stdout.count("\n")), (1, 1))


def moved(program, folder):
    """The front changes all the time: the text, or that the journal is in use, and each of them comes. The file is long, so that its reading takes a while."""
    path = os.path.join(folder, "moved")
    with open(path, "wb") as file:
        file.write(ROLLED)
        file.truncate(33_554_432)
    stops = threading.Event()

    def move():
        with open(path, "r+b", buffering=0) as file:
            while not stops.is_set():
                for byte in (b"\1", b"\0"):
                    os.pwrite(file.fileno(), byte, 18)
                    time.sleep(0.0005)

    with rollout(program) as one:
        mover = threading.Thread(target=move)
        mover.start()
        try:
            seen = {look(one, journal=path) for _ in range(60)}
            until(lambda: seen.add(look(one, journal=path)) or len(seen) > 1)
        finally:
            stops.set()
            mover.join()
        yield "a front that changes", same(seen, {(0, FINISHED, ""), IN_USE})
        yield "and then doesn't", same(look(one, journal=path), (0, FINISHED, ""))


def outcomes(program):
    with tempfile.TemporaryDirectory() as folder:
        yield from by_first_that_fits(standing, (program, folder), PAUSES)
        for part_of in (growing, following, alone, none, moved):
            yield from part_of(program, folder)


if __name__ == "__main__":
    report("live", "looks at journals", outcomes(os.path.abspath(sys.argv[1])))
