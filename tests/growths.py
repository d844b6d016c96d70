"""Every allocation refused once, for each in turn, and every thread: what the program comes to where one finds no memory, and what a rollout then leaves.

    python3 tests/growths.py [PROGRAM]

With the program: `plan`, `check`, `sim`, `rehearse`, `trial`, `report`, `report --live`, `left`, `retarget`, `run`, `drain`, `rollback`, `held` and `agent` over small inputs end as they would, or with status 12 and its line, and with nothing else; the
journal of a `run` has what its switches carried out, and the next start goes on to the end; a `drain` is given again, and a `rollback` is gone on with by the journal that is there; where a worker's thread can't be started, the others serve its ports. Without: the calls of a journal, made by `measure journal` (which has to be
built, by `rt run -- linear < stdin` in its folder), and whether each image that is left is still a journal with the list before or after the batch, or with the journal
that was placed. A few lines of C that refuse one allocation or thread stand before the C library's; where there is no C compiler nothing is tried, and it is said.
"""

import json
import mmap
import os
import random
import shutil
import struct
import subprocess
import sys
import tempfile

from agents import command, connected, exchange, held_port
from carried import Items
from drains import drained, goes_on
from from_here import gone_on as gone_on_from_here
from journal_files import BEGIN, entries_in, text_of
from named import EXCHANGE, FULL_TABLES, ONE, TWO, read
from new_targets import target
from outcomes import report
from rollbacks import came_to, gone_on, journal, taken_back
from rolling import finished, planned, rollout, same
from waiting import PATIENCE

HERE = os.path.dirname(os.path.abspath(__file__))
PROGRAM = os.path.join(HERE, "..", "crates", "measure", "out", "measure")
# Memory is short for the allocation whose number the environment gives, and a file has how many there were: the program ends without a word to the library. No
# thread is started whose number it gives, or none at all.
REFUSES = r"""
#define _GNU_SOURCE
#include <dlfcn.h>
#include <errno.h>
#include <fcntl.h>
#include <pthread.h>
#include <stdlib.h>
#include <sys/mman.h>

static long refused, spare, *count = &spare, thread, threads;

__attribute__((constructor)) static void begin(void) {
    refused = atol(getenv("REFUSED"));
    thread = atol(getenv("THREAD"));
    int file = open(getenv("COUNT"), O_RDWR);
    if (file >= 0) count = mmap(NULL, sizeof(long), PROT_READ | PROT_WRITE, MAP_SHARED, file, 0);
    *count = 0;
}

static int is_refused(void) { return __atomic_add_fetch(count, 1, __ATOMIC_SEQ_CST) == refused; }

void *malloc(size_t size) {
    static void *(*next)(size_t);
    if (!next) next = dlsym(RTLD_NEXT, "malloc");
    return is_refused() ? NULL : next(size);
}

void *realloc(void *old, size_t size) {
    static void *(*next)(void *, size_t);
    if (!next) next = dlsym(RTLD_NEXT, "realloc");
    return is_refused() ? NULL : next(old, size);
}

int pthread_create(pthread_t *made, const pthread_attr_t *how, void *(*does)(void *), void *given) {
    static int (*next)(pthread_t *, const pthread_attr_t *, void *(*)(void *), void *);
    if (!next) next = dlsym(RTLD_NEXT, "pthread_create");
    threads++;
    return thread < 0 || thread == threads ? EAGAIN : next(made, how, does, given);
}
"""
DOCUMENT = {
    "problem": {
        "switches": [{"name": "A", "table": 2}, {"name": "B", "table": 2}],
        "links": [{"from": "A", "to": "B", "capacity": 4}],
        "flows": [{"name": "f", "tunnels": [{"path": ["A", "B"], "old": 1, "new": 2}]}],
    },
    "plan": {"scale": 1, "stages": [{"installed": [True], "rates": [1]}, {"installed": [True], "rates": [2]}]},
}
BATCH = " b:0:1 d:0:1"


class Refusing:
    """The library that refuses, and the file in which it counts."""

    def __init__(self, folder):
        source, self.library, self.counts = (os.path.join(folder, name) for name in ("refuses.c", "refuses.so", "count"))
        with open(source, "w") as out:
            out.write(REFUSES)
        subprocess.run(["cc", "-O1", "-shared", "-fPIC", "-o", self.library, source, "-ldl"], check=True)
        with open(self.counts, "wb") as out:
            out.write(bytes(mmap.PAGESIZE))

    def environment(self, refused, given=os.environ, thread=0):
        return dict(given, LD_PRELOAD=self.library, COUNT=self.counts, REFUSED=str(refused), THREAD=str(thread))

    def count(self):
        """How many allocations the last program made."""
        with open(self.counts, "rb") as file:
            return struct.unpack("q", file.read(8))[0]


# The calls of a journal.

def printed(cases, environment=None):
    """The status, and the lines that were printed."""
    text = "\n".join([json.dumps(DOCUMENT)] + cases) + "\n"
    done = subprocess.run([PROGRAM, "journal"], input=text, capture_output=True, text=True, env=environment)
    return done.returncode, done.stdout.splitlines()


def images(lines):
    return [word for line in lines if line.startswith("calls ") for word in line.split(" ")[3::2]]


def of_first_format(image):
    """The journal of the first format with this one's digest, the empty list, and room for one operation."""
    digest = image[2 * 35:2 * 67]
    slot = "53" + (35).to_bytes(8, "big").hex() + (32 + 5 + 28).to_bytes(8, "big").hex()
    return "54" + slot + "00" * 17 + digest + "00" * 5


def cases():
    """Each call, with the lists by migration that it may leave."""
    _, lines = printed(["recover 0 - -" + BATCH])
    made = images(lines)[0]
    _, lines = printed(["recover 0 - - b:0:1"])
    begun = images(lines)[0]
    return [
        ("recover 0 - -" + BATCH, {0: ["open", "open" + BATCH]}),
        ("recover 0 " + of_first_format(made) + " -" + BATCH, {0: ["open", "open" + BATCH]}),
        ("recover 0 " + begun + " - d:0:1", {0: ["open b:0:1", "open" + BATCH]}),
        ("place 7 " + begun + " -", {0: ["open b:0:1"], 7: ["open"]}),
    ]


def is_kept(image, lists):
    """Whether an image is a journal of a migration with one of its lists."""
    return any(printed([f"recover {migration} {image or '-'} -"])[1][0] in wanted for migration, wanted in lists.items())


def journals(refusing):
    for case, lists in cases():
        whole, kept, ends = printed([case], refusing.environment(0)), set(), []
        for refused in range(1, refusing.count() + 1):
            status, lines = printed([case], refusing.environment(refused))
            left = set(images(lines)) - kept
            right = status >= 0 and all(is_kept(image, lists) for image in left)
            yield f"allocation {refused} of {case}", None if right else f"status {status}, {lines}"
            kept |= left
            ends.append((status, lines))
        yield f"allocations of {case}", None if any(end != whole for end in ends) else "none is missed"


# The commands.

def texts(program, refusing):
    """Commands that read and write alone."""
    script, tables, problem = (read(name).encode() for name in ("ahead.json", "tables.json", "three-steps.json"))
    changing = json.dumps(EXCHANGE).encode()
    small = ["trial", "--switches", "4", "--flows", "3", "--events", "20"]
    for words, text in ((["plan"], problem), (["plan"], changing), (["plan", "--planner", "fewest"], problem), (["check"], ONE.encode()), (["loads"], ONE.encode()), (["explain"], ONE.encode()), (["back"], ONE.encode()), (["sim"], script), (["sim"], tables), (["rehearse", "--events", "40"], ONE.encode()), (small, b""), (["plan"], b"[1"), (["check"], problem), (["loads"], problem), (["explain"], problem)):
        whole = ended(program, words, text, refusing.environment(0))
        for refused in range(1, refusing.count() + 1):
            yield f"allocation {refused} of {words[0]}", wrong_end(ended(program, words, text, refusing.environment(refused)), whole)


def ended(program, words, text, environment):
    done = subprocess.run([program, *words], input=text, capture_output=True, env=environment)
    return done.returncode, done.stdout, done.stderr


def wrong_end(found, whole):
    """What is wrong with an end for want of one allocation, or None: it is the whole's, or status 12 with its line, and then nothing was written."""
    return None if found in (whole, (12, b"", b"out of memory\n")) else f"{found}"


def rollouts(program, refusing):
    """A rollout at which one allocation is refused, and the next start."""
    for name, document, operations in (("one", ONE, 1), ("two", TWO, 2)):
        with rollout(program, document) as one:
            one.run("run --workers 1", refusing.environment(0, one.environment))
            count = refusing.count()
        for refused in range(1, count + 1):
            with rollout(program, document) as one:
                status, out, notes = one.run("run --workers 1", refusing.environment(refused, one.environment))
                entries = entries_in(one.image() or b"")
                begun = {entry[1:] for entry in entries if entry[0] == BEGIN}
                sent = {(command.item, command.number) for switch in one.switches.values() for command in switch.commands}
                right = (status, out, notes) in (finished(operations, 0), (12, "", "out of memory\n"), (8, "", "journal device fault\n"), (9, "", "port fault at \"A\"\n"), (9, "", "port fault at \"B\"\n"))
                yield f"allocation {refused} of run of {name}", None if right and sent <= begun else f"{(status, out, notes)}, sent {sent}, begun {begun}"
                end = one.run()
                yield f"allocation {refused} of run of {name}, again", None if end == finished(operations, len(entries)) and not one.misses() else f"{end}, {one.misses()}"


def taken(program, refusing):
    """A rollback, from a level and from where it stands, at which one allocation is refused, and what is done behind it."""
    front = [(BEGIN, 0, 1)]
    stage, image = came_to(TWO, front), journal(TWO, front)
    ends = (taken_back(TWO), (12, "", "out of memory\n"), (8, "", "journal device fault\n"), (9, "", "port fault at \"A\"\n"), (9, "", "port fault at \"B\"\n"))
    for words, then in (("rollback", lambda one: gone_on(one, front, stage)), ("rollback --from here", lambda one: gone_on_from_here(one, front))):
        with rollout(program, TWO, image) as one:
            one.run(f"{words} --workers 1", refusing.environment(0, one.environment))
            count = refusing.count()
        for refused in range(1, count + 1):
            with rollout(program, TWO, image) as one:
                end = one.run(f"{words} --workers 1", refusing.environment(refused, one.environment))
                yield f"allocation {refused} of {words}", None if end in ends else f"{end}"
                yield f"allocation {refused} of {words}, gone on with", then(one)


def drains(program, refusing):
    """A drain at which one allocation is refused, and what is done behind it."""
    front = [(BEGIN, 0, 1)]
    image = journal(TWO, front)
    with rollout(program, TWO, image) as one:
        one.run("drain --workers 1", refusing.environment(0, one.environment))
        count = refusing.count()
    for refused in range(1, count + 1):
        with rollout(program, TWO, image) as one:
            end = one.run("drain --workers 1", refusing.environment(refused, one.environment))
            ends = (drained(TWO, front), (12, "", "out of memory\n"), (8, "", "journal device fault\n"), (9, "", "port fault at \"A\"\n"), (9, "", "port fault at \"B\"\n"))
            yield f"allocation {refused} of drain", None if end in ends else f"{end}"
            yield f"allocation {refused} of drain, gone on with", same(one.run("drain"), drained(TWO, front)) or goes_on(one, front)


def holdings(program, refusing):
    """What switches hold is asked where one allocation is refused: all of it is told, or nothing, and nothing is moved."""
    with rollout(program, TWO) as one:
        one.run()
        given, stands = one.having(SWANROLL_TIMEOUT="1000"), [dict(switch.held) for switch in one.switches.values()]
        whole = one.run("held", refusing.environment(0, given))
        ends = (whole, (12, "", "out of memory\n"), (9, "", "port fault at \"A\"\n"), (9, "", "port fault at \"B\"\n"))
        yield "held", None if whole[0] == 0 else f"{whole}"
        for refused in range(1, refusing.count() + 1):
            end = one.run("held", refusing.environment(refused, given))
            yield f"allocation {refused} of held", None if end in ends else f"{end}"
        yield "held after all of them", same([switch.held for switch in one.switches.values()], stands)


def threads(program, refusing):
    """A rollout by four workers of which one has no thread, or all but the caller: their ports are served all the same."""
    document = planned(program, FULL_TABLES)
    operations = Items(document).operations
    for name, thread in (("thread 1", 1), ("thread 2", 2), ("thread 3", 3), ("all threads", -1)):
        with rollout(program, document) as one:
            end = one.run("run --workers 4", refusing.environment(0, one.environment, thread))
            yield f"{name} of run", same(end, finished(operations, 0)) or one.misses()


def reports(program, refusing):
    with rollout(program, TWO) as one:
        one.run()
        for words in ("report", "report --live", "left"):
            yield from reports_of(one, refusing, words)


def reports_of(one, refusing, words):
    whole = one.run(words, refusing.environment(0, one.environment))
    for refused in range(1, refusing.count() + 1):
        end = one.run(words, refusing.environment(refused, one.environment))
        yield f"allocation {refused} of {words}", None if end in (whole, (12, "", "out of memory\n"), (8, "", "journal device fault\n")) else f"{end}"
    yield f"{words} after all of them", None if one.run(words) == whole else "another text"


def targets(program, refusing):
    """Another target, from the first moment of a rollout: the journal is the old one or the new one, and what was written is whole or nothing."""
    text = text_of(dict(TWO, target=target(TWO, [tunnel["old"] for tunnel in Items(TWO).tunnels])))
    image = journal(TWO, [])
    with rollout(program, TWO, image) as one:
        whole = one.run("retarget", refusing.environment(0, one.environment), text)
        placed, count = one.image(), refusing.count()
    with rollout(program, TWO, image) as one:
        before = one.run("report", one.environment, text_of(TWO))
    for refused in range(1, count + 1):
        with rollout(program, TWO, image) as one:
            end = one.run("retarget", refusing.environment(refused, one.environment), text)
            right = end == whole or end in ((8, "", "journal device fault\n"), (8, whole[1], "journal device fault\n")) or end[0] == 12 and end[1] in ("", whole[1])
            yield f"allocation {refused} of retarget", None if right else f"{end}"
            left = one.image()
            right = left == placed or end[0] != 0 and (left == image or one.run("report", one.environment, text_of(TWO)) == before)
            yield f"allocation {refused} of retarget, the journal", None if right else f"{end}: neither the old journal nor the new one"


def agents(program, refusing):
    """An agent at which one allocation is refused answers what it carried out, and says how it ended."""
    data = b"".join(command(0, item, 1, 2, [6]) for item in range(4))
    whole = served(program, data, refusing.environment(0))
    for refused in range(1, refusing.count() + 1):
        answers, end = served(program, data, refusing.environment(refused))
        right = whole[0].startswith(answers) and end in (whole[1], (12, b"", b"out of memory\n"), (9, b"", b"guest fault\n"))
        yield f"allocation {refused} of agent", None if right else f"{answers.hex()}, {end}"


def served(program, data, environment):
    """What an agent answers one guest, and how it ends."""
    with held_port() as held:
        environment = dict(environment, SWANROLL_LISTEN="127.0.0.1:%d" % held.getsockname()[1])
        agent = subprocess.Popen([program, "agent"], env=environment, stdin=subprocess.DEVNULL, stdout=subprocess.PIPE, stderr=subprocess.PIPE)
        answers = b""
        try:
            with connected(held, agent) as guest:
                answers = exchange(random.Random(1), guest, data)
        except OSError:  # it ended before anybody came
            pass
        out, notes = agent.communicate(timeout=PATIENCE)
        return answers, (agent.returncode, out, notes)


def outcomes(program):
    if shutil.which("cc") is None:
        yield "skipped: this machine has no C compiler", None
        return
    with tempfile.TemporaryDirectory() as folder:
        refusing = Refusing(folder)
        if program is None:
            yield from journals(refusing)
            return
        for kind in (texts, reports, targets, rollouts, drains, taken, holdings, threads, agents):
            yield from kind(program, refusing)


if __name__ == "__main__":
    report("growths", "allocations refused", outcomes(os.path.abspath(sys.argv[1]) if len(sys.argv) > 1 else None))
