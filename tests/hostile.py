"""Files, journals, streams, words and guests that an operator meets at the rims: each row runs the built program on one, and holds its status, its
line, its memory and the time of a processor that it takes.

    python3 tests/hostile.py PROGRAM
"""

import contextlib
import fcntl
import json
import os
import pathlib
import resource
import signal
import socket
import struct
import subprocess
import sys
import tempfile
import threading
import time

sys.path.insert(0, os.path.join(os.path.dirname(os.path.abspath(__file__)), "..", "bench"))
from agent_streams import command, MOST_RATES  # noqa: E402
from agents import connected, held_port  # noqa: E402
from journal_files import PARTS, SLOT, digest_of, part, slot  # noqa: E402
from named import ONE  # noqa: E402
from outcomes import report  # noqa: E402
from waiting import LONG_LIMIT, PATIENCE, by_first_that_fits  # noqa: E402

EXAMPLES = pathlib.Path(__file__).resolve().parent.parent / "examples"
GUESTS, MEBIBYTE, PAGE = 1000, 1 << 20, 4096
LATE, SLOWLY, MORE = 1.0, 0.02, (0.3, 0.3, 0.5)  # seconds: until a stream is first served, between its pieces, and of a processor beyond the usual, by tries
USAGE = "usage: swanroll COMMAND [--NAME VALUE]\n"
DISK, FLEET, SINK, SOURCE = "journal device fault\n", "port fault at \"A\"\n", "write fault\n", "read fault\n"
# What a journal of a small plan may take, the largest part that its format can name, and how many items a document within the limits has at most.
ROOM, LARGEST_PART, MOST_ITEMS = 33_554_432, 1_000_000_000, 1024 + 4096 * 17


def held_to(file_bytes=None, stack_bytes=None):
    """What a child sets before it runs: a limit of its files' sizes, whose signal is ignored as ./swanroll has it, or of its stack."""

    def set_up():
        if file_bytes is not None:
            signal.signal(signal.SIGXFSZ, signal.SIG_IGN)
            resource.setrlimit(resource.RLIMIT_FSIZE, (file_bytes, file_bytes))
        if stack_bytes is not None:
            resource.setrlimit(resource.RLIMIT_STACK, (stack_bytes, stack_bytes))

    return set_up


def ended(child):
    """What a child has used once it has ended; one that stands still is killed, which its status tells."""
    killer = threading.Timer(PATIENCE, child.kill)
    killer.start()
    _, status, used = os.wait4(child.pid, 0)
    killer.cancel()
    child.returncode = os.waitstatus_to_exitcode(status)
    return used


class Ran:
    """One run of the program: its status, what it wrote and noted, its greatest memory in bytes, and its seconds of a processor."""

    def __init__(self, program, words, given=b"", out=None, environment=(), before=None, stdin=None, notes=None):
        with tempfile.TemporaryFile() as source, tempfile.TemporaryFile() as written:
            source.write(given if isinstance(given, bytes) else given.encode())
            source.seek(0)
            child = subprocess.Popen([program, *words], stdin=stdin or source, stdout=out or written, stderr=notes or subprocess.PIPE, env=dict(os.environ, **dict(environment)), preexec_fn=before)
            used, self.status = ended(child), child.returncode
            written.seek(0)
            self.text, self.line = written.read().decode(errors="replace"), ""
            if child.stderr is not None:
                with child.stderr as noted:
                    self.line = noted.read().decode(errors="replace")
        self.memory, self.processor = used.ru_maxrss * 1024, used.ru_utime + used.ru_stime

    def wrong(self, status, line=None, memory=64 * MEBIBYTE, seconds=5.0):
        """What is not as it should be, or None."""
        if self.status != status or line is not None and self.line != line:
            return f"ended with {self.status} and {self.line!r}"
        if self.memory > memory or self.processor > seconds:
            return f"took {self.memory // MEBIBYTE} MiB and {self.processor:.1f} s of a processor"
        return None


def sized_files(program, folder):
    """A limit of the size of files ends nothing: the disk or the sink fails, with its line."""
    for words in (("report",), ("run",)):
        journal = folder / f"limited-{words[0]}"
        done = Ran(program, words, ONE, environment={"SWANROLL_JOURNAL": str(journal)}, before=held_to(file_bytes=0))
        yield f"{words[0]} where files may have no byte", done.wrong(8, DISK)
    with open(folder / "output", "wb") as output:
        done = Ran(program, ("plan",), (EXAMPLES / "networks" / "nsfnet.json").read_bytes(), out=output, before=held_to(file_bytes=100))
    yield "plan into a file that may have a hundred bytes", done.wrong(7, SINK)


def odd_files(program, folder):
    """What is no regular file, and what is too long, is refused at once: as a fleet with status 9, as a journal with 8."""
    fifo, large, sparse = folder / "fifo", folder / "large", folder / "sparse"
    os.mkfifo(fifo)
    large.write_bytes(b"A 127.0.0.1:1\n" + b"#" * MEBIBYTE)
    with open(sparse, "wb") as file:
        file.truncate(8 << 30)
    for name, path in (("a folder", folder), ("a pipe", fifo), ("a device", "/dev/zero"), ("a file above a mebibyte", large), ("a file of 8 GiB", sparse)):
        journal = folder / f"beside-{name.replace(' ', '-')}"
        done = Ran(program, ("run",), ONE, environment={"SWANROLL_JOURNAL": str(journal), "SWANROLL_FLEET": str(path)})
        yield f"{name} as a fleet", done.wrong(9, FLEET)
    for words in (("report",), ("run",)):
        for name, path in (("a folder", folder), ("a pipe", fifo), ("a device", "/dev/zero"), ("a file of 8 GiB", sparse)):
            done = Ran(program, words, ONE, environment={"SWANROLL_JOURNAL": str(path), "SWANROLL_FLEET": str(large)})
            yield f"{name} as a journal of {words[0]}", done.wrong(8, DISK)


def far_parts(program, folder):
    """A journal of a few bytes that names a part far out takes neither memory nor room on the disk, nor does a file as long as it says: where the plan can't need
    it, it is refused and stays short; where it might, it is gone on with, and all but a few pages of the file are a hole."""
    digest, image = digest_of(json.loads(ONE)), {}
    for size in (LARGEST_PART, ROOM, ROOM // 2):
        image[size] = b"\x54" + slot(PARTS, size) + bytes(SLOT) + part(digest, [0] * 6)
    last = b"\x54" + slot(PARTS + LARGEST_PART, 97) + bytes(SLOT)
    for words in (("report",), ("run", "--rounds", "1")):
        for name, data, length in (
            ("a part of a gigabyte", image[LARGEST_PART], None), ("a part as long as all may be", image[ROOM], None),
            ("a part of a gigabyte, and is as long", image[LARGEST_PART], PARTS + LARGEST_PART), ("a part behind a gigabyte", last, PARTS + LARGEST_PART + 97),
        ):
            journal = folder / f"far-{words[0]}-{name.replace(' ', '-')}"
            sparse(journal, data, length)
            done = Ran(program, words, ONE, environment={"SWANROLL_JOURNAL": str(journal), "SWANROLL_FLEET": ""})
            yield f"{words[0]} of a journal that names {name}", done.wrong(8, DISK, memory=24 * MEBIBYTE) or longer(journal, length or len(data))
        journal = folder / f"far-{words[0]}-within"
        sparse(journal, image[ROOM // 2], None)
        for turn in ("", ", again"):
            done = Ran(program, words, ONE, environment={"SWANROLL_JOURNAL": str(journal), "SWANROLL_FLEET": ""})
            ends = (0, "") if words[0] == "report" else (9, FLEET)
            yield f"{words[0]} of a journal that names a part of half its room{turn}", done.wrong(*ends, memory=4 * ROOM) or longer(journal, ROOM)


def sparse(path, data, length):
    """A file of these bytes, as long as it is to be, with a hole behind them."""
    with open(path, "wb") as file:
        file.write(data)
        if length is not None:
            file.truncate(length)


def longer(path, length):
    """What is wrong with a file that has at most so many bytes, and takes at most a mebibyte of its disk, or None."""
    found = os.stat(path)
    return None if found.st_size <= length and found.st_blocks * 512 <= MEBIBYTE else f"it has {found.st_size:,} bytes, and takes {found.st_blocks * 512:,}"


def odd_words(program, folder):
    """Words that are no text are no command line, wherever they stand."""
    for words in ((b"\xff",), (b"plan", b"\xff"), (b"plan\xff",), (b"sim", b"--policy", b"ord\xc3"), (b"trial", b"--switches", b"4\x80")):
        yield f"the words {words}", Ran(program, words, ONE).wrong(2, USAGE)


def broken_off(data):
    """A stream of which the read behind these bytes fails: the other end has broken it off."""
    with socket.create_server(("127.0.0.1", 0)) as server:
        broken = socket.create_connection(server.getsockname())
        other, _ = server.accept()
        other.sendall(data)
        other.setsockopt(socket.SOL_SOCKET, socket.SO_LINGER, struct.pack("ii", 1, 0))
        other.close()
        return broken


def odd_streams(program, folder):
    """Input that breaks off is a read fault, also behind a whole document; notes that fail change no status."""
    document = ONE.encode()
    for command_word in ("check", "sim", "plan"):
        for name, data in (("at once", b""), ("in its midst", document[:100]), ("behind its last byte", document)):
            with broken_off(data) as broken:
                done = Ran(program, (command_word,), stdin=broken)
            yield f"{command_word} of what breaks off {name}", done.wrong(6, SOURCE) or (None if not done.text else done.text)
    with open("/dev/full", "wb") as full:
        for words, given, status in ((("plan",), b"[]", 3), (("none",), b"", 2), (("agent",), b"", 9)):
            done = Ran(program, words, given, environment={"SWANROLL_LISTEN": ""}, notes=full)
            yield f"{words[0]} whose notes fail", done.wrong(status, "") or (None if not done.text else done.text)


def small_stacks(program, folder):
    """A stack of 120 kilobytes is enough: some 110 are used, most of it by the reading of an input, which the compiler puts into one frame."""
    for name in ("nsfnet", "b4"):
        path = EXAMPLES / "networks" / f"{name}.json"
        if path.exists():
            small = Ran(program, ("plan",), path.read_bytes(), before=held_to(stack_bytes=120_000))
            usual = Ran(program, ("plan",), path.read_bytes())
            yield f"plan of {name} on a small stack", small.wrong(usual.status, usual.line) or (None if small.text == usual.text else "another text")


class Streamed:
    """One run over pipes or sockets, of which the one that is named doesn't block, as its starter has set it, and is served late and slowly: its
    status, what it wrote and noted, and its seconds of a processor."""

    def __init__(self, program, words, given, late, pair):
        (source, feed), (text, sink), (noted, notes) = pair(), pair(), pair()
        own = {"input": source, "output": sink, "notes": notes}
        os.set_blocking(own[late], False)
        self.filled = filled(notes) if late == "notes" else b""
        child = subprocess.Popen([program, *words], stdin=source, stdout=sink, stderr=notes)
        for end in own.values():
            os.close(end)
        told = {"output": [], "notes": []}
        threads = [
            threading.Thread(target=fed, args=(feed, given, late == "input")),
            threading.Thread(target=drained, args=(text, told["output"], late == "output")),
            threading.Thread(target=drained, args=(noted, told["notes"], late == "notes")),
        ]
        for thread in threads:
            thread.start()
        used, self.status = ended(child), child.returncode
        for thread in threads:
            thread.join()
        self.text, self.line = (b"".join(told[name]) for name in ("output", "notes"))
        self.processor = used.ru_utime + used.ru_stime

    def wrong(self, usual, more):
        """What is not as in a run over files, but for so many seconds of a processor more, or None."""
        if self.status != usual.status or self.line != self.filled + usual.line.encode():
            return f"ended with {self.status} and {self.line[len(self.filled):]!r}"
        if self.text != usual.text.encode():
            return f"wrote {len(self.text)} bytes, and not the same"
        if self.processor > usual.processor + more:
            return f"took {self.processor:.2f} s of a processor, and {usual.processor:.2f} s over files"
        return None


def small_pipe():
    """A pipe that holds a page."""
    pair = os.pipe()
    fcntl.fcntl(pair[1], fcntl.F_SETPIPE_SZ, PAGE)
    return pair


def small_sockets():
    """Two ends of a connection that holds some pages."""
    pair = socket.socketpair()
    for end in pair:
        end.setsockopt(socket.SOL_SOCKET, socket.SO_SNDBUF, PAGE)
    return tuple(end.detach() for end in pair)


def filled(end):
    """What a stream took until it was full."""
    count = 0
    with contextlib.suppress(BlockingIOError):
        while True:
            count += os.write(end, b"#" * PAGE)
    with contextlib.suppress(BlockingIOError):
        while True:
            count += os.write(end, b"#")
    return b"#" * count


def fed(end, given, late):
    """Writes what is given and closes the end; late, in two pieces, where it is to be so."""
    middle = len(given) // 2 if late else 0
    with contextlib.suppress(BrokenPipeError, ConnectionResetError), open(end, "wb", buffering=0) as stream:
        for piece in (given[:middle], given[middle:]):
            time.sleep(LATE if late else 0)
            while piece:
                piece = piece[stream.write(piece) :]


def drained(end, pieces, late):
    """Reads to the end, page by page; late and slowly where it is to be so."""
    time.sleep(LATE if late else 0)
    with contextlib.suppress(ConnectionResetError), open(end, "rb", buffering=0) as stream:
        while piece := stream.read(PAGE):
            pieces.append(piece)
            time.sleep(SLOWLY if late else 0)


def streams_that_do_not_block(program, more):
    """Where a standard stream doesn't block, what isn't there yet is waited for, and takes no processor meanwhile, or so many seconds of one."""
    plan = (("plan",), (EXAMPLES / "networks" / "hundred.json").read_bytes())
    refused = (("plan",), (EXAMPLES / "no-slack.json").read_bytes())
    for kind, pair in (("pipe", small_pipe), ("socket", small_sockets)):
        for name, late, (words, given) in (
            ("input that comes late, in two pieces", "input", plan),
            ("an output that is read late and slowly", "output", plan),
            ("notes that are full", "notes", refused),
        ):
            yield f"{name}, on a {kind} that doesn't block", Streamed(program, words, given, late, pair).wrong(Ran(program, words, given), more)


def answers_before_a_bad_frame(program, folder):
    """A guest that sends what is no command, and goes on sending, has the answers to the commands before it, each time."""
    good = b"".join(command(0, item, 1, 1, [item + 1]) for item in range(20))
    with held_port() as held:
        environment = dict(os.environ, SWANROLL_LISTEN="127.0.0.1:%d" % held.getsockname()[1], SWANROLL_TIMEOUT=LONG_LIMIT)
        agent = subprocess.Popen([program, "agent", "--guests", str(GUESTS)], env=environment, stdin=subprocess.DEVNULL, stdout=subprocess.PIPE, stderr=subprocess.PIPE)
        short = 0
        for guest_number in range(GUESTS):
            answers = b""
            with connected(held, agent) as guest:
                try:
                    guest.sendall(good + b"D" + b"x" * (1 + guest_number * 97 % 50_000))
                    guest.shutdown(socket.SHUT_WR)
                    while more := guest.recv(1 << 16):
                        answers += more
                except OSError:
                    pass
            short += len(answers) != 13 * 20
        out, noted = agent.communicate(timeout=PATIENCE)
    yield f"answers before a bad frame, {GUESTS} guests", None if not short else f"{short} had fewer"
    line = b"agent: guests %d, commands %d, refused %d\n" % (GUESTS, 20 * GUESTS, GUESTS)
    yield "the line of their agent", None if (agent.returncode, out, noted) == (0, line, b"") else f"{agent.returncode} {out!r} {noted!r}"


def commands_of(items, rates=MOST_RATES):
    """A first command for each of these items."""
    return b"".join(command(0, item, 1, 1, [1] * rates) for item in items)


def many_items(program, folder):
    """An agent keeps as many items as a document within the limits may have, whatever their numbers, and no more: for one more there is no memory, and it ends behind
    the answers to what came before. So neither one guest nor many take more of it."""
    whole, other, line = commands_of(range(MOST_ITEMS)), commands_of([2 ** 32 - 1]), "agent: guests %d, commands %d, refused %d\n"
    again, short = (0, line % (3, 2 * MOST_ITEMS + 1, 0), ""), (12, "", "out of memory\n")
    numbers = [n * 60_000 + 7 for n in range(MOST_ITEMS)]
    for name, guests, answered, end in (
        ("as many items as a document has, again, and one more time the last", [whole, whole, commands_of([MOST_ITEMS - 1])], [MOST_ITEMS, MOST_ITEMS, 1], again),
        ("as many of any number", [commands_of(numbers)], [MOST_ITEMS], (0, line % (1, MOST_ITEMS, 0), "")),
        ("one more", [whole + other + whole], [MOST_ITEMS], short),
        ("one more by a second guest", [whole, other], [MOST_ITEMS, 0], short),
        ("half by a first, and a million by a second", [commands_of(range(MOST_ITEMS // 2)), commands_of(range(1_000_000), 1)], [MOST_ITEMS // 2, MOST_ITEMS], short),
    ):
        heard, found, memory = talked(program, folder, guests)
        wrong = None if (heard, found) == (answered, end) else f"{heard} answers, and it ended with {found}"
        yield f"an agent that is asked for {name}", wrong or (None if memory <= 64 * MEBIBYTE else f"it took {memory // MEBIBYTE} MiB")


# Starts a program, and writes how much memory it took at most: of a child of this script the system would count what the script has.
MEASURED = """
import os, sys
child = os.posix_spawn(sys.argv[2], sys.argv[2:], os.environ)
_, status, used = os.wait4(child, 0)
with open(sys.argv[1], "w") as peak:
    peak.write(str(1024 * used.ru_maxrss))
sys.exit(os.waitstatus_to_exitcode(status))
"""


def talked(program, folder, guests):
    """How many answers each guest had of an agent, how that ended, and its greatest memory in bytes."""
    with held_port() as held, tempfile.TemporaryFile() as written, tempfile.TemporaryFile() as noted:
        peak = folder / "peak"
        environment = dict(os.environ, SWANROLL_LISTEN="127.0.0.1:%d" % held.getsockname()[1], SWANROLL_TIMEOUT=LONG_LIMIT)
        words = [sys.executable, "-c", MEASURED, str(peak), program, "agent", "--guests", str(len(guests))]
        agent = subprocess.Popen(words, env=environment, stdin=subprocess.DEVNULL, stdout=written, stderr=noted)
        heard = []
        for data in guests:
            with connected(held, agent) as guest:
                hearing = threading.Thread(target=lambda: heard.append(taken(guest)))
                hearing.start()
                with contextlib.suppress(OSError):  # it has ended, and reads no more
                    guest.sendall(data)
                    guest.shutdown(socket.SHUT_WR)
                hearing.join(PATIENCE)
        agent.wait(PATIENCE)
        for stream in (written, noted):
            stream.seek(0)
        return [count // 13 for count in heard], (agent.returncode, written.read().decode(), noted.read().decode()), int(peak.read_text())


def taken(guest):
    """How many bytes come before the other end closes, or resets."""
    count = 0
    with contextlib.suppress(OSError):
        while more := guest.recv(1 << 16):
            count += len(more)
    return count


def cases(program):
    with tempfile.TemporaryDirectory() as folder:
        for kind in (sized_files, odd_files, far_parts, odd_words, odd_streams, small_stacks, answers_before_a_bad_frame, many_items):
            yield from kind(program, pathlib.Path(folder))
        yield from by_first_that_fits(streams_that_do_not_block, program, MORE)


if __name__ == "__main__":
    report("hostile", "files, journals, streams, words and guests", cases(sys.argv[1]))
