"""A sink that takes only so many bytes: what was written is a front of the text, and the program ends with a write fault.

    python3 tests/fronts.py PROGRAM

Each command that makes a text is run over a file whose size is limited, at each number of bytes of a short text, and of a long one, of several
buffers, at and around every 64 KiB; and over a file without a limit, and a device that takes nothing.
"""

import pathlib
import resource
import signal
import subprocess
import sys
import tempfile

from outcomes import report
from waiting import PATIENCE

TOP = pathlib.Path(__file__).resolve().parent.parent
BUFFER = 65_536
FAULT = b"write fault\n"


def ran(program, words, given, limit=None, sink=None):
    """The status, what stands in the file, and the notes."""

    def set_up():
        signal.signal(signal.SIGXFSZ, signal.SIG_IGN)
        if limit is not None:
            resource.setrlimit(resource.RLIMIT_FSIZE, (limit, limit))

    with tempfile.TemporaryFile() as source, tempfile.TemporaryFile() as out:
        source.write(given)
        source.seek(0)
        done = subprocess.run([program, *words], stdin=source, stdout=sink or out, stderr=subprocess.PIPE, preexec_fn=set_up, timeout=PATIENCE, check=False)
        out.seek(0)
        return done.returncode, out.read(), done.stderr


def wrong(found, wanted):
    return None if found == wanted else f"{found[0]}, {len(found[1])} bytes, {found[2][:60]} and not {wanted[0]}, {len(wanted[1])} bytes, {wanted[2][:60]}"


def cut_at(program, name, words, given, limits):
    status, text, notes = ran(program, words, given)
    yield f"{name}, all of it", None if (status, notes) == (0, b"") and text.endswith(b"\n") else f"{status} {notes}"
    for limit in limits(len(text)):
        whole = limit >= len(text)
        wanted = (0, text, b"") if whole else (7, text[:limit], FAULT)
        yield f"{name}, {limit} of {len(text)} bytes", wrong(ran(program, words, given, limit), wanted)
    with open("/dev/full", "wb") as full:
        yield f"{name} to a device that is full", wrong(ran(program, words, given, sink=full), (7, b"", FAULT))


def every(length):
    """Each number of bytes up to those of the text and one more, or of a text that isn't short every few of them."""
    return [*range(0, length, 1 + length // 150), length, length + 1]


def around_buffers(length):
    ends = {*range(0, length, BUFFER), length}
    return sorted({end + more for end in ends for more in (-129, -1, 0, 1, 130) if 0 <= end + more <= length + 1})


def cases(program):
    problem = (TOP / "examples/one-link.json").read_bytes()
    document = ran(program, ("plan",), problem)[1]
    for words, given in ((("plan",), problem), (("back",), document), (("check",), document), (("loads",), document), (("explain",), document), (("least",), problem), (("rehearse", "--seed", "7"), document)):
        yield from cut_at(program, words[0], words, given, every)
    large = subprocess.run([sys.executable, "-B", TOP / "bench/generate.py", "--share", "32"], stdout=subprocess.PIPE, check=True).stdout
    document = ran(program, ("plan",), large)[1]
    for words, given in ((("plan",), large), (("back",), document), (("loads",), document), (("explain",), document)):
        yield from cut_at(program, f"{words[0]} of a long text", words, given, around_buffers)


if __name__ == "__main__":
    report("fronts", "sinks", cases(sys.argv[1]))
