"""Texts that say the same in other bytes end the same, whole and with bytes changed. A text is read in two ways: where it stands if blanks alone stand before
its tokens and nothing is escaped, and else by another reader. Each is given as it is, with blanks around it, which both take, with a tab or a return at an end, and
with an escape in a key that nobody asks for, which only the second takes.

    python3 tests/plain.py PROGRAM [--count N]
"""

import argparse
import glob
import os
import random
import subprocess

from outcomes import report

TOP = os.path.join(os.path.dirname(os.path.abspath(__file__)), "..")

# Small values, each read by `plan` as a problem: what is refused, and where, is the same in each spelling.
VALUES = [
    b"{}", b"[]", b"[[]]", b"null", b"true", b"false", b"0", b"-0", b"1e3", b"1e400", b"-1.5E-2", b"01", b"1.", b".5", b"+1", b"tru", b"nulll", b'""', b'"a', b'a"', b"[1,]", b"[,1]",
    b"[1 2]", b'{"a"}', b'{"a":}', b'{"a":1,}', b'{,"a":1}', b'{"a":1 "b":2}', b'{"a":1,"a":2}', b"[1]]", b"[[1]", b"{]", b"[}", b"", b" ", b"[1]x", b'{"format":3}', b'{"format":2}',
    b'{"format":1,"switches":[],"links":[],"flows":[]}', b'{"switches":[],"links":[],"flows":[],"flows":7}', b'{"switches":[{"name":"a","table":1}],"links":[],"flows":[]}',
    b"[" * 127 + b"]" * 127, b"[" * 128 + b"]" * 128, b'{"a":' * 127 + b"1" + b"}" * 127, b'{"a":' * 128 + b"1" + b"}" * 128,
    '{"switches":[{"name":"é€😀","table":1}],"links":[],"flows":[]}'.encode(), b'["\xff"]', b'["\x01"]', b'["\n"]', b'["\x7f"]',
]


def spellings(text):
    """The text in other spellings: the first pair is read where it stands, if the text is JSON at all."""
    yield "a line feed behind", text + b"\n"
    yield "blanks around", b" \n " + text + b"  \n"
    yield "a tab before", b"\t" + text
    yield "a return behind", text + b"\r\n"
    if text.startswith(b"{") and text[1:2] == b'"':
        yield "an escape in a key", b'{"\\u0061b":null,' + text[1:]


def changed(text, chance):
    """The text with a byte or two put in, taken away or exchanged, none of them a backslash, which would be an escape in one spelling and in the others."""
    data = bytearray(text)
    for _ in range(chance.randint(1, 2)):
        place = chance.randrange(len(data) + 1)
        byte = chance.choice(b'{}[]:,"0123456789.eE-+ \nabtruefalsn\x01\x7f')
        way = chance.randrange(3)
        if way == 0 or place == len(data):
            data.insert(place, byte)
        elif way == 1:
            del data[place]
        else:
            data[place] = byte
    return bytes(data)


def ending(program, words, text):
    done = subprocess.run([program] + words, input=text, capture_output=True)
    return done.returncode, done.stdout, done.stderr


def outcomes(program, count):
    chance = random.Random(11)
    inputs = [("plan", f"value {number}", value) for number, value in enumerate(VALUES)]
    examples = [(path, open(path, "rb").read()) for path in sorted(glob.glob(os.path.join(TOP, "examples", "*.json")))]
    examples = [(os.path.basename(path), text) for path, text in examples if len(text) < 20000]
    inputs += [(word, name, text) for name, text in examples for word in ("plan", "check", "sim")]
    for number in range(count):
        name, text = chance.choice(examples)
        inputs.append((chance.choice(("plan", "check", "sim")), f"{name} changed ({number})", changed(text.strip(), chance)))
    for word, name, text in inputs:
        wanted = ending(program, [word], text)
        for spelling, other in spellings(text):
            found = ending(program, [word], other)
            yield f"{word}, {name}, {spelling}", None if found == wanted else f"ends with {found[0]} {found[2]!r} in place of {wanted[0]} {wanted[2]!r}"


def main():
    words = argparse.ArgumentParser(description=__doc__, formatter_class=argparse.RawDescriptionHelpFormatter)
    words.add_argument("program")
    words.add_argument("--count", type=int, default=300)
    given = words.parse_args()
    report("plain", "texts", outcomes(os.path.abspath(given.program), given.count))


if __name__ == "__main__":
    main()
