"""Times how soon `run` of the largest problem inside the limits offers its first command, beside `check` of the same document.

    python3 bench/first_offers.py [--runs N] [--check] [PROGRAM]

The document has 64 stages. Its 1,024 switches are addresses of 127.0.0.0/8 at one port of this process, which takes no connection: the kernel keeps them all
waiting. `run` is ended by strace at the call by which its first bytes would go out. Each is the least of several runs that take turns, in seconds of the
processor, user and system, of which strace has a part; the seconds from the start of `run` to that call stand beside it. --check fails where the first offer
takes more than twice the time of `check`.
"""

import argparse
import json
import os
import resource
import shutil
import socket
import subprocess
import sys
import tempfile
import time

import generate
from measure import PROGRAM

STAGES, AIM = 64, 2


def document():
    problem = generate.problem(1)
    return problem["switches"], json.dumps({"problem": problem, "plan": generate.plan(problem, STAGES)})


def used():
    """The processor's seconds of all programs that have ended."""
    children = resource.getrusage(resource.RUSAGE_CHILDREN)
    return children.ru_utime + children.ru_stime


def first_offer(program, path, folder, names):
    """The processor's seconds of `run` until its first command goes out, and the seconds until then."""
    fleet, journal = os.path.join(folder, "fleet"), os.path.join(folder, "journal")
    if os.path.exists(journal):
        os.remove(journal)
    ending = ["strace", "--seccomp-bpf", "-f", "-qq", "-o", os.devnull, "-e", "trace=sendto", "-e", "inject=sendto:signal=SIGKILL:when=1"]
    with socket.create_server(("0.0.0.0", 0), backlog=2 * len(names)) as server, open(path, "rb") as text:
        port = server.getsockname()[1]
        with open(fleet, "w", encoding="utf-8") as lines:
            lines.writelines(f"{name} 127.1.{number >> 8}.{number & 255}:{port}\n" for number, name in enumerate(names))
        environment = dict(os.environ, SWANROLL_FLEET=fleet, SWANROLL_JOURNAL=journal)
        before, began = used(), time.monotonic()
        ran = subprocess.run([*ending, program, "run"], stdin=text, stdout=subprocess.DEVNULL, stderr=subprocess.PIPE, env=environment, timeout=60, check=False)
        took = time.monotonic() - began
    if ran.returncode >= 0:
        sys.exit(f"first offers: nothing went out: {ran.stderr[:200]}")
    return used() - before, took


def checked(program, path):
    """The processor's seconds of `check`."""
    before = used()
    with open(path, "rb") as text:
        subprocess.run([program, "check"], stdin=text, stdout=subprocess.DEVNULL, check=True)
    return used() - before


def main():
    words = argparse.ArgumentParser()
    words.add_argument("program", nargs="?", default=PROGRAM)
    words.add_argument("--runs", type=int, default=7)
    words.add_argument("--check", action="store_true")
    asked = words.parse_args()
    if not shutil.which("strace"):
        sys.exit("first offers: this needs strace, which isn't here")
    with tempfile.TemporaryDirectory() as folder:
        switches, text = document()
        path = os.path.join(folder, "document")
        with open(path, "w", encoding="utf-8") as file:
            file.write(text)
        names = [switch["name"] for switch in switches]
        taken = [(checked(asked.program, path), *first_offer(asked.program, path, folder, names)) for _ in range(asked.runs)]
    check, offer, took = (min(times) for times in zip(*taken))
    print(f"first offers: check takes {check:.3f} s, run's first offer comes after {offer:.3f} s, {offer / check:.1f} times (aim {AIM}), and {took:.3f} s on the clock")
    if asked.check and offer > AIM * check:
        sys.exit(1)


main()
