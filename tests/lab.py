"""A short rollout in the lab of examples/linux, by the program and with kills: it comes to the new split in the kernel's routes, no packet lacked an entry,
each one that was lost is explained, and nothing stays on the machine. Loads and times are for bench/: a busy machine can't disturb what is asked here.

    python3 tests/lab.py PROGRAM
"""

import contextlib
import json
import os
import shutil
import subprocess
import sys
import tempfile
import time

from outcomes import report
from rolling import same
from waiting import until

TOP = os.path.join(os.path.dirname(os.path.abspath(__file__)), "..")
LAB = os.path.join(TOP, "examples", "linux", "lab")
DOCUMENT = os.path.join(TOP, "examples", "networks", "two-thirds.out")
TOOLS, SEED = ("unshare", "setpriv", "ip", "tc", "sysctl"), "904811"
PATIENCE = 900  # seconds, more than the lab itself has for a way: it then says what stands still
AT_HOME, FIRST, FEW = "/run/lab", "way.py", 100
SETTLE = "1"  # seconds, many times what full queues hold: a busy machine holds packets up, too
# All that the lab wants of the kernel, in namespaces of its own.
WANTED = """set -e
mount -t tmpfs tmpfs /run
ip link set lo up
ip netns add s0
ip link add to1 netns s0 type veth peer name to0
tc -n s0 qdisc add dev to1 root tbf rate 1mbit burst 5000 latency 50ms
ip -n s0 link set lo up
ip link set to0 up
ip -n s0 link set to1 up
ip -6 -n s0 nexthop add id 1 via fe80::1 dev to1 encap seg6 mode encap.red segs fd00::1
ip -n s0 nexthop add id 2 group 1,3
ip -6 -n s0 route add fd00::2 encap seg6local action End.DT6 table local dev to1
"""


def refusal():
    """Why the lab can't be on this machine, or None."""
    missing = [tool for tool in TOOLS if not shutil.which(tool)]
    if missing:
        return f"this machine has no {missing[0]}"
    alone = ["unshare", "--net", "--mount", "--pid", "--fork", "--kill-child", "--mount-proc"] + ([] if os.geteuid() == 0 else ["--map-root-user"])
    done = subprocess.run([*alone, "sh", "-c", WANTED], capture_output=True, text=True)
    return (done.stderr.strip().split("\n")[-1] or f"status {done.returncode}") if done.returncode else None


@contextlib.contextmanager
def scratch(program):
    """A folder for what a lab writes, with the controller in it: so each process of it has the folder's name in its command line."""
    with tempfile.TemporaryDirectory() as folder:
        os.symlink(program, os.path.join(folder, "controller"))
        yield folder


def words(folder, *more):
    return [sys.executable, "-B", LAB, DOCUMENT, "run", "--controller", os.path.join(folder, "controller"), "--seed", SEED, "--settle", SETTLE,
            "--picture", os.path.join(folder, "picture.svg"), "--json", os.path.join(folder, "figures"), *more]


def gone(folder, *more):
    """Whether the lab went all the way: None, or what it said. Where it is still there in the end that says so, and which processes were."""
    path = os.path.join(folder, "notes")
    with open(path, "w+") as notes:
        started = subprocess.Popen(words(folder, *more), stdout=subprocess.DEVNULL, stderr=notes)
        try:
            status = f"status {started.wait(PATIENCE)}"
        except subprocess.TimeoutExpired:
            status = f"not done after {PATIENCE} s, with {processes(folder, AT_HOME)}"
            started.kill()
            started.wait()
        notes.seek(0)
        return None if status == "status 0" else f"{status}: {notes.read()}"


def rolled_out(program):
    for split in ("sender", "kernel"):
        with scratch(program) as folder:
            wrong = gone(folder, "--split", split, "--kill", "2", "--kill-agent", "3")
            yield f"{split}: to its end", wrong
            if wrong is not None:
                continue
            with open(os.path.join(folder, "figures")) as file:
                row = json.loads(file.read())
            wanted = {"status": 0, "missed": [], "no_entry": 0, "unexplained": 0, "kills": 2}
            yield f"{split}: the new split, and each packet", same({name: row[name] for name in wanted}, wanted)
            yield f"{split}: packets were sent", None if row["sent"] > FEW else f"{row['sent']}"


def processes(*marks):
    """The command lines of the processes that have one of these marks in theirs."""
    found = []
    for number in filter(str.isdigit, os.listdir("/proc")):
        try:
            with open(f"/proc/{number}/cmdline", "rb") as file:
                line = file.read().replace(b"\0", b" ").decode(errors="replace")
        except OSError:  # it has ended
            continue
        if any(mark in line for mark in marks):
            found.append(line)
    return found


def is_under_way(folder):
    """Whether the lab's first process in namespaces of its own is there, and no more one of those that start it, which can't all be told to go with the lab yet."""
    return any(line.startswith(sys.executable) and FIRST in line for line in processes(folder))


def is_gone(folder):
    """Whether no process of a lab is there twice: one that was being started as the lab was killed shows up, and ends, a moment later."""
    seen = processes(folder)
    time.sleep(0.1)
    return not seen and not processes(folder)


def killed(program):
    """Nothing outlives a lab that is killed in the middle."""
    with scratch(program) as folder:
        started = subprocess.Popen(words(folder), stdout=subprocess.DEVNULL, stderr=subprocess.DEVNULL)
        until(lambda: is_under_way(folder) or started.poll() is not None, look=0.02)
        yield "a lab in the middle", None if is_under_way(folder) and started.poll() is None else f"it isn't there, its status is {started.poll()}"
        started.kill()
        started.wait()
        yield "a lab that is killed leaves no process", None if until(lambda: is_gone(folder)) else f"{processes(folder)} are there still"


def outcomes(program):
    for kind in (rolled_out, killed):
        yield from kind(program)


if __name__ == "__main__":
    wrong = refusal()
    if wrong is not None:
        print(f"test: skipped the lab: {wrong}")
    else:
        report("lab", "cases", outcomes(os.path.abspath(sys.argv[1])))
