"""What `./build --install` puts in place, from a program that stands in for the built one: the page of the manual, the completion for bash and the units
of systemd are read without a warning, and have what the code has. What isn't on this machine is skipped, and said so.

    python3 tests/installing.py
"""

import os
import pathlib
import re
import shutil
import subprocess
import tempfile

from names import commands, options, options_of, same, statuses, variables
from outcomes import report
from waiting import PATIENCE

TOP = pathlib.Path(__file__).resolve().parent.parent
PROGRAM = "#!/bin/sh\necho a stand-in\nexit 4\n"
PUT = ["bin/swanroll", "bin/swanroll-why", "lib/systemd/system/swanroll-agent@.service", "lib/systemd/system/swanroll-rollout@.service",
       "share/bash-completion/completions/swanroll", "share/man/man1/swanroll.1"]
# What reads a page, and tells what is wrong with it on its outputs.
READERS = {"man": ["man", "--warnings", "-E", "UTF-8", "-l"], "groff": ["groff", "-man", "-Tutf8", "-ww", "-z"], "mandoc": ["mandoc", "-T", "lint", "-W", "warning"]}
COMPLETE = """source "$1"; shift
COMP_CWORD=$(($# - 1)) COMP_WORDS=("$@")
_swanroll
echo ${COMPREPLY[*]}
"""
skipped = []


class House:
    """A copy of what an installation is made of, with no toolchain."""

    def __init__(self, folder):
        self.folder = pathlib.Path(folder).resolve()
        shutil.copy(TOP / "build", self.folder / "build")
        for name in ("bin", "packaging", "docs"):
            shutil.copytree(TOP / name, self.folder / name)
        for name in ("crates.txt", "HANDLES"):
            (self.folder / name).write_text("")
        self.out = self.folder / "crates" / "swanroll" / "out"
        self.source = self.folder / "crates" / "swanroll" / "src" / "main.rt"
        self.source.parent.mkdir(parents=True)
        self.source.write_text("")
        self.prefix = self.folder / "usr"

    def make_program(self):
        """A program that stands in for the proved one, newer than all sources."""
        self.out.mkdir()
        (self.out / "swanroll").write_text(PROGRAM)
        (self.out / "swanroll").chmod(0o755)
        (self.out / "built").write_text("")

    def install(self, *words, **environment):
        return subprocess.run([str(self.folder / "build"), "--install", *words], capture_output=True, text=True, env=dict(os.environ, **environment), cwd=self.folder)

    def put(self, below=""):
        """The files under the prefix."""
        top = pathlib.Path(f"{below}{self.prefix}")
        return sorted(str(path.relative_to(top)) for path in top.rglob("*") if path.is_file())

    def text(self, name):
        return (self.prefix / name).read_text(encoding="utf-8")


def is_there(tool):
    if shutil.which(tool):
        return True
    skipped.append(tool)
    return False


def quiet(*words, of=""):
    """What a command tells, or with which status it ends; None where it ends well and is silent, or tells nothing with a word in it."""
    done = subprocess.run([str(word) for word in words], capture_output=True, text=True, env=dict(os.environ, MANWIDTH="80", LC_ALL="C.UTF-8"), timeout=PATIENCE)
    told = [line for line in done.stderr.splitlines() if of in line]
    return None if done.returncode == 0 and not told else f"status {done.returncode}: {done.stdout[-300:]}{done.stderr}"


def placing(house):
    yield "no prefix", same(house.install().returncode, 2)
    done = house.install(str(house.prefix))
    yield "no proved program", same((done.returncode, "no proved program" in done.stderr, house.put()), (3, True, []))
    house.make_program()
    os.utime(house.source, (4_000_000_000, 4_000_000_000))
    yield "a source that is newer", same(house.install(str(house.prefix)).returncode, 3)
    os.utime(house.source, (1_000_000_000, 1_000_000_000))
    yield "a prefix that a unit can't name", same((house.install("with a space").returncode, house.install("50%").returncode), (2, 2))
    done = house.install(str(house.prefix), DESTDIR=str(house.folder / "staged"))
    yield "a folder for a package", same((done.returncode, house.put(), house.put(house.folder / "staged")), (0, [], PUT))
    done = house.install("usr")
    yield "what is put in place", same((done.returncode, done.stderr, house.put()), (0, "", PUT))
    ended = subprocess.run([house.prefix / "bin" / "swanroll"], capture_output=True, text=True)
    yield "the program is that one", same((ended.stdout, ended.returncode), ("a stand-in\n", 4))
    yield "why it stands there", same(subprocess.run([house.prefix / "bin" / "swanroll-why", "--help"], capture_output=True).returncode, 0)


def pages(house):
    page = house.prefix / "share/man/man1/swanroll.1"
    for tool, words in READERS.items():
        if is_there(tool):
            yield f"the page, read by {tool}", quiet(*words, page)
    words = page.read_text(encoding="utf-8").replace("\\-", "-").replace("\\(aq", "'")
    yield "its name", None if ".SH NAME\nswanroll - " in words else "it has none"
    synopsis = words.partition(".SH SYNOPSIS\n")[2].partition(".SH")[0]
    for command, names in options_of().items():
        line = re.search(rf"^ *swanroll {command}\b.*$", synopsis, re.M)
        yield f"{command} in the synopsis", same(sorted(re.findall(r"--[a-z]+", line.group() if line else "none")), names)
        yield f"a section on {command}", None if f"\n.SH SWANROLL {command.upper()}\n" in words else "there is none"
    for name in options() + variables():
        yield f"{name} in the page", None if re.search(rf"^\.TP\n\\fB{name}\b", words, re.M) else "it has no paragraph"
    for status in statuses():
        yield f"status {status} in the page", None if f"\n.TP\n{status}\n" in words.partition(".SH EXIT STATUS")[2].partition(".SH")[0] else "it has no paragraph"


def completions(house):
    file = house.prefix / "share/bash-completion/completions/swanroll"
    if not is_there("bash"):
        return
    yield "the completion, read by bash", quiet("bash", "-n", file)
    yield "the completion, run", quiet("bash", "-euc", f'source "{file}"; complete -p swanroll')

    def completed(*words):
        done = subprocess.run(["bash", "-c", COMPLETE, "bash", str(file), "swanroll", *words], capture_output=True, text=True, timeout=PATIENCE)
        return sorted(done.stdout.split()) if (done.returncode, done.stderr) == (0, "") else done.stderr

    yield "the commands", same(completed(""), sorted(commands()))
    yield "the commands by their first letter", same(completed("r"), ["rehearse", "report", "retarget", "rollback", "run"])
    for command, names in options_of().items():
        yield f"the options of {command}", same(completed(command, ""), names)
        if names:
            yield f"what is left after one of {command}", same(completed(command, names[0], "7", "--"), names[1:])
    policies = re.findall(r'"([a-z]+)"', (TOP / "crates/named_policies/src/policies.rt").read_text(encoding="utf-8"))
    yield "the policies", same(completed("run", "--workers", "3", "--policy", ""), sorted(set(policies)))
    yield "from where", same(completed("rollback", "--from", ""), ["here", "level"])
    yield "no number is guessed", same(completed("run", "--workers", ""), [])
    yield "a file is the shell's", same((completed("run", "<", ""), completed("plan", "<", "p", ">", "")), ([], []))


def units(house):
    rollout, agent = (f"lib/systemd/system/swanroll-{name}@.service" for name in ("rollout", "agent"))
    if is_there("systemd-analyze"):
        for name in (rollout, agent):
            yield f"{name}, read by systemd", quiet("systemd-analyze", "verify", "--man=no", house.prefix / name, of="swanroll")
    for name, command in ((rollout, "run"), (agent, "agent")):
        yield f"what {name} starts", None if f"\nExecStart={house.prefix}/bin/swanroll {command} " in house.text(name) else "it isn't the program under the prefix"
        yield f"the environment of {name}", None if "\nEnvironmentFile=/etc/swanroll/%i.environment\n" in house.text(name) else "it is no file"

    def listed(key):
        line = re.search(rf"^{key}=(.*)$", house.text(rollout), re.M)
        return [int(word) for word in line[1].split() if word.isdigit()]

    again = re.search(r"and (?:behind|after) ([0-9, and]+); (?:behind|after) all others", re.sub(r"\s+", " ", (TOP / "docs/OPERATING.md").read_text(encoding="utf-8")))
    forced = listed("RestartForceExitStatus")
    yield "after which statuses a rollout is started again", same(forced, list(map(int, re.findall(r"\d+", again[1]))) if again else None)
    yield "after which it isn't", same(sorted(listed("RestartPreventExitStatus") + forced + [0]), statuses())
    yield "an agent is never started again", None if "\nRestart=no\n" in house.text(agent) else "it is"


def outcomes():
    with tempfile.TemporaryDirectory() as folder:
        house = House(folder)
        for part in (placing, pages, completions, units):
            yield from part(house)
    if skipped:
        print(f"installing: skipped what is read by {', '.join(skipped)}: not on this machine")


if __name__ == "__main__":
    report("installing", "parts", outcomes())
