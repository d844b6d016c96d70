"""The processes of a way, and an eye on them: where one has ended that nobody ended, or a thread has failed, or the way takes too long, the lab ends at once
and says why. All others would wait for it.
"""

import contextlib
import os
import signal
import subprocess
import sys
import threading
import time
import traceback

HERE = os.path.dirname(os.path.abspath(__file__))
LOOK = 0.05  # seconds between two looks


def fail(line):
    """Ends the lab: this is the first process of its namespaces, and all others go with it."""
    print(f"lab: {line}", file=sys.stderr, flush=True)
    os._exit(1)


def thread_failed(given):
    """What a thread had to do nobody does any more."""
    traceback.print_exception(given.exc_value)
    fail(f"{given.thread.name} failed: {given.exc_value!r}")


class Processes(threading.Thread):
    """Scripts of this folder by their names. `stands` says how far the way is, for the line of one that takes more than so many seconds."""

    def __init__(self, seconds, stands):
        super().__init__(name="the eye on all processes", daemon=True)
        self.seconds, self.stands, self.due = seconds, stands, time.monotonic() + seconds
        self.running, self.lock = {}, threading.Lock()
        threading.excepthook = thread_failed
        self.start()

    def run(self):
        while time.monotonic() < self.due:
            self.look()
            time.sleep(LOOK)
        fail(f"it isn't done after {self.seconds} s: {self.stands()}")

    def look(self):
        with self.lock:
            for name, process in self.running.items():
                if process.poll() is not None:
                    fail(f"the {name} has ended with status {process.returncode}, and nobody ended it: {self.stands()}")

    def begin(self, name, script, *words):
        """Starts a script in a group of its own, with the processes that it starts."""
        command = [sys.executable, "-B", os.path.join(HERE, script), *map(str, words)]
        with self.lock:
            self.running[name] = subprocess.Popen(command, stdin=subprocess.DEVNULL, stdout=sys.stderr, start_new_session=True)

    def end(self, name):
        """Asks a script to end, and waits until it has."""
        with self.lock:
            process = self.running.pop(name)
        process.terminate()
        if process.wait():
            fail(f"the {name} ended with status {process.returncode}")

    def kill(self, name):
        """Kills a script by kill -9, with what it had started: once this returns nothing of it is carried out any more, and no file is locked by it."""
        with self.lock:
            process = self.running.pop(name)
        os.killpg(process.pid, signal.SIGKILL)
        process.wait()
        with contextlib.suppress(ChildProcessError):  # those without a parent come to the first process
            while True:
                os.waitpid(-process.pid, 0)
