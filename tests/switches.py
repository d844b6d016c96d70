"""Switches that the tests play themselves, each behind an address on loopback.

What a controller sends are commands: 4D, the migration, the item, the operation's number and the scale in four bytes each, one byte with the
count of rates, and each rate in eight. What comes back are answers: 4E, the migration, the item and the number that is held. A switch keeps the
agent rule, whoever is connected: it carries out the next number of the migration held, or any operation of a later migration, and nothing else.
A fate, called with the switch, the connection and the command, does what becomes of the command.
"""

import collections
import contextlib
import os
import socket
import struct
import sys
import threading
import time

from waiting import PATIENCE

sys.path.insert(0, os.path.join(os.path.dirname(os.path.abspath(__file__)), "..", "bench"))
from agent_streams import HEAD, KIND, MOST_RATES, is_next  # noqa: E402

Command = collections.namedtuple("Command", "migration item number scale rates")
ANSWER, ANSWER_BYTES = 0x4E, 13


def answer(migration, item, number):
    return struct.pack(">BIII", ANSWER, migration, item, number)


def next_command(data):
    """The first whole command and how long it is; None and 0 where there is none yet."""
    if data and data[0] != KIND:
        raise ValueError(f"the byte {data[0]} begins no command")
    if len(data) < HEAD:
        return None, 0
    _, migration, item, number, scale, count = struct.unpack_from(">BIIIIB", data)
    if not 1 <= count <= MOST_RATES:
        raise ValueError(f"a command of {count} rates")
    end = HEAD + 8 * count
    if len(data) < end:
        return None, 0
    return Command(migration, item, number, scale, struct.unpack_from(f">{count}Q", data, HEAD)), end


def plain(switch, guest, command):
    """The command comes, and is answered at once."""
    switch.tell(guest, switch.carry_out(command))


def silent(switch, guest, command):
    """The command is lost."""


class Switch:
    """A switch by its name. `seen`, where it is given, is called with each command that comes, before its fate; `changed` with each that was
    carried out for the first time. No two calls of one lock's switches run at once."""

    def __init__(self, name, fate=plain, lock=None, seen=None, changed=None):
        self.name, self.fate, self.lock = name, fate, lock or threading.RLock()
        self.seen, self.changed = seen, changed
        self.held, self.content, self.commands, self.guests, self.wrong = {}, {}, [], [], []
        self.servants, self.last, self.settled, self.speaks = [], None, threading.Event(), threading.Lock()
        self.server = socket.create_server(("127.0.0.1", 0))
        self.address = "127.0.0.1:%d" % self.server.getsockname()[1]
        self.listener = threading.Thread(target=self.listen, daemon=True)
        self.listener.start()

    def listen(self):
        while True:
            try:
                guest, place = self.server.accept()
            except OSError:
                return
            if place == self.last:
                guest.close()
                self.settled.set()
                continue
            guest.setsockopt(socket.IPPROTO_TCP, socket.TCP_NODELAY, 1)
            with self.lock:
                self.guests.append(guest)
                self.come()
            self.servants.append(threading.Thread(target=self.serve, args=(guest,), daemon=True))
            self.servants[-1].start()

    def come(self):
        """A controller has connected."""

    def ready(self):
        """Waits until a controller may come."""

    def settle(self):
        """Waits until all that has come is dealt with, where no controller is connected any more: a connection of its own comes last."""
        self.settled.clear()
        with socket.socket() as last:
            last.bind(("127.0.0.1", 0))
            self.last = last.getsockname()
            last.connect(self.server.getsockname())
            self.settled.wait(PATIENCE)
            self.last = None
        for servant in self.servants:
            servant.join(PATIENCE)
        self.servants.clear()

    def serve(self, guest):
        data = b""
        try:
            while piece := guest.recv(1 << 16):
                data += piece
                while data and (found := next_command(data))[1]:
                    data = data[found[1]:]
                    self.take(guest, found[0])
        except OSError:  # the controller is gone
            pass
        except ValueError as fault:
            self.wrong.append(f"{self.name}: {fault}")
        finally:
            with self.speaks:  # else what is being said there may go to whoever has the number next
                guest.close()

    def take(self, guest, command):
        with self.lock:
            self.commands.append(command)
            if self.seen:
                self.seen(self, command)
        self.fate(self, guest, command)

    def carry_out(self, command):
        """The agent rule; the bytes of the answer."""
        with self.lock:
            pair = self.held.get(command.item, (0, 0))
            if is_next(pair, (command.migration, command.number)):
                pair = self.held[command.item] = (command.migration, command.number)
                self.content[command.item] = (command.rates, command.scale)
                if self.changed:
                    self.changed(self, command)
            return answer(pair[0], command.item, pair[1])

    def tell(self, guest, data, pause=None, ends=False):
        """Bytes to a controller, whole, or one by one with pauses; and maybe the connection's end. Nothing else comes between."""
        with self.speaks:
            for piece in [data] if pause is None else [bytes([byte]) for byte in data]:
                guest.sendall(piece)
                time.sleep(pause or 0)
            if ends:
                guest.shutdown(socket.SHUT_RDWR)

    def say(self, data):
        """Bytes to whoever is connected."""
        try:
            self.tell(self.guests[-1], data)
        except OSError:  # nobody is
            pass

    def close(self):
        """Nothing listens or serves behind it: a number that the system gives anew would else be accepted at, or read, by the wrong switch."""
        self.server.shutdown(socket.SHUT_RDWR)
        self.listener.join(PATIENCE)
        for guest in self.guests:
            with self.speaks, contextlib.suppress(OSError):  # one that is gone
                guest.shutdown(socket.SHUT_RDWR)
        for servant in self.servants:
            servant.join(PATIENCE)
        self.server.close()


def write_fleet(path, switches):
    """The file by which a controller finds the switches."""
    with open(path, "w", encoding="utf-8", newline="\n") as file:
        file.writelines(f"{switch.name} {switch.address}\n" for switch in switches)
