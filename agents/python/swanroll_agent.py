"""A switch's agent for `swanroll run`: frames, the agent rule, a memory on a disk, and the serving of controllers. A device adds one function.

    from swanroll_agent import serve

    def apply(item, rates, scale):
        ...                                # returns once the item carries these rates, in units of 1/scale

    serve("10.0.3.1:7000", apply, "/var/lib/switch/memory", settle=0.25)

An operation is taken into effect by `apply`, then into the memory with a sync, and then answered. Where `apply` raises it is neither remembered nor
answered, and the controller sends it again. At its start the agent calls `apply` for all that it remembers, entries before the splits that use them; so
an `apply` that finds its item as it should be has nothing to do. `settle` is how many seconds pass from an effect to its answer, or a function that tells
them for an item: until then packets of the old split may be on their way. docs/AGENTS.md says what an answer promises. Standard library alone.
"""

import collections
import contextlib
import fcntl
import os
import socket
import struct
import sys
import threading
import time
import zlib

COMMAND, ANSWER, FENCE = 0x4D, 0x4E, 0x46
HEAD, FENCE_BYTES, MOST_RATES = 18, 5, 16
PIECE, MOST_BYTES = 1 << 16, 100_000_000  # of one read, and of one controller
MOST_GUESTS, DRAIN_SECONDS = 64, 10

Command = collections.namedtuple("Command", "term migration item number scale rates")  # the term is None in a plain frame
Held = collections.namedtuple("Held", "migration number scale rates")
NOTHING = Held(0, 0, 1, ())


class BadFrame(ValueError):
    """A byte that no command has in its place."""


class BadMemory(Exception):
    """A memory that failed, or can't be taken for what was held."""


def next_command(data, at):
    """The command that begins at a place of the data, and where it ends; None and the place itself while it isn't whole."""
    begin = at + FENCE_BYTES if data[at:at + 1] == bytes([FENCE]) else at
    if len(data) > begin and data[begin] != COMMAND:
        raise BadFrame(f"byte {data[begin]} begins no command")
    if len(data) < begin + HEAD:
        return None, at
    _, migration, item, number, scale, count = struct.unpack_from(">BIIIIB", data, begin)
    if not 1 <= count <= MOST_RATES:
        raise BadFrame(f"a command has {count} rates")
    end = begin + HEAD + 8 * count
    if len(data) < end:
        return None, at
    term = struct.unpack_from(">I", data, at + 1)[0] if begin > at else None
    return Command(term, migration, item, number, scale, struct.unpack_from(f">{count}Q", data, begin + HEAD)), end


def commands_of(guest):
    """The commands that a controller sends, up to its end or a bad frame, which is raised. None stands where the next one may be waited for."""
    kept, read = b"", 0
    while read < MOST_BYTES and (piece := guest.recv(min(PIECE, MOST_BYTES - read))):
        kept, read, at = kept + piece, read + len(piece), 0
        while (found := next_command(kept, at))[0]:
            command, at = found
            yield command
        kept = kept[at:]
        yield None


def is_next(held, command):
    """The agent rule: the next operation of the migration held, and any of a later migration, is carried out, and nothing else."""
    return (command.migration, command.number) == (held.migration, held.number + 1) or (held.migration < command.migration and command.number > 0)


def line_of(kind, *numbers):
    words = " ".join([kind, *map(str, numbers)]).encode()
    return b"%08x %s\n" % (zlib.crc32(words), words)


class Memory:
    """What is held of each item, and the highest term seen, in a file: a line with its checksum for each change, synced before the change is answered.
    It is opened once at a time, and made anew with a line for each item when it is."""

    def __init__(self, path):
        self.path, self.floor, self.held, self.lock = path, 0, {}, open(path + ".lock", "w")
        try:
            fcntl.flock(self.lock, fcntl.LOCK_EX | fcntl.LOCK_NB)
        except BlockingIOError:
            raise BadMemory(f"{path}: another agent has it") from None
        if os.path.exists(path):
            self.read()
        self.write_anew()

    def read(self):
        """Takes the lines in order. The last may be torn, which was never answered; any other that is damaged is told by its number."""
        with open(self.path, "rb") as file:
            *lines, _ = file.read().split(b"\n")
        for number, line in enumerate(lines, 1):
            check, _, words = line.partition(b" ")
            if check == b"%08x" % zlib.crc32(words):
                kind, *numbers = words.decode().split(" ")
                self.take(kind, *map(int, numbers))
            elif number < len(lines):
                raise BadMemory(f"{self.path}: line {number} is damaged")

    def take(self, kind, *numbers):
        if kind == "floor":
            self.floor, = numbers
        else:
            item, migration, number, scale, *rates = numbers
            self.held[item] = Held(migration, number, scale, tuple(rates))

    def write_anew(self):
        with open(self.path + ".new", "wb") as file:
            file.write(line_of("floor", self.floor))
            file.writelines(line_of("item", item, *held[:3], *held.rates) for item, held in sorted(self.held.items()))
            file.flush()
            os.fsync(file.fileno())
        os.replace(self.path + ".new", self.path)
        folder = os.open(os.path.dirname(os.path.abspath(self.path)), os.O_RDONLY)
        os.fsync(folder)
        os.close(folder)
        self.file = open(self.path, "ab", buffering=0)

    def keep(self, kind, *numbers):
        """A change, on the disk when this returns. After a write or a sync that failed nothing is kept any more."""
        try:
            self.file.write(line_of(kind, *numbers))
            os.fsync(self.file.fileno())
        except (OSError, ValueError) as fault:  # the disk's, or a file that was closed after one
            self.file.close()
            raise BadMemory(f"{self.path}: {fault}") from fault
        self.take(kind, *numbers)

    def close(self):
        self.file.close()
        self.lock.close()


class Agent:
    """A device behind the agent rule. Controllers take turns at it."""

    def __init__(self, apply, memory, settle=0.0):
        self.apply, self.memory = apply, memory
        self.settle = settle if callable(settle) else lambda item: settle
        self.turn, self.told_from = threading.Lock(), {}
        for item, held in sorted(memory.held.items(), reverse=True):  # entries have the higher numbers
            self.set(item, held.rates, held.scale)

    def set(self, item, rates, scale):
        self.apply(item, list(rates), scale)
        self.told_from[item] = time.monotonic() + self.settle(item)

    def answer(self, command):
        """Carries out what is to be, and gives the moment from which the answer may be told, and its bytes. Repeats wait for that moment, too. A command
        of a term below the highest that was seen changes nothing."""
        item, term, memory = command.item, command.term or 0, self.memory
        with self.turn:
            if term > memory.floor:
                memory.keep("floor", term)
            if term == memory.floor and is_next(memory.held.get(item, NOTHING), command):
                self.set(item, command.rates, command.scale)
                memory.keep("item", item, command.migration, command.number, command.scale, *command.rates)
            held = memory.held.get(item, NOTHING)
            fence = b"" if command.term is None else struct.pack(">BI", FENCE, memory.floor)
            return self.told_from.get(item, 0.0), fence + struct.pack(">BIII", ANSWER, held.migration, item, held.number)


class Server:
    """An agent behind an address. Each controller is served in a thread of its own, so that one that hangs keeps no other out; where too many are
    there, the one that was silent longest goes."""

    def __init__(self, address, apply, memory, settle=0.0):
        self.memory = Memory(memory)
        host, _, port = address.rpartition(":")
        self.listener = socket.create_server((host.strip("[]"), int(port)), family=socket.AF_INET6 if ":" in host else socket.AF_INET)
        self.agent = Agent(apply, self.memory, settle)
        self.heard, self.is_closed, self.fault = {}, False, None

    def run(self):
        """Serves until `close`, or until the memory fails, which is raised."""
        while not self.is_closed:
            with contextlib.suppress(OSError):  # a guest that went before it was met, or the end
                guest, _ = self.listener.accept()
                self.make_room()
                guest.setsockopt(socket.IPPROTO_TCP, socket.TCP_NODELAY, 1)
                guest.setsockopt(socket.SOL_SOCKET, socket.SO_KEEPALIVE, 1)
                self.heard[guest] = time.monotonic()
                threading.Thread(target=self.serve, args=(guest,), daemon=True).start()
        if self.fault:
            raise self.fault

    def make_room(self):
        guests = dict(self.heard)
        if len(guests) >= MOST_GUESTS:
            with contextlib.suppress(OSError):
                min(guests, key=guests.get).shutdown(socket.SHUT_RDWR)

    def serve(self, guest):
        waiting = collections.deque()
        with guest, contextlib.suppress(OSError):  # a controller that is gone
            try:
                for command in commands_of(guest):
                    self.heard[guest] = time.monotonic()
                    if command:
                        self.carry_out(command, waiting)
                    self.tell(guest, waiting, all_of_it=not command)
            except BadFrame as fault:
                print(f"agent: {fault}", file=sys.stderr, flush=True)
            self.tell(guest, waiting, all_of_it=True)
            self.drain(guest)
        del self.heard[guest]

    def carry_out(self, command, waiting):
        try:
            waiting.append(self.agent.answer(command))
        except BadMemory as fault:
            self.fault = fault
            self.close()
        except Exception as fault:  # the device's own
            print(f"agent: item {command.item} operation {command.number} isn't carried out: {fault!r}", file=sys.stderr, flush=True)

    @staticmethod
    def tell(guest, waiting, all_of_it):
        """Sends the answers in their order: those that may be told by now, or all of them, each when it may."""
        while waiting and (all_of_it or waiting[0][0] <= time.monotonic()):
            moment, told = waiting.popleft()
            time.sleep(max(0.0, moment - time.monotonic()))
            guest.sendall(told)

    @staticmethod
    def drain(guest):
        """Half closes, and reads until the other end has closed: bytes left unread make a reset, which takes answers on their way with it."""
        guest.shutdown(socket.SHUT_WR)
        guest.settimeout(DRAIN_SECONDS)
        read = 0
        while read < MOST_BYTES and (piece := guest.recv(PIECE)):
            read += len(piece)

    def close(self):
        """Ends `run`, and every connection."""
        self.is_closed = True
        for end in [self.listener, *list(self.heard)]:
            with contextlib.suppress(OSError):
                end.shutdown(socket.SHUT_RDWR)
        self.listener.close()
        self.memory.close()


def serve(address, apply, memory, settle=0.0):
    """Serves controllers at an address until the process is ended. It raises BadMemory where the memory fails."""
    Server(address, apply, memory, settle).run()
