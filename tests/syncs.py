"""Sees the system calls on a file by a program that is started, on Linux and without a tracer: a filter hands them to the test, and the program
waits in the call until the test has looked, and has said whether it goes on or fails.
"""

import ctypes
import fcntl
import os
import platform
import select
import socket
import struct
import threading

from waiting import PATIENCE

LIBC = ctypes.CDLL(None, use_errno=True)
NO_NEW_PRIVILEGES, FILTER, LISTENER = 38, 1, 8
RECEIVE, SEND, GOES_ON = 0xC0502100, 0xC0182101, 1
ALLOWED, HANDED_OVER = 0x7FFF0000, 0x7FC00000
# What the kernel calls the machine, and its numbers of the call seccomp and of those on files.
MACHINES = {
    "x86_64": (0xC000003E, 317, {"fsync": 74, "fdatasync": 75, "read": 0, "pread": 17, "write": 1, "pwrite": 18, "lseek": 8, "fstat": 5, "ftruncate": 77}),
    "aarch64": (0xC00000B7, 277, {"fsync": 82, "fdatasync": 83, "read": 63, "pread": 67, "write": 64, "pwrite": 68, "lseek": 62, "fstat": 80, "ftruncate": 46}),
}
MACHINE, SECCOMP, NUMBERS = MACHINES.get(platform.machine(), (0, 0, {}))
SYNCS = ("fsync", "fdatasync")


def instruction(code, yes, no, value):
    return struct.pack("HBBI", code, yes, no, value)


LOAD, IS, RETURN = 0x20, 0x15, 0x06


def steps(numbers):
    """What the kernel does at each call of the program: the calls of these numbers are handed over, all others are allowed."""
    tests = [instruction(IS, len(numbers) - at, 0, number) for at, number in enumerate(numbers)]
    return [
        instruction(LOAD, 0, 0, 4), instruction(IS, 0, len(numbers) + 1, MACHINE), instruction(LOAD, 0, 0, 0), *tests,
        instruction(RETURN, 0, 0, ALLOWED), instruction(RETURN, 0, 0, HANDED_OVER),
    ]


class Program(ctypes.Structure):
    _fields_ = [("length", ctypes.c_ushort), ("code", ctypes.c_void_p)]


class Calls:
    """`seen` is called with the name of each of these calls on the file at a path, before it is done, and with the process; it answers None, and then the
    call is done, or the number of the error that it fails with. `in_child` is for the program's process before it is started; what `attach` says
    after that is whether calls are seen at all."""

    def __init__(self, path, names, seen):
        self.path, self.seen = path, seen
        self.names = {NUMBERS[name]: name for name in names if name in NUMBERS}
        code = steps(list(self.names))
        self.code = ctypes.create_string_buffer(b"".join(code))
        self.program = Program(len(code), ctypes.addressof(self.code))
        self.here, self.there = socket.socketpair()
        self.listener, self.thread = None, None

    def in_child(self):
        LIBC.prctl(NO_NEW_PRIVILEGES, 1, 0, 0, 0)
        listener = LIBC.syscall(SECCOMP, FILTER, LISTENER, ctypes.byref(self.program)) if MACHINE else -1
        if listener < 0:
            self.there.send(b"-")
        else:
            socket.send_fds(self.there, [b"+"], [listener])

    def attach(self):
        _, listeners, _, _ = socket.recv_fds(self.here, 1, 1)
        if listeners:
            self.listener = listeners[0]
            self.thread = threading.Thread(target=self.listen, daemon=True)
            self.thread.start()
        return bool(listeners)

    def listen(self):
        waiting = select.poll()
        waiting.register(self.listener, select.POLLIN)
        while not any(what & (select.POLLHUP | select.POLLERR) for _, what in waiting.poll()):
            call = bytearray(80)
            try:
                fcntl.ioctl(self.listener, RECEIVE, call)
                number, process, _, which, _, _, file = struct.unpack_from("QIIiIQQ", call)
                error = self.seen(self.names[which], process) if self.is_file(process, file) else None
                answer = (number, 0, 0, GOES_ON) if error is None else (number, 0, -error, 0)
                fcntl.ioctl(self.listener, SEND, bytearray(struct.pack("QqiI", *answer)))
            except OSError:  # the program was killed in the call
                pass

    def is_file(self, process, file):
        try:
            return os.path.samestat(os.stat(f"/proc/{process}/fd/{file}"), os.stat(self.path))
        except OSError:
            return False

    def close(self):
        if self.thread:
            self.thread.join(PATIENCE)
            os.close(self.listener)
        self.here.close()
        self.there.close()
