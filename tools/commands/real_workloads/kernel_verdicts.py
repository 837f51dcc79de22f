"""What the running kernel says of calls under filters, without doing one of them.

A child installs a guard and then the filters, and makes the calls. The guard keeps every call from being done that the filters allow: it answers
TRACE, which nobody traces (ENOSYS), or in a second child an error that no filter has. Notified calls are answered with another such error. So what a
call returns tells what the filters say. The child can make no call of its own by then, and leaves what it finds in shared memory.
"""
from __future__ import annotations

import ctypes
import fcntl
import mmap
import os
import select
import signal
import struct
import time
from typing import List

from tools.commands.real_workloads import bpf

SECCOMP, PIDFD_OPEN, PIDFD_GETFD = 317, 434, 438
NO_NEW_PRIVILEGES, SET_FILTER, NEW_LISTENER = 38, 1, 8
RECEIVE, SEND = 0xC0502100, 0xC0182101
MAGIC, GUARDED, NOTIFIED = 0x5EC, 2748, 2749
ENOSYS = 38
SLOT = struct.Struct("<q")
SECONDS = 60.0

libc = ctypes.CDLL(None, use_errno=True)
libc.syscall.restype = ctypes.c_long
libc.syscall.argtypes = [ctypes.c_long] * 7


class Program(ctypes.Structure):
    _fields_ = [("count", ctypes.c_ushort), ("instructions", ctypes.c_void_p)]


def guard(answer):
    """The filter that answers so to each call but the installation of a further one."""
    words = (("ld", 0, 0, 0), ("jeq", 0, 3, SECCOMP), ("ld", 0, 0, 56), ("jeq", 0, 1, MAGIC), ("ret", 0, 0, bpf.ALLOW), ("ret", 0, 0, answer))
    return [bpf.Instruction(bpf.WORDS[word], *rest) for word, *rest in words]


def install(instructions: List[bpf.Instruction], flags: int) -> int:
    raw = ctypes.create_string_buffer(bpf.to_bytes(instructions))
    program = Program(len(instructions), ctypes.addressof(raw))
    found = libc.syscall(SECCOMP, SET_FILTER, flags, ctypes.addressof(program), 0, 0, MAGIC)
    if found < 0:
        raise OSError(ctypes.get_errno(), "a filter can't be installed")
    return found


def signed(value):
    value %= 2**64
    return value - 2**64 if value >= 2**63 else value


class Shared:
    """What the child tells: how many calls it has made, the listener's number, whether the filters stand, and the error of each call."""

    def __init__(self, count):
        self.memory = mmap.mmap(-1, SLOT.size * (count + FIRST))

    def __getitem__(self, at):
        return SLOT.unpack_from(self.memory, at * SLOT.size)[0]

    def __setitem__(self, at, value):
        SLOT.pack_into(self.memory, at * SLOT.size, value)


MADE, LISTENER, STANDS, FIRST = 0, 1, 2, 3


def child(calls, filters, answer, shared, first):
    """Makes the calls from the first on, and never returns."""
    libc.prctl(NO_NEW_PRIVILEGES, 1, 0, 0, 0)
    prepared = [[number, *map(signed, arguments)] for number, arguments in calls]
    install(guard(answer), 0)
    for it in filters:
        found = install(it.instructions, NEW_LISTENER if it.listener else 0)
        if it.listener:
            shared[LISTENER] = found
    shared[STANDS] = 1
    for at in range(first, len(prepared)):
        made = libc.syscall(*prepared[at])
        shared[FIRST + at] = ctypes.get_errno() if made == -1 else 0
        shared[MADE] = at + 1
    while True:
        pass


def answer_notification(listener):
    """Receives one, and fails its call with an error of ours. There is none where the child has ended."""
    raw = bytearray(80)
    try:
        fcntl.ioctl(listener, RECEIVE, raw)
        fcntl.ioctl(listener, SEND, struct.pack("<QqiI", struct.unpack_from("<Q", raw)[0], 0, -NOTIFIED, 0))
    except FileNotFoundError:
        pass


def listener_of(pid, shared):
    """A descriptor of our own for the child's listener, or None where it has none, or has ended."""
    if not shared[LISTENER]:
        return None
    process = libc.syscall(PIDFD_OPEN, pid, 0, 0, 0, 0, 0)
    found = libc.syscall(PIDFD_GETFD, process, shared[LISTENER], 0, 0, 0, 0)
    os.close(process)
    return found if found >= 0 else None


def run(calls, filters, answer, first, shared):
    """One child: makes calls until all are made or one ends it."""
    shared[LISTENER] = shared[STANDS] = 0
    pid = os.fork()
    if pid == 0:
        try:
            child(calls, filters, answer, shared, first)
        finally:
            os.kill(os.getpid(), signal.SIGKILL)
    listener, until = None, time.monotonic() + SECONDS
    try:
        while shared[MADE] < len(calls) and os.waitpid(pid, os.WNOHANG)[0] == 0:
            listener = listener if listener is not None else listener_of(pid, shared)
            if listener is None:
                time.sleep(0.001)
            elif select.select([listener], [], [], 0.01)[0]:
                answer_notification(listener)
            if time.monotonic() > until:
                raise OSError(0, "the calls don't come to an end")
    finally:
        if listener is not None:
            os.close(listener)
        try:
            os.kill(pid, signal.SIGKILL)
            os.waitpid(pid, 0)
        except (ProcessLookupError, ChildProcessError):
            pass
    if not shared[STANDS]:
        raise OSError(0, "the kernel takes no filter here")


KILLED = -1


def errors(calls, filters, answer):
    """The error of each call, or KILLED where the call ended its process."""
    shared = Shared(len(calls))
    while shared[MADE] < len(calls):
        before = shared[MADE]
        run(calls, filters, answer, before, shared)
        if shared[MADE] < len(calls):
            shared[FIRST + shared[MADE]] = KILLED
            shared[MADE] += 1
    return [shared[FIRST + at] for at in range(len(calls))]


def verdicts(calls, filters):
    """What the kernel says of each call: `run` where it would be done, `notify`, `kill`, or `errno=N`."""
    traced, failed = (errors(calls, filters, answer) for answer in (bpf.TRACE, bpf.ERRNO | GUARDED))
    found = []
    for by_trace, by_error in zip(traced, failed):
        if KILLED in (by_trace, by_error):
            found.append("kill")
        elif by_trace == NOTIFIED:
            found.append("notify")
        elif by_trace != ENOSYS:
            found.append(f"errno={by_trace}")
        else:
            found.append("run" if by_error == GUARDED else f"errno={by_error}")
    return found
