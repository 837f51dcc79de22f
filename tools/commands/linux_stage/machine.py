"""What is used of the machine: names of errors, the calls and structures of a listener, mounts, and the way to make calls."""
from __future__ import annotations

import ctypes
import errno
import os
import struct
from typing import Optional

KINDS = dict(reg=0o100000, chr=0o020000, blk=0o060000, fifo=0o010000, sock=0o140000, dir=0o040000, bad=0o170000)
# other calls that tasks and workers make for themselves
MMAP, IOCTL, PREAD, PWRITE, DUP2, WAIT4, KILL, FCNTL, CAPSET, FUTEX, EXIT_GROUP = 9, 16, 17, 18, 33, 61, 62, 72, 126, 202, 231
FCHDIR, SECCOMP, MEMFD_CREATE, PIDFD_OPEN, PIDFD_GETFD = 81, 317, 319, 434, 438
# of a listener
RECEIVE, SEND, ID_VALID, ADD_DESCRIPTOR = 0xC0502100, 0xC0182101, 0x40082102, 0x40182103
NOTIFICATION, REPLY, ID, REQUEST = map(struct.Struct, ("<QIIiIQ6Q", "<QqiI", "<Q", "<QIIII"))
SET_NUMBER, AND_SEND, CONTINUE = 1, 2, 1
NEW_LISTENER, WAIT_KILLABLE = 8, 32
NEW_MOUNTS, NEW_NAMES, NEW_IPC, NEW_USERS, NEW_PIDS, NEW_NETWORK = 0x20000, 0x4000000, 0x8000000, 0x10000000, 0x20000000, 0x40000000
SIGUSR2 = 12
ALL_CHILDREN = 0x40000000
EXITING = 4  # of the flags of a process (PF_EXITING)

libc = ctypes.CDLL(None, use_errno=True)
libc.syscall.restype = ctypes.c_long


class Stop(Exception):
    """The comparison of a script ends here. The text says why, and is empty where a difference does."""


class CannotMap(Stop):
    """A range that the script maps can't be mapped on the machine."""

    def __init__(self, end, error):
        super().__init__(f"memory up to 0x{end:x} can't be mapped: {error_name(error)}")
        self.end, self.error = end, error


def error_name(number: int) -> str:
    return errno.errorcode.get(number, f"E{number}")


def error_number(name: str) -> int:
    """The number of an error as a report names it."""
    return getattr(errno, name, None) or int(name[1:])


def seen_by_caller(back: str) -> str:
    """How a caller sees a value or an error that a report names: values from -4095 to -1 are errors to it."""
    return answer(int(back) if back.lstrip("-").isdigit() else -error_number(back))


def answer(result: int) -> str:
    """What a call gave back, as a report says it."""
    return error_name(-result) if -4096 < result < 0 else str(result)


def checked(result: int, what: str) -> int:
    if result < 0:
        raise OSError(ctypes.get_errno(), f"{what}: {os.strerror(ctypes.get_errno())}")
    return result


def mount(source: Optional[str], target: str, kind: Optional[str], flags: int = 0, data: Optional[str] = None) -> None:
    texts = [text and text.encode() for text in (source, target, kind, data)]
    checked(libc.mount(*texts[:3], ctypes.c_ulong(flags), texts[3]), f"mount of {target}")


def unshare(flags: int) -> None:
    checked(libc.unshare(flags), "unshare")


def end_with_parent() -> None:
    """The calling process is killed when its parent ends, so that nothing is left."""
    checked(libc.prctl(1, 9, 0, 0, 0), "prctl")


def run_first(pid: int, priority: int = 60) -> None:
    """Lets a process run before all that has no priority, until it waits."""
    try:
        os.sched_setscheduler(pid, os.SCHED_FIFO, os.sched_param(priority))
    except ProcessLookupError:
        pass


def is_exiting(pid: int) -> bool:
    """Whether a process is at its end, also where it still waits there."""
    try:
        with open(f"/proc/{pid}/stat") as file:
            return bool(int(file.read().rpartition(")")[2].split()[6]) & EXITING)
    except OSError:
        return True


def child_with_number(number: int) -> int:
    """This process's number for the newest process that has a number in a namespace below."""
    for pid in sorted((int(name) for name in os.listdir("/proc") if name.isdigit()), reverse=True):
        try:
            with open(f"/proc/{pid}/status") as file:
                numbers = next(line for line in file if line.startswith("NSpid:")).split()[1:]
        except (OSError, StopIteration):
            continue
        if len(numbers) > 1 and int(numbers[-1]) == number:
            return pid
    raise Stop(f"there is no process with the number {number}")


def stand_still(pid: int) -> None:
    """A process without priority doesn't run while one with it does: it stands still, also inside the kernel."""
    try:
        os.sched_setscheduler(pid, os.SCHED_OTHER, os.sched_param(0))
    except ProcessLookupError:
        pass
