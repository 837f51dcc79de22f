"""Asks the kernel for the filters of a process that runs (ptrace(2), PTRACE_SECCOMP_GET_FILTER)."""
from __future__ import annotations

import ctypes
import errno
import os
from typing import Any, Optional

SEIZE, INTERRUPT, DETACH, GET_FILTER = 0x4206, 0x4207, 17, 0x420C
ALL_CHILDREN = 0x40000000
SIZE_OF_INSTRUCTION = 8

libc = ctypes.CDLL(None, use_errno=True)
libc.ptrace.argtypes = [ctypes.c_long, ctypes.c_long, ctypes.c_void_p, ctypes.c_void_p]
libc.ptrace.restype = ctypes.c_long


class Refused(Exception):
    """The kernel refuses. The text says what."""


def trace(request: int, pid: int, address: Optional[int] = None, data: Any = None) -> int:
    """A call of ptrace. Raises OSError."""
    found = libc.ptrace(request, pid, address, data)
    if found < 0:
        number = ctypes.get_errno()
        raise OSError(number, os.strerror(number))
    return found


def filter_at(pid, place):
    """The bytes of a filter, of which the oldest is the first, or None where there are no more."""
    try:
        count = trace(GET_FILTER, pid, place)
    except OSError as fault:
        if fault.errno == errno.ENOENT:
            return None
        raise
    raw = ctypes.create_string_buffer(count * SIZE_OF_INSTRUCTION)
    trace(GET_FILTER, pid, place, ctypes.cast(raw, ctypes.c_void_p))
    return raw.raw


def filters_of(pid):
    """The filters of a process, as bytes, the oldest first. It stands still meanwhile."""
    try:
        trace(SEIZE, pid)
    except OSError as fault:
        why = " (another tracer has it, as strace, or CAP_SYS_PTRACE is missing)" if fault.errno == errno.EPERM else ""
        raise Refused(f"process {pid} can't be traced: {fault.strerror}{why}") from fault
    try:
        trace(INTERRUPT, pid)
        os.waitpid(pid, ALL_CHILDREN)
        found = []
        while (raw := filter_at(pid, len(found))) is not None:
            found.append(raw)
        return found
    except OSError as fault:
        raise Refused(f"the kernel doesn't give the filters of process {pid}: {fault.strerror}{reason(fault.errno)}") from fault
    finally:
        libc.ptrace(DETACH, pid, None, None)


def reason(number):
    return {
        errno.EACCES: " (it wants CAP_SYS_ADMIN, and a caller that has no filter itself)",
        errno.EPERM: " (it wants CAP_SYS_ADMIN, and a caller that has no filter itself)",
        errno.EIO: " (it was built without CONFIG_CHECKPOINT_RESTORE)",
        errno.EINVAL: " (the process has no filter)",
    }.get(number, "")
