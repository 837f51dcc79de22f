"""Acts that are done in a process of their own, and in namespaces of their own."""
from __future__ import annotations

import json
import os
import select
import time
import traceback
from typing import Any, Callable, Optional

from tools.commands.linux_stage import machine

NAMESPACES = machine.NEW_MOUNTS | machine.NEW_PIDS | machine.NEW_NAMES | machine.NEW_IPC | machine.NEW_NETWORK


def in_process(act: Callable[[], Any], seconds: Optional[float] = None) -> Any:
    """What an act gives that is done in a process of its own, or None where it fails. All that it starts ends with it.

    Raises TimeoutError where it takes longer.
    """
    reading, writing = os.pipe()
    pid = os.fork()
    if pid == 0:
        os.close(reading)
        do_and_tell(act, writing)
    os.close(writing)
    try:
        told = read_all(reading, seconds)
    except BaseException:  # it takes too long, or this process is to end
        os.kill(pid, 9)
        raise
    finally:
        os.close(reading)
        os.waitpid(pid, 0)
    return json.loads(told) if told else None


def do_and_tell(act: Callable[[], Any], writing: int) -> None:
    try:
        machine.end_with_parent()
        with os.fdopen(writing, "w") as out:
            json.dump(act(), out)
    except Exception:
        traceback.print_exc()
    finally:
        os._exit(0)


def read_all(descriptor: int, seconds: Optional[float]) -> bytes:
    """What is written to a pipe until it is closed."""
    found, end = b"", None if seconds is None else time.monotonic() + seconds
    while True:
        ready, _, _ = select.select([descriptor], [], [], None if end is None else max(0, end - time.monotonic()))
        if not ready:
            raise TimeoutError
        piece = os.read(descriptor, 65536)
        if not piece:
            return found
        found += piece


def in_namespaces(act: Callable[[], Any], seconds: Optional[float] = None, namespaces: int = NAMESPACES) -> Any:
    """What an act gives that is done by the first process of namespaces of its own."""
    def as_first() -> Any:
        machine.unshare(namespaces)
        return in_process(act)

    return in_process(as_first, seconds)
