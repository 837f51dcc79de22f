"""Ends all that a program has started, and removes its folder, in whichever way the program ends.

The program runs in a process of its own. Above it stand two that only wait: the one that the user has started, and a watcher. Each of them takes over the processes that are orphaned below it (prctl(2),
PR_SET_CHILD_SUBREAPER). The watcher sees the end of the first one by a pipe, whose other end that one holds. So where any one of the three is ended by a signal, another one ends the rest.
"""
from __future__ import annotations

import ctypes
import os
import select
import shutil
import signal
import sys
import tempfile
import time
from pathlib import Path
from typing import Any, Callable, Dict, List

from tools.commands.command_line import ending

PR_SET_PDEATHSIG, PR_SET_CHILD_SUBREAPER = 1, 36
# sigaction(2), si_code: a signal that a process has sent
SI_USER = 0
PAUSE = 0.01


def set_own(option: int, value: int) -> None:
    """Sets an attribute of this process, where the machine has it."""
    prctl = getattr(ctypes.CDLL(None, use_errno=True), "prctl", None)
    if prctl is not None:
        prctl(option, value, 0, 0, 0)


def parents() -> Dict[int, int]:
    """The parent of each process."""
    found = {}
    for name in os.listdir("/proc"):
        if name.isdecimal():
            try:
                found[int(name)] = int(Path(f"/proc/{name}/stat").read_text(errors="replace").rpartition(")")[2].split()[1])
            except OSError:
                # (it has gone meanwhile)
                pass
    return found


def descendants() -> List[int]:
    """The processes below this one."""
    by_parent: Dict[int, List[int]] = {}
    found, left = [], [os.getpid()]
    for pid, parent in parents().items():
        by_parent.setdefault(parent, []).append(pid)
    while left:
        below = by_parent.get(left.pop(), [])
        found += below
        left += below
    return found


def end_descendants() -> None:
    """Ends all below this process, and waits for them; those that they start meanwhile, too."""
    while True:
        for pid in descendants():
            try:
                os.kill(pid, signal.SIGKILL)
            except ProcessLookupError:
                pass
        try:
            while os.waitpid(-1, os.WNOHANG)[0]:
                pass
        except ChildProcessError:
            return
        time.sleep(PAUSE)


def end_as(status: int) -> None:
    """Ends this process as another one has ended."""
    if os.WIFSIGNALED(status):
        signal.signal(os.WTERMSIG(status), signal.SIG_DFL)
        os.kill(os.getpid(), os.WTERMSIG(status))
    os._exit(os.WEXITSTATUS(status))


def run(main: Callable[..., Any], room: str) -> None:
    """What the program does, in its own process: its status."""
    signal.signal(signal.SIGINT, signal.default_int_handler)
    set_own(PR_SET_PDEATHSIG, signal.SIGKILL)
    status = 1
    try:
        ending.run(lambda: main(room))
    except SystemExit as ended:
        status = ended.code if isinstance(ended.code, int) else int(ended.code is not None)
    except BaseException:
        sys.excepthook(*sys.exc_info())
    os._exit(status)


def flush() -> None:
    for stream in (sys.stdout, sys.stderr):
        try:
            stream.flush()
        except OSError:
            pass


def watch(main: Callable[..., Any], room: str, alive: int) -> None:
    """The watcher: waits for the end of the program, or of the process above, and ends the rest."""
    set_own(PR_SET_CHILD_SUBREAPER, 1)
    signal.signal(signal.SIGINT, signal.SIG_IGN)
    ended, told = os.pipe()
    os.set_blocking(told, False)
    signal.set_wakeup_fd(told)
    signal.signal(signal.SIGCHLD, lambda *_: None)
    program = os.fork()
    if program == 0:
        signal.set_wakeup_fd(-1)
        signal.signal(signal.SIGCHLD, signal.SIG_DFL)
        for fd in (alive, ended, told):
            os.close(fd)
        run(main, room)
    status = 0
    while True:
        ready = select.select([alive, ended], [], [])[0]
        if ended in ready:
            os.read(ended, 1)
        pid, found = os.waitpid(program, os.WNOHANG)
        if pid:
            status = found
        if pid or alive in ready:
            break
    end_descendants()
    shutil.rmtree(room, ignore_errors=True)
    end_as(status)


def wait_for(watcher: int) -> int:
    """Waits for the watcher: its status. An interrupt of a terminal reaches all; one that another process sends is passed on."""
    signals = {signal.SIGCHLD, signal.SIGINT}
    while True:
        pid, status = os.waitpid(watcher, os.WNOHANG)
        if pid:
            return status
        told = signal.sigwaitinfo(signals)
        if told.si_signo == signal.SIGINT and told.si_code == SI_USER:
            interrupt_child_of(watcher)


def interrupt_child_of(watcher: int) -> None:
    """Interrupts the program, which is the watcher's only child as long as it runs."""
    for pid, parent in parents().items():
        if parent == watcher:
            os.kill(pid, signal.SIGINT)


def watched(main: Callable[..., Any], prefix: str) -> None:
    """Runs a program, whose folder it is given, and ends as it does. What it has started and made is gone by then. Doesn't return."""
    flush()
    room = tempfile.mkdtemp(prefix=prefix)
    set_own(PR_SET_CHILD_SUBREAPER, 1)
    signal.pthread_sigmask(signal.SIG_BLOCK, {signal.SIGCHLD, signal.SIGINT})
    alive, held = os.pipe()
    watcher = os.fork()
    if watcher == 0:
        os.close(held)
        signal.pthread_sigmask(signal.SIG_UNBLOCK, {signal.SIGCHLD, signal.SIGINT})
        watch(main, room, alive)
    os.close(alive)
    status = wait_for(watcher)
    # (where the watcher was ended, its processes are this one's)
    end_descendants()
    shutil.rmtree(room, ignore_errors=True)
    signal.pthread_sigmask(signal.SIG_UNBLOCK, {signal.SIGCHLD, signal.SIGINT})
    end_as(status)
