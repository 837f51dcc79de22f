"""Processes that are started, with little around it, and what the machine tells of a process: whether it has ended, who is behind a socket, and whether all its threads wait."""
import os
import select
import signal
import socket
import struct
import subprocess
import tempfile
import time
from functools import lru_cache, partial

PEER = struct.Struct("iII")
STATE, ASLEEP, ZOMBIE, SWITCHES = b"\nState:\t", b"S", b"Z", b"\nvoluntary_ctxt_switches:"
MOST_READ, MOST_ANSWERED = 16_384, 65_536


# what Python ignores, and a process that it starts shouldn't
RESTORED = [it for it in (signal.SIGPIPE, getattr(signal, "SIGXFSZ", None)) if it is not None]
PAUSE = 0.01


def anonymous_file(name):
    """The number of a file without a place, which is gone once it is closed everywhere."""
    if hasattr(os, "memfd_create"):
        return os.memfd_create(name)
    with tempfile.TemporaryFile() as file:
        return os.dup(file.fileno())


def spawned(command, environment, actions, **more):
    return os.posix_spawnp(command[0], command, environment, file_actions=actions, setsigdef=RESTORED, **more)


class Started:
    """A command that was started in a session of its own, without an input, and with one file for all that it writes: as subprocess.Popen has them, of which it takes a third of the time."""

    def __init__(self, command, environment, output):
        """Raises OSError where it can't be started."""
        actions = [(os.POSIX_SPAWN_OPEN, 0, os.devnull, os.O_RDONLY, 0), (os.POSIX_SPAWN_DUP2, output, 1), (os.POSIX_SPAWN_DUP2, output, 2)]
        self.pid, self.returncode = spawned(command, environment, actions, setsid=True), None
        # how much memory it had at most, in kibibytes, once it has ended
        self.used = None

    def note(self, options):
        pid, status, usage = os.wait4(self.pid, options) if self.returncode is None else (0, 0, None)
        if pid:
            self.used = usage.ru_maxrss
            self.returncode = -os.WTERMSIG(status) if os.WIFSIGNALED(status) else os.WEXITSTATUS(status)
        return self.returncode

    def poll(self):
        """How it ended, or None."""
        return self.note(os.WNOHANG)

    def wait(self, seconds=None):
        """Waits for its end. Raises subprocess.TimeoutExpired where that doesn't come in time."""
        if seconds is None:
            return self.note(0)
        until = time.monotonic() + seconds
        while self.poll() is None:
            if time.monotonic() >= until:
                raise subprocess.TimeoutExpired(str(self.pid), seconds)
            time.sleep(PAUSE)
        return self.returncode


@lru_cache(maxsize=None)
def own_environment():
    """This process's environment, in the form that takes the least time to be handed on."""
    return {**os.environb}


class Answering:
    """A command that was started with all of its input at once."""

    def __init__(self, words, given):
        """Raises OSError where it can't be started."""
        source, (self.reader, writer) = anonymous_file("input"), os.pipe()
        try:
            os.pwrite(source, given, 0)
            self.pid = spawned(words, own_environment(), [(os.POSIX_SPAWN_DUP2, source, 0), (os.POSIX_SPAWN_DUP2, writer, 1)])
        finally:
            os.close(source)
            os.close(writer)

    def output(self):
        """All that it writes, once it has ended."""
        parts = iter(partial(os.read, self.reader, MOST_ANSWERED), b"")
        try:
            return b"".join(parts)
        finally:
            os.close(self.reader)
            os.waitpid(self.pid, 0)


def has_ended_within(process, seconds):
    """Waits for the end of a process; whether it came in time."""
    try:
        watched = os.pidfd_open(process.pid)
    except (AttributeError, OSError):
        # (an older Python, or an older kernel)
        try:
            process.wait(seconds)
        except subprocess.TimeoutExpired:
            return False
        return True
    try:
        if not select.select([watched], [], [], seconds)[0]:
            return False
    finally:
        os.close(watched)
    process.wait()
    return True


def peer_of(connected):
    """The process behind a connection."""
    return PEER.unpack(connected.getsockopt(socket.SOL_SOCKET, socket.SO_PEERCRED, PEER.size))[0]


def read(path):
    """What one of the machine's files says. Raises OSError."""
    file = os.open(path, os.O_RDONLY)
    try:
        return os.read(file, MOST_READ)
    finally:
        os.close(file)


def status_of(pid, thread):
    """The state of a thread, and how often it has been taken from its processor, as they stand in its status. Raises OSError where there is no such thread."""
    text = read(f"/proc/{pid}/task/{thread}/status")
    at = text.index(STATE) + len(STATE)
    return text[at:at + 1], text[text.rindex(SWITCHES):]


def has_gone(pid):
    """Whether a process has ended, although its parent may not know it yet."""
    try:
        return status_of(pid, pid)[0] == ZOMBIE
    except OSError:
        return True


def children_of(pid, thread):
    """The processes that a thread has started, and that haven't ended; none where the machine doesn't tell."""
    try:
        return [child for child in map(int, read(f"/proc/{pid}/task/{thread}/children").split()) if not has_gone(child)]
    except FileNotFoundError:
        return []


def sleepers(pid):
    """The statuses of all threads of a process, and of those that it has started; None where one of them runs, or could, or there is none. Raises OSError where one has gone meanwhile."""
    found = {}
    for thread in os.listdir(f"/proc/{pid}/task"):
        found[pid, thread] = status_of(pid, thread)
        if found[pid, thread][0] != ASLEEP:
            return None
        for child in children_of(pid, thread):
            others = sleepers(child)
            if others is None:
                return None
            found.update(others)
    return found


def is_at_rest(pid):
    """Whether all threads of a process, and of those that it has started, wait, so that none is left that could wake another one. They all wait when they are looked at for the second time, and have not
    run since the first."""
    try:
        before = sleepers(pid)
        return bool(before) and all(status_of(*thread) == status for thread, status in before.items())
    except OSError:
        return False
