"""How the listener is passed to a broker that is sent it over a Unix socket, as crun and runc send it (OCI runtime specification, Container process state)."""
from __future__ import annotations

import array
import json
import os
import socket
import stat
import time
from typing import NamedTuple

# what lib/shim.c knows the listener by
NAME = "seccomp notify"
# how long is waited before it is tried once more, in seconds
PAUSE = 0.001
VERSION, CONTAINER, BUNDLE = "1.0.2", "container", "/"


def is_served(path: str) -> bool:
    """Whether somebody waits at a Unix socket."""
    with socket.socket(socket.AF_UNIX) as connected:
        try:
            connected.connect(path)
        except OSError:
            return False
    return True


class Listening(NamedTuple):
    """Where brokers wait for the listener, the metadata that they are sent with it, and the PID of the container's first task."""

    path: str
    metadata: str
    pid: int

    def state(self):
        """The state that is sent."""
        return {
            "ociVersion": VERSION, "fds": ["seccompFd"], "pid": self.pid, "metadata": self.metadata,
            "state": {"ociVersion": VERSION, "id": CONTAINER, "status": "creating", "pid": self.pid, "bundle": BUNDLE},
        }


class Passing:
    """The listener that is passed to one broker. Where the path stands in the broker's words, there is one of its own in its place."""

    def __init__(self, listening: Listening, path, command):
        self.listening = listening
        self.command = [word.replace(listening.path, path) for word in command]
        self.path = path if self.command != list(command) else listening.path
        self.was_there = False

    def begin(self):
        """Before the broker is started: looks whether somebody has made its socket already."""
        self.was_there = os.path.lexists(self.path)

    def try_to_pass(self):
        """Passes the listener; whether somebody waited for it."""
        with socket.socket(socket.AF_UNIX) as connected:
            try:
                connected.connect(self.path)
            except (FileNotFoundError, ConnectionRefusedError):
                time.sleep(PAUSE)
                return False
            self.send(connected)
        return True

    def send(self, connected):
        listener = os.memfd_create(NAME)
        try:
            connected.sendmsg([json.dumps(self.listening.state()).encode()], [(socket.SOL_SOCKET, socket.SCM_RIGHTS, array.array("i", [listener]))])
        finally:
            os.close(listener)

    def close(self):
        """Takes away the socket that the broker has made."""
        if not self.was_there and os.path.lexists(self.path) and stat.S_ISSOCK(os.lstat(self.path).st_mode):
            os.unlink(self.path)
