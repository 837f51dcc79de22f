"""What the brokers of this folder have in common: a right one, step by step. Each of the others does one of these steps in a way of its own.

They serve the policy beside this file: it makes the harmless devices that a container asks for by mknod(2), but none below /kept, and puts a descriptor of its own into whoever opens /log. All
other calls are left to the kernel.
"""
import errno
import os
import stat
import sys
from enum import Enum
from itertools import islice
from pathlib import Path

sys.path.insert(0, str(Path(__file__).resolve().parents[2] / "examples/python"))
from seccomp_step import CONTINUE, Kernel  # noqa: E402

SYS_MKNOD, SYS_OPENAT = 133, 257
HARMLESS = {(0, 0), (1, 3), (1, 5), (1, 7), (1, 8), (1, 9), (5, 0), (5, 1)}
LOG = 5
PATH_MAX, PIECE, SEATS = 4096, 256, 16


class CallerGone(Exception):
    """The call waits no more: nothing may be done for it, and there is nobody to answer."""


class Decision(Enum):
    GRANT = "grant"
    INJECT = "inject"
    PASS = "pass"
    DENY = "deny"


def path_address(notif):
    """Where the path of a call is, of the calls that have one here."""
    return {SYS_MKNOD: notif.args[0], SYS_OPENAT: notif.args[1]}.get(notif.nr)


def is_harmless(mode, device):
    device %= 2**32
    return stat.S_ISCHR(mode) and (os.major(device), os.minor(device)) in HARMLESS


def decide(notif, path):
    """What the policy says of a call with this path."""
    if notif.nr == SYS_OPENAT:
        return Decision.INJECT if path == b"/log" else Decision.PASS
    if path.startswith(b"/kept/") and b".." not in path.split(b"/"):
        return Decision.DENY
    return Decision.GRANT if is_harmless(notif.args[1], notif.args[2]) else Decision.PASS


class Broker:
    """A broker that serves one notification after another, in the order of seccomp_unotify(2)."""

    def __init__(self, kernel, number=0):
        self.kernel, self.seat = kernel, kernel.seat(number)

    def run(self):
        """Serves until the listener is closed."""
        for notif in self.seat.notifications():
            self.serve(notif)

    def serve(self, notif):
        try:
            self.answer(notif)
        except (CallerGone, FileNotFoundError):
            # (an answer that comes too late finds no call either)
            pass
        self.seat.let_go()

    def answer(self, notif):
        if path_address(notif) is None:
            self.seat.send(notif.id, flags=CONTINUE)
            return
        try:
            path = self.copy(notif)
        except OSError as error:
            self.seat.send(notif.id, error=error.errno)
            return
        self.carry_out(notif, path, decide(notif, path))

    def carry_out(self, notif, path, decision):
        if decision is Decision.GRANT:
            self.make(notif, path)
        elif decision is Decision.INJECT:
            self.inject(notif)
        elif decision is Decision.DENY:
            self.seat.send(notif.id, error=errno.EPERM)
        else:
            self.seat.send(notif.id, flags=CONTINUE)

    # ---- the copy of the path

    def copy(self, notif):
        """The path, read between two checks. Raises OSError, the fault of the copy, or CallerGone."""
        self.open(notif)
        self.check(notif)
        try:
            return self.read(notif)
        finally:
            self.check(notif)

    def open(self, notif):
        """Opens the memory and the directory of whoever has the caller's PID by now."""
        try:
            self.seat.open_mem(notif.pid)
            self.seat.open_dir(notif.pid)
        except ProcessLookupError:
            raise CallerGone from None

    def check(self, notif):
        if not self.seat.id_valid(notif.id):
            raise CallerGone

    def read(self, notif):
        """The path, in pieces that end where a page may end."""
        address, path = path_address(notif), b""
        while len(path) < PATH_MAX:
            path += self.seat.pread(PIECE - (address + len(path)) % PIECE, address + len(path))
            if b"\0" in path:
                return path[:path.index(b"\0")]
        raise OSError(errno.ENAMETOOLONG, os.strerror(errno.ENAMETOOLONG))

    # ---- what is done, and its answer

    def make(self, notif, path):
        error = self.effect(notif, path)
        self.seat.send(notif.id, error=error)

    def effect(self, notif, path):
        """Makes the node; 0, or why it can't be made."""
        try:
            self.seat.mknodat(path, notif.args[1] % 2**16, notif.args[2])
        except OSError as error:
            return error.errno
        return 0

    def inject(self, notif):
        """Puts the descriptor into the caller, and answers the call with its number in the same step."""
        try:
            self.seat.addfd(notif.id, LOG)
            self.seat.addfd_result()
        except FileNotFoundError:
            raise CallerGone from None
        except OSError:
            self.seat.send(notif.id, error=errno.EMFILE)


def received_now(seat):
    """The call that a poll has told of, or None where that has gone."""
    try:
        return seat.recv()
    except FileNotFoundError:
        return None


def receive(kernel, most=SEATS):
    """Waits for a call, and receives all that are there by then, so many at most, each with a broker whose seat has it in hand. None once the listener is closed."""
    found = [(Broker(kernel), notif) for notif in islice(kernel.seat(0).notifications(), 1)]
    while 0 < len(found) < most and kernel.is_notified():
        notif = received_now(kernel.seat(len(found)))
        if notif is None:
            break
        found.append((Broker(kernel, len(found)), notif))
    return found


def main(broker):
    """Lets a broker serve the kernel that the environment names, or the program on a policy and a script."""
    with Kernel(*sys.argv[1:3]) as kernel:
        broker(kernel).run()
