"""A small broker: it makes the harmless devices that a container asks for by mknod(2), and leaves every other call to the kernel.

The order is that of seccomp_unotify(2): open the caller's memory, check, read, check again, act, answer.
"""
import errno
import os
import stat
import sys

from seccomp_step import CONTINUE, Kernel

SYS_MKNOD = 133
# null, zero, full, random, urandom and tty: none of them reaches the host's disks or memory
HARMLESS = {(1, 3), (1, 5), (1, 7), (1, 8), (1, 9), (5, 0)}
PATH_MAX = 4096
# Where a piece of the caller's memory ends: so no piece goes beyond a page. The report's audit follows a copy that is read in these pieces.
PIECE = 256


class CallerGone(Exception):
    """The call waits no more: nothing may be done for it, and there is nobody to answer."""


def copy_path(seat, address):
    """A path out of the caller's memory."""
    path = b""
    while len(path) < PATH_MAX:
        path += seat.pread(PIECE - (address + len(path)) % PIECE, address + len(path))
        if b"\0" in path:
            return path[:path.index(b"\0")]
    raise OSError(errno.ENAMETOOLONG, os.strerror(errno.ENAMETOOLONG))


def check(seat, notif):
    if not seat.id_valid(notif.id):
        raise CallerGone


def make_device(seat, notif, mode, device):
    """Opens the caller's memory by its PID, copies the path, makes sure that all of this was the caller's, and makes the node."""
    try:
        seat.open_mem(notif.pid)
        seat.open_dir(notif.pid)
    except ProcessLookupError:
        raise CallerGone from None
    check(seat, notif)
    try:
        path = copy_path(seat, notif.args[0])
    finally:
        # what was read counts only if the call still waits: by now the memory may be another task's
        check(seat, notif)
    seat.mknodat(path, mode, device)


def answer(seat, notif):
    mode, device = notif.args[1] % 2**16, notif.args[2]
    if notif.nr != SYS_MKNOD or not stat.S_ISCHR(mode) or (os.major(device), os.minor(device)) not in HARMLESS:
        seat.send(notif.id, flags=CONTINUE)
        return
    try:
        make_device(seat, notif, mode, device)
    except OSError as error:
        seat.send(notif.id, error=error.errno)
    else:
        seat.send(notif.id)


def serve(seat, notif):
    """Serves a notification up to its answer, and lets go of it. Raises CallerGone."""
    try:
        answer(seat, notif)
    except FileNotFoundError:
        # (of the answer alone: it came too late)
        raise CallerGone from None
    finally:
        seat.let_go()


def main():
    """Serves the kernel of SECCOMP_BROKER_KERNEL, or the program on a policy and a script, until the listener is closed."""
    with Kernel(*sys.argv[1:3]) as kernel:
        seat = kernel.seat(0)
        for notif in seat.notifications():
            try:
                serve(seat, notif)
            except CallerGone:
                continue


if __name__ == "__main__":
    main()
