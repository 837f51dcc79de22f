"""An agent as it would run behind crun or runc: it waits at a Unix socket for the listener of a container (OCI runtime specification, Container process state), and makes the harmless devices that
are asked for by mknod(2), but none below /kept. All other calls are left to the kernel. It makes its calls of Linux, with Python's own library alone.

    listener_path.py [--no-second-check] [--watch] [--pool] SOCKET

With --watch it asks by epoll(7) whether there is a call before it receives one. With --pool two threads serve the calls, which it makes before it waits at the socket.
"""
import ctypes
import errno
import fcntl
import json
import os
import queue
import selectors
import socket
import stat
import sys
import threading

SYS_MKNOD = 133
RECV, SEND, ID_VALID = 0xC0502100, 0xC0182101, 0x40082102
CONTINUE = 1
HARMLESS = {(0, 0), (1, 3), (1, 5), (1, 7), (1, 8), (1, 9), (5, 0), (5, 1)}
PATH_MAX, MOST_STATE = 4096, 65_536


class Data(ctypes.Structure):
    _fields_ = [("nr", ctypes.c_int), ("arch", ctypes.c_uint32), ("ip", ctypes.c_uint64), ("args", ctypes.c_uint64 * 6)]


class Notif(ctypes.Structure):
    _fields_ = [("id", ctypes.c_uint64), ("pid", ctypes.c_uint32), ("flags", ctypes.c_uint32), ("data", Data)]


class Response(ctypes.Structure):
    _fields_ = [("id", ctypes.c_uint64), ("value", ctypes.c_int64), ("error", ctypes.c_int32), ("flags", ctypes.c_uint32)]


class CallerGone(Exception):
    """The call waits no more."""


def received_listener(path):
    """Waits for a container: its state, and the listener."""
    with socket.socket(socket.AF_UNIX) as waiting:
        waiting.bind(path)
        waiting.listen(1)
        with waiting.accept()[0] as connected:
            content, descriptors, _, _ = socket.recv_fds(connected, MOST_STATE, 1)
    state = json.loads(content)
    return state, descriptors[state["fds"].index("seccompFd")]


class Agent:
    def __init__(self, listener, checks_again):
        self.listener, self.checks_again = listener, checks_again

    def receive(self):
        notif = Notif()
        fcntl.ioctl(self.listener, RECV, notif)
        return notif

    def check(self, notif):
        try:
            fcntl.ioctl(self.listener, ID_VALID, ctypes.c_uint64(notif.id))
        except FileNotFoundError:
            raise CallerGone from None

    def answer(self, notif, error=0, flags=0):
        try:
            fcntl.ioctl(self.listener, SEND, Response(notif.id, 0, -error, flags))
        except FileNotFoundError:
            raise CallerGone from None

    def serve(self, notif):
        if notif.data.nr != SYS_MKNOD:
            self.answer(notif, flags=CONTINUE)
            return
        opened = []
        try:
            for name, flags in (("mem", os.O_RDONLY), ("root", os.O_PATH | os.O_DIRECTORY), ("cwd", os.O_PATH | os.O_DIRECTORY)):
                opened.append(os.open(f"/proc/{notif.pid}/{name}", flags))
            self.serve_mknod(notif, *opened)
        except FileNotFoundError:
            raise CallerGone from None
        finally:
            for descriptor in opened:
                os.close(descriptor)

    def serve_mknod(self, notif, memory, root, cwd):
        self.check(notif)
        fault, path = self.read_path(memory, notif.data.args[0])
        if self.checks_again:
            self.check(notif)
        mode, device = notif.data.args[1] % 2**16, notif.data.args[2] % 2**32
        if fault:
            self.answer(notif, error=fault)
        elif path.startswith(b"/kept/"):
            self.answer(notif, error=errno.EPERM)
        elif not stat.S_ISCHR(mode) or (os.major(device), os.minor(device)) not in HARMLESS:
            self.answer(notif, flags=CONTINUE)
        else:
            self.answer(notif, error=self.make(root, cwd, path, mode, device))

    @staticmethod
    def read_path(memory, address):
        try:
            path, end, _ = os.pread(memory, PATH_MAX, address).partition(b"\0")
        except OSError:
            return errno.EFAULT, b""
        return (0, path) if end else (errno.ENAMETOOLONG if len(path) == PATH_MAX else errno.EFAULT, b"")

    @staticmethod
    def make(root, cwd, path, mode, device):
        """Makes the node in the caller's tree: 0, or why it can't be made."""
        try:
            os.mknod(path[1:] if path.startswith(b"/") else path, mode, device, dir_fd=root if path.startswith(b"/") else cwd)
        except OSError as error:
            return error.errno
        return 0


class Pool:
    """Threads that serve the calls which they are given."""

    def __init__(self, count):
        self.given = queue.SimpleQueue()
        for _ in range(count):
            threading.Thread(target=self.work, daemon=True).start()

    def work(self):
        while True:
            agent, notif = self.given.get()
            try:
                agent.serve(notif)
            except (CallerGone, FileNotFoundError):
                continue


def main():
    pool = Pool(2) if "--pool" in sys.argv else None
    state, listener = received_listener(sys.argv[-1])
    print(f"container {state['state']['id']}, whose first process is {state['pid']}, with the metadata {state['metadata']!r}", flush=True)
    agent = Agent(listener, "--no-second-check" not in sys.argv)
    watched = selectors.DefaultSelector()
    if "--watch" in sys.argv:
        watched.register(listener, selectors.EVENT_READ)
    while True:
        try:
            if watched.get_map():
                watched.select()
            if pool is None:
                agent.serve(agent.receive())
            else:
                pool.given.put((agent, agent.receive()))
        except (CallerGone, FileNotFoundError):
            continue


if __name__ == "__main__":
    main()
