"""Your own broker on the simulated kernel, which the program `seccomp-broker step POLICY SCRIPT` runs (docs/YOUR_BROKER.md).

    with Kernel("policy.json", "script.txt") as kernel:
        for line in kernel.steps("0"):
            print(line)
        seat = kernel.seat(0)
        notif = seat.recv()
        seat.send(notif.id, error=errno.EPERM)

A call that the kernel refuses raises OSError with the error of its manual page: FileNotFoundError for ENOENT, ProcessLookupError for ESRCH and so
on. BlockingIOError says that the real call would wait: nothing has happened; let tasks step, and ask again. Besides these, each call may raise
OSError with ECHRNG (there are 16 seats), ESHUTDOWN (the listener is closed), EMSGSIZE (the texts of the call are too long), EPIPE (the program
has ended) and EPROTO (its answer can't be understood). Calls of one Kernel come from one thread at a time.

Where the variable SECCOMP_BROKER_KERNEL names a socket, the kernel is behind that, and another program steps the tasks, as explore-broker does: then a call that
would wait waits. Where SECCOMP_BROKER_SESSION names a file, each request and its answer is written there, for reference-judge.
"""
import errno
import os
import re
import select
import socket
import struct
import subprocess
from typing import NamedTuple, Optional

CONTINUE = 1  # SECCOMP_USER_NOTIF_FLAG_CONTINUE
ADDFD_SETFD, ADDFD_SEND = 1, 2  # SECCOMP_ADDFD_FLAG_SETFD, SECCOMP_ADDFD_FLAG_SEND
AT_FDCWD = -100
MOST_READ = 4096
RESPONSE, ADDFD = struct.Struct("<QqiI"), struct.Struct("<QIIII")
REFUSALS = {
    "no task": errno.ESRCH, "worker": errno.ECHRNG, "no memory is open": errno.EBADF, "request is put": errno.EALREADY, "no request": errno.ENOMSG,
    "closed": errno.ESHUTDOWN, "long line": errno.EMSGSIZE, "full": errno.EFBIG,
}


class Notif(NamedTuple):
    """A notification (struct seccomp_notif)."""

    id: int
    pid: int
    flags: int
    nr: int
    arch: int
    ip: int
    args: tuple


class Task(NamedTuple):
    """A task as a look sees it: the PID of its parent while that lives, else 0; and `running`, `sleeping`, `disk-sleep` or `zombie`."""

    name: str
    ppid: int
    state: str


class Node(NamedTuple):
    """A node of the container's tree: its ordinal, which no other node gets; `dir`, `reg`, `link`, `fifo`, `sock`, `chr` or `blk`; and the numbers of a device, or the
    bytes of a link's target, else None."""

    ordinal: int
    kind: str
    device: Optional[tuple] = None
    target: Optional[bytes] = None


def unquoted(text):
    """The bytes of a text as reports write it."""
    return re.sub(rb"\\(?:x(..)|(.))", lambda found: bytes.fromhex(found[1].decode()) if found[1] else found[2], text.encode("latin-1")[1:-1])


def node_of(words):
    """The node that an answer tells of."""
    ordinal, kind, *more = words.split(" ", 2)
    device = tuple(map(int, more[0].split(":"))) if kind in ("chr", "blk") else None
    return Node(int(ordinal), kind, device, unquoted(more[0]) if kind == "link" else None)


def quoted(text):
    """A text as scripts write it."""
    content = text.encode() if isinstance(text, str) else text
    return b'"' + b"".join(b"\\" + bytes([byte]) if byte in b'"\\' else b"\\x%02x" % byte if byte < 0x20 else bytes([byte]) for byte in content) + b'"'


def error_of(word):
    """The number of an error by its name, as ENOENT or E999; None of another word."""
    number = getattr(errno, word, None) if word.startswith("E") else None
    return number if number else int(word[1:]) if word.startswith("E") and word[1:].isdigit() else None


def failed(number, answer):
    return OSError(number, f"{os.strerror(number)}: {answer}")


def result_of(answer):
    """The last word of an event's line. Raises OSError if that is an error."""
    word = answer.rpartition(" ")[2]
    if error_of(word):
        raise failed(error_of(word), answer)
    return word


class ProgramChannel:
    """The program, with a pipe to it and one from it."""

    def __init__(self, words):
        self.program = subprocess.Popen(words, stdin=subprocess.PIPE, stdout=subprocess.PIPE)
        self.requests, self.answers = self.program.stdin, self.program.stdout

    def close(self):
        """Closes the program's input, and waits for it. Returns its exit status."""
        # communicate() closes the input, and reads what is left
        if self.program.returncode is None:
            self.program.communicate()
        return self.program.returncode


class SocketChannel:
    """A socket to another program, which holds the kernel."""

    def __init__(self, path):
        with socket.socket(socket.AF_UNIX) as connected:
            connected.connect(path)
            self.requests, self.answers = connected.makefile("wb"), connected.makefile("rb")

    def close(self):
        self.requests.close()
        self.answers.close()
        return 0


def channel_to(policy, script, program):
    """A way to the kernel: the socket that is named, or a program that is started."""
    path = os.environ.get("SECCOMP_BROKER_KERNEL")
    if path:
        return SocketChannel(path)
    return ProgramChannel([program or os.environ.get("SECCOMP_BROKER") or "seccomp-broker", "step", os.fspath(policy), os.fspath(script)])


class Kernel:
    """A simulated kernel with a container, and the way to it."""

    def __init__(self, policy=None, script=None, program=None, channel=None):
        """Starts the program: by default what SECCOMP_BROKER names, or else `seccomp-broker`. Raises OSError with EINVAL if the program
        refuses the policy or the script; it says why on standard error. Neither is needed if SECCOMP_BROKER_KERNEL names a socket."""
        self.channel = channel or channel_to(policy, script, program)
        session = os.environ.get("SECCOMP_BROKER_SESSION")
        self.session = open(session, "wb") if session else None
        self.answer = ""
        try:
            self.able()
        except BrokenPipeError:
            raise failed(errno.EINVAL, f"status {self.close()}") from None

    def __enter__(self):
        return self

    def __exit__(self, *_):
        self.close()

    def close(self):
        """Closes the program's input, which closes the listener, and waits for it. Returns its exit status."""
        if self.session is not None:
            self.session.close()
        return self.channel.close()

    def ask(self, request):
        """Sends one request, and gives its answer."""
        line = (request.encode() if isinstance(request, str) else request) + b"\n"
        try:
            self.channel.requests.write(line)
            self.channel.requests.flush()
        except ValueError:
            raise failed(errno.ESHUTDOWN, "the kernel is closed") from None
        told = self.channel.answers.readline()
        if not told.endswith(b"\n"):
            raise failed(errno.EPIPE, "the program has ended")
        if self.session is not None:
            self.session.write(b"> " + line + b"< " + told)
            self.session.flush()
        self.answer = answer = told[:-1].decode("latin-1")
        if answer == "skip":
            raise failed(errno.EAGAIN, answer)
        kind, _, rest = answer.partition(" ")
        if kind == "refused":
            raise failed(REFUSALS.get(rest, errno.EPROTO), answer)
        if kind == "error":
            raise failed(error_of(rest) or errno.EPROTO, answer)
        return answer

    # ---- the container's tasks

    def able(self):
        """The names of the tasks that can step."""
        return [word for word in self.ask("able").split(" ")[1:] if word != "recv"]

    def is_notified(self):
        """Whether a receive wouldn't wait: a notification is there, or the call that there was is gone."""
        return self.ask("able").endswith(" recv")

    def step(self, task):
        """Lets a task make its next step, and gives the journal's line of it. Raises BlockingIOError if it has none to make, and
        ProcessLookupError if no such task was made."""
        try:
            return self.ask(f"t {task}")
        except OSError as error:
            if self.answer.startswith("refused line"):
                raise failed(errno.ESRCH, self.answer) from error
            raise

    def steps(self, task):
        """Lets a task step until it waits or has ended: each line."""
        try:
            while True:
                yield self.step(task)
        except BlockingIOError:
            return

    def text(self, request):
        """The bytes of a text whose length follows its word."""
        count = int(self.ask(request).split(" ")[1])
        return self.channel.answers.read(count)

    def report(self):
        """The report so far, as `seccomp-broker play` prints it."""
        return self.text("report").decode("latin-1")

    def script(self):
        """The script of what has happened so far, as the bytes of a file: the lines of the script before its schedule, and a schedule with each step of a task
        and each request of a worker. `seccomp-broker play` plays it, and prints what report gives behind close_listener. Raises OSError with EFBIG where it
        would have more steps or bytes than a script may have."""
        return self.text("script")

    def judge(self, is_idle=False):
        """The judgement of the broker so far: `mediated events=N calls=N effects=N answers=N`, or of the first event that breaks a
        clause `broken PLACE CLASS CLAUSE`. Where is_idle, the broker does nothing more by itself: then a call that it has received and that waits isn't
        answered, which is found at the newest event while the listener is open."""
        return self.text("judge idle" if is_idle else "judge").decode("latin-1").rstrip("\n")

    # ---- looks. They are no events: no report tells them, and no judge hears them

    def look_pid(self, pid):
        """The task that holds a PID. Raises ProcessLookupError if nobody does."""
        told = self.ask(f"look pid {pid}")
        if told == "look none":
            raise failed(errno.ESRCH, told)
        _, _, name, _, ppid, _, state = told.split(" ")
        return Task(name, int(ppid), state)

    def look_fd(self, pid, number):
        """The object of a descriptor of the task that holds a PID: a Node, the number of a file of the broker's, or `console`. None if it isn't open, nobody
        holds the PID, or the task has ended."""
        _, kind, *rest = self.ask(f"look fd {pid} {number}").split(" ", 2)
        return {"none": lambda: None, "console": lambda: kind, "file": lambda: int(rest[0]), "node": lambda: node_of(rest[0])}[kind]()

    def look_path(self, pid, path, dirfd=AT_FDCWD, follows=True):
        """The Node to which a path leads that the task which holds a PID would walk; a link at its end is followed, or is itself the node. Raises OSError: ESRCH, EBADF,
        ENOENT, ENOTDIR, ELOOP, ENAMETOOLONG."""
        told = self.ask(b"look path %d %d %s %s" % (pid, dirfd, quoted(path), b"follow" if follows else b"nofollow"))
        _, kind, rest = told.split(" ", 2)
        if kind == "error":
            raise failed(error_of(rest) or errno.EPROTO, told)
        return node_of(rest)

    def look_listener(self):
        """The result of poll(2) of the listener: select.POLLIN if a call waits to be received, select.POLLOUT if one was received and waits for its answer."""
        _, receives, sends = self.ask("look listener").split(" ")
        return (select.POLLIN if receives == "in=1" else 0) | (select.POLLOUT if sends == "out=1" else 0)

    def close_listener(self):
        """Closes the listener, as the end of the broker does. Behind it only report, script, judge and close do something."""
        self.ask("close")

    def seat(self, worker):
        """The seat with a number from 0 to 15."""
        return Seat(self, worker)


class Seat:
    """A place for one notification, from recv to let_go, with the memory and the directory that are opened for it."""

    def __init__(self, kernel, worker):
        self.kernel, self.worker = kernel, worker

    def ask(self, *words):
        return self.kernel.ask(b" ".join(word if isinstance(word, bytes) else str(word).encode() for word in ("w", self.worker, *words)))

    # ---- the listener (seccomp_unotify(2))

    def recv(self):
        """Receives the oldest notification. Raises BlockingIOError if none is there, and FileNotFoundError if its call has gone."""
        answer = self.ask("recv")
        event, _, fields = answer.partition(" flags=")
        if not fields:
            result_of(event)
        words = dict(word.split("=") for word in answer.split(" ") if "=" in word)
        numbers = [int(words[name]) for name in ("id", "pid", "flags", "nr", "arch", "ip")]
        return Notif(*numbers, tuple(map(int, words["args"].split(","))))

    def notifications(self):
        """Receives until none is there, or the listener is closed. Each is to be served before the next one is asked for."""
        while True:
            try:
                yield self.recv()
            except FileNotFoundError:
                continue
            except OSError as error:
                if error.errno not in (errno.EAGAIN, errno.ESHUTDOWN):
                    raise
                return

    def id_valid(self, identifier):
        """Whether the call still waits for an answer."""
        try:
            result_of(self.ask("check", identifier))
        except FileNotFoundError:
            return False
        return True

    def send(self, identifier, value=0, error=0, flags=0):
        """Answers a call: with a value, or an error above 0, or CONTINUE as flags. Raises OSError: FileNotFoundError (it waits no more), EINPROGRESS
        (it was answered, or not received), EINVAL (the kernel takes no such answer)."""
        result_of(self.ask("send-raw", RESPONSE.pack(identifier, value, -error, flags).hex()))

    def addfd(self, identifier, srcfd, flags=ADDFD_SEND, newfd=0, newfd_flags=0):
        """Asks for a descriptor to be put into the caller, which a step of the caller does. Raises OSError: EBADF, ENOENT, EINPROGRESS,
        EBUSY, EINVAL, or EALREADY if the last result wasn't taken."""
        result_of(self.ask("addfd-raw", ADDFD.pack(identifier, flags, srcfd, newfd, newfd_flags).hex()))

    def addfd_result(self):
        """The number that it got. Raises BlockingIOError if it isn't installed yet, or OSError: EBADF, EMFILE, ENOENT, ENOMSG."""
        return int(result_of(self.ask("addfd-result")))

    def let_go(self):
        """Releases the notification, and closes all that was opened for it."""
        self.ask("let-go")

    # ---- the caller's memory (proc(5))

    def open_mem(self, pid):
        """Opens the memory of the task that has this PID by now, instead of one that is open. Raises ProcessLookupError."""
        result_of(self.ask("open-mem", pid))

    def pread(self, count, address):
        """At most 4,096 bytes of the memory that is open, and as many as are mapped. Raises OSError with EFAULT if none is."""
        answer = self.ask("read", address, min(count, MOST_READ))
        digits = result_of(answer).partition("bytes=")[2]
        return b"" if digits == "-" else bytes.fromhex(digits)

    def write_sysinfo(self, address, info):
        """Writes the 112 bytes of a struct sysinfo. Raises OSError with EFAULT if not all is mapped."""
        result_of(self.ask("plant", address, bytes(info).hex()))

    # ---- effects with the broker's rights

    def open_dir(self, pid, dirfd=AT_FDCWD):
        """Opens the directory from which relative paths go. Raises ProcessLookupError, or OSError with EBADF."""
        result_of(self.ask("open-base", pid, dirfd))

    def mknodat(self, path, mode, device=0, dirfd=AT_FDCWD):
        """mknodat(2). `dirfd` is the caller's number, for the report's sake: the directory is that of open_dir."""
        words = ("mknod",) if dirfd == AT_FDCWD else ("mknodat", dirfd)
        result_of(self.ask("act", *words, quoted(path), mode, device))

    def mount(self, source, target, fstype, flags=0, data="", via=None, shift=False):
        """mount(2), maybe by a program, and with shifted ids, as LXD does it."""
        more = (*(("via", quoted(via)) if via is not None else ()), *(("shift",) if shift else ()))
        result_of(self.ask("act", "mount", quoted(source), quoted(target), quoted(fstype), flags, quoted(data), *more))

    def setxattr(self, path, name, value, flags=0):
        """setxattr(2)."""
        result_of(self.ask("act", "setxattr", quoted(path), quoted(name), quoted(value), flags))
