"""Instances of a broker, whose calls of the kernel come one after another: processes with a socket for each of their threads, or a function of this process.

A run is a generator. It gives the number of the instance that it wants to hear, and is sent the calls that have come by the time that all its threads wait, each with the number of its thread; or None
where the instance has ended.
"""
import os
import select
import signal
import socket
import struct
import time
import traceback
from functools import lru_cache
from itertools import accumulate
from typing import List

from tools.commands.command_line.ending import reason
from tools.commands.exploring.bounds import Bounds
from tools.commands.exploring.passing import Passing
from tools.commands.exploring.processes import Started, anonymous_file, has_ended_within, has_gone, is_at_rest, peer_of
from tools.commands.exploring.shims import NO_MEMORY, UNSUPPORTED, UNSUPPORTED_LINE, RunFolder

# how long a command has to end when the listener is closed, in seconds
LEAVE = 2
CLOSED = b"refused closed\n"
# how often an instance may ask for more behind the close
MOST_REFUSALS = 1_000
MOST_OUTPUT = 65_536
POLL = 0.01
PART = 65_536
TIME = struct.Struct("ll")
# how many bytes of answers may wait in a connection before its calls
MOST_FORETOLD = 32_768
# how many threads may connect at once, what they are told, and how long several threads are listened to before it is looked whether they rest, in seconds
BACKLOG, ABLE, OPENED, PAUSE = 128, b"able", b"able\n", 0.0005
# what the library asks so that its next so many calls are made in one turn
HOLD = b"hold "
# a broker that was heard in the last part of its time, of so many, takes too long, and doesn't hang
PARTS = 10


class Hangs(Exception):
    """An instance makes no call, and doesn't end."""


class NotSupported(Exception):
    """A broker does what can't be tried here; the argument says what."""


class Stopped(BaseException):
    """Unwinds a broker of this process that goes on asking behind the close."""


class InlineInstance:
    """A broker that is a function of this process. It gets a channel to the kernel, as examples/python/seccomp_step.py has them; each of its calls lets the run go on up to the answer. A run has one
    such instance at most."""

    def __init__(self, serve):
        self.serve = serve
        self.status, self.output = None, b""
        self.course, self.error, self.refusals = None, None, 0
        self.line, self.told = b"", b""

    def drive(self, course):
        """Lets the broker run, and with it the run."""
        self.course = course
        next(course)
        try:
            self.serve(self)
            self.status = 0
        except Stopped:
            self.status = 0
        except SystemExit as ended:
            self.status = ended.code if isinstance(ended.code, int) else int(ended.code is not None)
        except Exception:
            self.status, self.output = 1, traceback.format_exc().encode()
        self.go_on(None)
        if self.error is not None:
            raise self.error

    def go_on(self, calls):
        """Lets the run go on. Where it is over the listener is closed, and the broker is told so."""
        if self.course is not None:
            try:
                self.course.send(calls)
                return
            except StopIteration:
                self.course = None
            except Exception as error:
                # (it isn't the broker's, and must not pass through it)
                self.course, self.error = None, error
        self.told = CLOSED
        self.refusals += 1
        if self.refusals > MOST_REFUSALS:
            raise Stopped

    # ---- what the broker sees

    @property
    def requests(self):
        return self

    @property
    def answers(self):
        return self

    def write(self, line):
        self.line = line

    def flush(self):
        self.go_on([(0, self.line.rstrip(b"\n"))])

    def readline(self):
        line, _, self.told = self.told.partition(b"\n")
        return line + b"\n"

    def read(self, count):
        found, self.told = self.told[:count], self.told[count:]
        return found

    def close(self):
        return 0

    # ---- what the run does

    def start(self):
        pass

    def reply(self, thread, answer):
        self.told = answer

    def goes_on(self, thread):
        return False

    def stop(self):
        pass


class Connection:
    """The connection of one thread: what was received of its next call, and whether a call of it waits for its answer."""

    def __init__(self, socket_of_it):
        self.socket, self.number, self.received = socket_of_it, socket_of_it.fileno(), b""
        self.is_open, self.is_asking = True, False
        # how many calls, the next one among them, are made in one turn
        self.held = 0

    def set_patience(self, seconds):
        """How long it waits for a call, and for an answer to be taken."""
        for option in (socket.SO_RCVTIMEO, socket.SO_SNDTIMEO):
            self.socket.setsockopt(socket.SOL_SOCKET, option, TIME.pack(max(seconds, 1), 0))

    def receive(self):
        """Takes what has come; what the other end has closed is closed here, too. Whether anything has, in its patience."""
        try:
            part = self.socket.recv(PART)
        except BlockingIOError:
            return False
        except ConnectionError:
            part = b""
        self.received += part
        if not part:
            self.close()
        return True

    def next_call(self):
        """The next call, once it is whole; else None."""
        if b"\n" not in self.received or self.is_asking:
            return None
        line, _, self.received = self.received.partition(b"\n")
        if line.startswith(HOLD):
            self.held = int(line[len(HOLD):])
            self.send(line + b"\n")
            return self.next_call()
        self.is_asking = True
        return line

    def reply(self, answer):
        self.is_asking = False
        self.held = max(self.held - 1, 0)
        self.send(answer)

    def send(self, answer):
        try:
            self.socket.sendall(answer)
        except OSError:
            # (it has ended, which the next wait tells)
            pass

    def close(self):
        # (the number may be another one's from now on)
        self.is_open, self.is_asking, self.number = False, False, -1
        self.socket.close()


class Door:
    """A socket at which one instance after another connects, and the folder that each of them has."""

    def __init__(self, path):
        self.path = path
        self.server = socket.socket(socket.AF_UNIX)
        self.server.bind(path)
        self.server.listen(BACKLOG)
        self.folder = RunFolder(path)

    def clear(self):
        """Lets go of what has connected to no avail."""
        while select.select([self.server], [], [], 0)[0]:
            self.server.accept()[0].close()


@lru_cache(maxsize=None)
def environment_of(door, shim, passed):
    """The environment of a command that connects at a door; `passed` is where it waits for the listener, or None."""
    # (the runs would write the file of a session one over another)
    variables = {"SECCOMP_BROKER_KERNEL": door.path, "SECCOMP_BROKER_SESSION": "", **(shim.variables(door.folder, passed) if shim is not None else {})}
    return {**os.environb, **{os.fsencode(name): os.fsencode(value) for name, value in variables.items()}}


class Thread(Connection):
    """The connection of a thread behind the first one, which lib/shim.c opens for it: the first request comes of that, and by the second one it asks whether it may begin."""

    def __init__(self, socket_of_it):
        super().__init__(socket_of_it)
        self.requests, self.is_beginning = 0, False

    def next_call(self):
        line = super().next_call()
        if line is None:
            return None
        self.requests += 1
        if self.requests == 1:
            self.reply(OPENED)
        self.is_beginning = self.requests == 2 and line == ABLE
        return None if self.requests == 1 or self.is_beginning else line

    def begin(self):
        self.is_beginning = False
        self.reply(OPENED)


class ProcessInstance:
    """A command that is started with a socket to the kernel in SECCOMP_BROKER_KERNEL."""

    def __init__(self, command, door, bounds=Bounds(), shim=None, passing=None):
        """`door` is where it connects. `bounds` says how much it may take. `shim` is the library that is preloaded into a broker as it is, and has the listener. `passing` says how the listener is passed to
        it, if it is."""
        self.door, self.server, self.bounds = door, door.server, bounds
        # when its time is over, and when it was heard last
        self.until = self.heard = 0.0
        self.passing, self.command = None, command
        if passing is not None:
            self.passing = Passing(passing, f"{door.folder.path}/agent", command)
            self.command = self.passing.command
        self.environment = environment_of(door, shim, self.passing.path if self.passing is not None else None)
        # (only what is preloaded connects for each thread)
        self.has_threads = shim is not None
        self.watched = select.poll()
        if self.has_threads:
            self.watched.register(self.server, select.POLLIN)
        self.connections: List[Connection] = []
        self.process, self.broker, self.status = None, None, None
        # the answers that are sent before its calls, and how many of these it hasn't made yet
        self.foretold, self.advance = [], 0
        # whether it is told of the close; and whether it is, and wasn't listened to since
        self.is_closed = self.is_told = False
        self.written, self.output = anonymous_file("output"), b""

    # ---- its start

    def start(self):
        """Starts the command, in a session of its own, so that all that it starts can be ended with it."""
        if self.has_threads:
            self.door.folder.clear()
        if self.passing is not None:
            self.passing.begin()
        try:
            self.process = Started(self.command, self.environment, self.written)
        except OSError as error:
            raise NotSupported(f"{self.command[0]} can't be started: {reason(error)}") from None
        self.bounds.set_for(self.process.pid)
        self.until = time.monotonic() + self.bounds.patience
        if self.passing is not None:
            self.pass_listener()

    def pass_listener(self):
        """Passes the listener to the command, once it waits for it. Threads that it makes before begin."""
        try:
            if self.is_reached(self.has_passed):
                return
        except Hangs:
            raise NotSupported(f"nobody waits for the listener at {self.passing.path}") from None
        self.test_support(self.process.returncode)
        raise NotSupported(f"it has ended with status {self.process.returncode}, and hasn't waited for the listener at {self.passing.path}")

    def has_passed(self):
        if self.has_threads:
            self.hear_before()
        return self.passing.try_to_pass()

    def hear_before(self):
        """Answers what threads ask when they are made, as long as there is no listener: nothing else is asked by then."""
        if not self.connections:
            self.has_connected(0)
        elif self.has_heard(0):
            for it in self.connections[1:]:
                it.next_call()
            while self.begin_thread():
                pass
        first = self.connections[0] if self.connections else None
        if first is not None and not first.is_asking and first.received.startswith(OPENED):
            first.next_call()
            first.reply(OPENED)

    def is_reached(self, attempt):
        """Tries something until it comes about; whether it did before the command ended. Raises Hangs."""
        while time.monotonic() < self.until:
            if attempt():
                return True
            if self.process.poll() is not None:
                return False
        raise Hangs

    def has_connected(self, seconds=POLL):
        """Whether the command has connected by now, for which it has a short while."""
        if not select.select([self.server], [], [], seconds)[0]:
            return False
        connected = self.accept(Connection)
        self.broker = peer_of(connected.socket)
        connected.send(b"".join(self.foretold))
        return True

    def foretell(self, answers):
        """Before its first call is waited for: sends the answers to its calls that are known by now, or as many as there is room for, so that it needn't wait. Each of them is to be replied nevertheless."""
        sizes = accumulate(map(len, answers))
        self.foretold = [answer for answer, size in zip(answers, sizes) if size <= MOST_FORETOLD]
        self.advance = len(self.foretold)

    def greet(self):
        """Sends what is foretold, if it has connected by now. It isn't waited for."""
        if not self.connections:
            self.has_connected(0)

    def accept(self, kind):
        connection = kind(self.server.accept()[0])
        # (it is read where something has come, and so waits for nothing else than that an answer is taken)
        connection.set_patience(self.bounds.patience)
        self.connections.append(connection)
        self.watched.register(connection.socket, select.POLLIN)
        return connection

    # ---- its calls

    def connect(self):
        """Waits until it has connected. Raises Hangs and NotSupported."""
        if not self.connections and not self.is_reached(self.has_connected):
            self.test_support(self.process.returncode)
            raise NotSupported(f"it has ended with status {self.process.returncode}, and hasn't connected to the socket that SECCOMP_BROKER_KERNEL names")

    def wait(self):
        """The calls that have come by the time that all its threads wait, or None where it has ended. Raises Hangs, TooMuch and NotSupported."""
        self.connect()
        calls = []
        while True:
            calls += [(number, line) for number, it in enumerate(self.connections) for line in [it.next_call()] if line is not None]
            if not any(it.is_open for it in self.connections):
                self.leave()
                return None
            if all(it.is_asking for it in self.connections if it.is_open) and not self.begin_thread():
                return calls
            if len(self.connections) > 1 and is_at_rest(self.broker):
                if not self.has_heard(0) and not self.begin_thread():
                    return calls
            elif not self.has_heard(self.until):
                self.test_time()

    def test_time(self):
        """Raises Hangs or TooMuch where its time is over."""
        now = time.monotonic()
        if now < self.until:
            return
        self.bounds.test_output(self.written)
        if now - self.heard < self.bounds.patience / PARTS and not self.is_closed:
            raise self.bounds.too_much_time()
        raise Hangs

    def makes(self, requests):
        """Whether these are the next calls of its only thread, of which the answers are foretold. Raises Hangs and NotSupported."""
        self.connect()
        wanted, connection = b"".join([request + b"\n" for request in requests]), self.connections[0]
        while len(connection.received) < len(wanted) and connection.is_open:
            if not self.has_heard(self.until):
                self.test_time()
        if len(self.connections) > 1 or not connection.received.startswith(wanted):
            return False
        connection.received = connection.received[len(wanted):]
        self.advance -= len(requests)
        return True

    def has_heard(self, until):
        """Takes what has come, for which a single thread has until some time, and several ones have a short while; whether anything has."""
        if not self.has_threads:
            return self.note_heard(self.connections[0].receive())
        pause = PAUSE if len(self.connections) > 1 else max(until - time.monotonic(), 0)
        ready = self.watched.poll(1000 * pause if until else 0)
        for fd, _ in ready:
            if fd == self.server.fileno():
                self.accept(Thread)
                continue
            connection = next(it for it in self.connections if it.number == fd)
            connection.receive()
            if not connection.is_open:
                self.watched.unregister(fd)
        return self.note_heard(bool(ready))

    def note_heard(self, is_heard):
        if is_heard:
            self.heard = time.monotonic()
        return is_heard

    def begin_thread(self):
        """Lets the first of the threads begin that wait for it; whether there is one."""
        beginner = next((it for it in self.connections[1:] if it.is_beginning), None)
        if beginner is not None:
            beginner.begin()
        return beginner is not None

    def reply(self, thread, answer):
        if self.advance > 0:
            # (it has it already)
            self.advance -= 1
            self.connections[thread].is_asking = False
        else:
            self.connections[thread].reply(answer)

    def goes_on(self, thread):
        """Whether the next call of a thread is made in the same turn."""
        return self.connections[thread].held > 0

    # ---- its end

    def leave(self):
        """Waits for the end of a command whose connections are closed, and which may wait for the other end of them. Raises TooMuch and NotSupported."""
        self.status = self.process.returncode if self.has_ended() else 0
        self.test_support(self.status)
        self.bounds.test_output(self.written)
        if self.status and self.has_no_memory():
            raise self.bounds.too_much_memory()

    def has_no_memory(self):
        """Whether it has died for want of memory, as far as that is known."""
        return self.bounds.has_taken_all_memory(self.process.used) or (self.has_threads and NO_MEMORY in self.door.folder.lines())

    def has_ended(self):
        """Whether the command ends in a while. One that isn't the broker may wait for something that doesn't come, behind the broker's end."""
        until = time.monotonic() + LEAVE
        if self.broker == self.process.pid:
            return has_ended_within(self.process, LEAVE)
        while self.process.poll() is None and time.monotonic() < until:
            if has_gone(self.broker) and is_at_rest(self.process.pid) and self.process.poll() is None:
                return False
            time.sleep(PAUSE)
        return self.process.returncode is not None

    def test_support(self, status):
        """Raises NotSupported where the shim has ended a broker as it is."""
        said = self.output_so_far().split(b"\n") if self.has_threads or status == UNSUPPORTED else []
        told = self.door.folder.lines() if self.has_threads else []
        line = next((line for line in (*told, *said) if line.startswith(UNSUPPORTED_LINE)), b"")
        if line:
            raise NotSupported(line[len(UNSUPPORTED_LINE):].decode("utf-8", "backslashreplace"))

    def output_so_far(self):
        return os.pread(self.written, MOST_OUTPUT, 0)

    def close(self):
        """Answers the calls for which it waits by telling that the listener is closed."""
        self.until, self.is_closed = time.monotonic() + LEAVE, True
        for number, it in enumerate(self.connections):
            if it.is_open:
                it.set_patience(LEAVE)
            if it.is_asking:
                self.reply(number, CLOSED)
                self.is_told = True

    def finish(self):
        """Tells it that the listener is closed, and answers so whatever it asks for, until it ends or has asked for too much."""
        try:
            for _ in range(MOST_REFUSALS):
                self.close()
                if not self.is_told or self.wait() is None:
                    return
                self.is_told = False
        except Hangs:
            pass

    def stop(self):
        """Ends what is left of it, and takes what it has written."""
        if self.process is not None:
            self.end()
        self.output = self.output_so_far()
        os.close(self.written)

    def end(self):
        """Ends the command with all that it has started."""
        try:
            os.killpg(self.process.pid, signal.SIGKILL)
        except ProcessLookupError:
            pass
        self.process.wait()
        for it in self.connections:
            # (for the second time, if the command has closed it)
            it.close()
        self.door.clear()
        if self.passing is not None:
            self.passing.close()


def drive(instances, course):
    """Lets processes run, each where the run wants to hear of it."""
    number = next(course)
    try:
        while True:
            number = course.send(instances[number].wait())
    except StopIteration:
        pass
