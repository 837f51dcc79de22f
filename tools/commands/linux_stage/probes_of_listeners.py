"""Requests to a listener that no worker of a script makes."""
from __future__ import annotations

import os
import signal
import time
from typing import TYPE_CHECKING, Any, Tuple

from tools.commands.linux_stage import machine
from tools.commands.linux_stage.machine import ADD_DESCRIPTOR, AND_SEND, CONTINUE, ID, ID_VALID, NOTIFICATION, RECEIVE, REPLY, REQUEST, SEND, SET_NUMBER, answer
from tools.commands.linux_stage.play import Play
from tools.commands.linux_stage.stage import LISTENER, Stage
from tools.commands.linux_stage.stand_in import Order
from tools.commands.real_workloads.script_text import CALLS
from tools.references.stepping.scripts import read_script

if TYPE_CHECKING:
    from tools.commands.linux_stage.comparison import Bench
    from tools.commands.linux_stage.probes import Note, Notes

SETTINGS = b"pidbase 299\nbroker 5\nrlimit 8\n"
GETPID = CALLS["getpid"]
UNKNOWN_IDS = (0, 1, 77, 2**64 - 1)
# in which the processor is left to others: nothing that is to stand still could go on then
PAUSE = 0.05


class Scene:
    """A task that makes notified calls, and three workers."""

    def __init__(self, bench, killable=False, settings=SETTINGS + b"notify getpid mknod\n"):
        self.stage = Stage(read_script(settings + b"killable\n" * killable + b"prog main\nend\n"), bench.stand_in, bench.room, bench.processor)
        self.stage.build({1, 2})
        machine.run_first(0, 50)
        play = Play(self.stage, [])
        self.tasks, self.workers = play.of_tasks, play.of_workers
        self.task = self.stage.first_task()
        self.id = None

    def call(self, number: int = GETPID) -> str:
        """Enters a call, and says what it is seen to wait for."""
        self.task.order(Order.SCRIPT_CALL, number)
        return self.task.settle()

    def run(self) -> str:
        """Lets the task run, and says what its call answered."""
        return self.tasks.outcome(self.task, self.task.settle())

    def signal(self, number: int) -> None:
        machine.libc.kill(self.task.pid, number)

    def handler(self, number: int, mode: int) -> None:
        self.task.order(Order.HANDLE, number, mode)
        self.task.settle()

    def ioctl(self, number: int, data: bytes, worker: int = 0) -> str:
        stand_in = self.stage.workers[worker]
        state = self.workers.ioctl(stand_in, number, data)
        return answer(stand_in.result()) if state == "idle" else "waits"

    def receive(self, worker: int = 0, buffer: bytes = b"") -> str:
        stand_in = self.stage.workers[worker]
        came = self.ioctl(RECEIVE, buffer, worker)
        if came == "waits":
            self.workers.leave_receive(stand_in)
        elif came == "0":
            self.id = ID.unpack(stand_in.get(ID.size))[0]
        return came

    def send(self, name: int, value: int = 0, error: int = 0, flags: int = 0, worker: int = 0) -> str:
        return self.ioctl(SEND, REPLY.pack(name, value, error, flags), worker)

    def valid(self, name: int) -> str:
        return self.ioctl(ID_VALID, ID.pack(name))

    def add(self, name: int, flags: int = 0, source: int = 5, number: int = 0, number_flags: int = 0, worker: int = 0) -> str:
        return self.ioctl(ADD_DESCRIPTOR, REQUEST.pack(name, flags, source, number, number_flags), worker)

    def taken(self, worker: int) -> str:
        """What came of a request of a worker."""
        stand_in = self.stage.workers[worker]
        return answer(stand_in.result()) if stand_in.settle() == "idle" else "waits"

    def received_call(self) -> int:
        self.call()
        self.receive()
        return self.id

    def close_on_exec(self, number: int) -> int:
        with open(f"/proc/{self.task.pid}/fdinfo/{number}") as file:
            flags = next(int(line.split()[1], 8) for line in file if line.startswith("flags"))
        return flags & os.O_CLOEXEC


def run(bench: Bench, notes: Notes) -> None:
    of_listener(bench, lambda *probe: notes.take("listener", *probe), False)
    interrupted(bench, lambda *probe: notes.take("listener", *probe))


def run_killable(bench: Bench, notes: Notes) -> None:
    def note(*probe: Any) -> None:
        notes.take("killable listener", *probe)

    of_listener(bench, note, True)
    stopped(Scene(bench, True), note, (0, "waits"))


def of_listener(bench: Bench, note: Note, killable: bool) -> None:
    scene = Scene(bench, killable)
    for probes in (receives, refused, plain_requests, requests_that_send, unfetched, answers):
        probes(scene, note)
        time.sleep(PAUSE)
    ended_caller(Scene(bench, killable), note)
    close_on_exec(Scene(bench, killable), note)
    closed(bench, note, killable)


def receives(scene: Scene, note: Note) -> None:
    note("RECV where nothing is listed", scene.receive(), "waits")
    scene.call()
    for at in range(NOTIFICATION.size):
        note(f"RECV into a buffer whose byte {at} isn't 0", scene.receive(buffer=bytes(at) + b"\1"), "EINVAL")
    for name in UNKNOWN_IDS:
        note(f"ID_VALID of {name}", scene.valid(name), "ENOENT")
        note(f"SEND to {name}", scene.send(name), "ENOENT")
        note(f"ADDFD to {name}", scene.add(name), "ENOENT")
        note(f"ADDFD and SEND to {name}", scene.add(name, AND_SEND), "ENOENT")
    note("RECV", scene.receive(), "0")
    note("RECV by another worker", scene.receive(1), "waits")
    note("ID_VALID of a call that was received", scene.valid(scene.id), "0")


def refused(scene: Scene, note: Note) -> None:
    name = scene.id
    for flags in (2, 3, 4, 8, 2**31, 2**32 - 1):
        note(f"SEND with flags {flags}", scene.send(name, flags=flags), "EINVAL")
    note("SEND CONTINUE with a value", scene.send(name, 3, 0, CONTINUE), "EINVAL")
    note("SEND CONTINUE with an error", scene.send(name, 0, -3, CONTINUE), "EINVAL")
    note("SEND CONTINUE with both", scene.send(name, 3, -3, CONTINUE), "EINVAL")
    note("SEND with flags 2 to an unknown id", scene.send(1, flags=2), "EINVAL")
    for flags in (4, 5, 8, 2**31):
        note(f"ADDFD with flags {flags}", scene.add(name, flags), "EINVAL")
    for flags in (1, 2, 0o4000, os.O_CLOEXEC | 1, 2**31):
        note(f"ADDFD with newfd_flags {flags:o}", scene.add(name, 0, number_flags=flags), "EINVAL")
    note("ADDFD with a number and without SETFD", scene.add(name, 0, number=4), "EINVAL")
    note("ADDFD and SEND with a number and without SETFD", scene.add(name, AND_SEND, number=4), "EINVAL")
    note("ADDFD of what isn't open", scene.add(name, AND_SEND, source=6), "EBADF")
    note("ADDFD of what isn't open, to an unknown id", scene.add(1, AND_SEND, source=6), "EBADF")
    note("ADDFD of what isn't open, with flags 4", scene.add(name, 4, source=6), "EINVAL")
    note("ADDFD of what isn't open, with a number and without SETFD", scene.add(name, 0, source=6, number=4), "EINVAL")
    note("ADDFD of descriptor 2^32-1", scene.add(name, 0, source=2**32 - 1), "EBADF")


def plain_requests(scene: Scene, note: Note) -> None:
    name = scene.id
    note("ADDFD with flags 0", scene.add(name, 0, worker=1), "waits")
    note("ADDFD and SEND behind it", scene.add(name, AND_SEND, worker=2), "EBUSY")
    note("ID_VALID then", scene.valid(name), "0")
    note("a second ADDFD with flags 0", scene.add(name, 0, worker=2), "waits")
    note("the call then", scene.run(), "notify")
    note("the first of two requests is installed at", scene.taken(1), 3, "request-order", 4)
    note("the second of two requests is installed at", scene.taken(2), 4, "request-order", 3)
    for number, expected in ((1, "1"), (7, "7"), (8, "EBADF")):
        note(f"ADDFD SETFD {number}", scene.add(name, SET_NUMBER, number=number, worker=1), "waits")
        scene.run()
        note(f"installed at {number} under a limit of 8", scene.taken(1), expected)
    for number in (1048576, 2**31, 2**32 - 1):
        note(f"ADDFD SETFD {number}", scene.add(name, SET_NUMBER, number=number, worker=1), "waits")
        scene.run()
        note(f"installed at {number}", scene.taken(1), "EMFILE", "descriptor-limit-errors", "EBADF")


def requests_that_send(scene: Scene, note: Note) -> None:
    name = scene.id
    note("ADDFD SETFD and SEND at the limit", scene.add(name, AND_SEND | SET_NUMBER, number=8, worker=1), "waits")
    note("ID_VALID while it waits", scene.valid(name), "ENOENT")
    note("SEND while it waits", scene.send(name), "EINPROGRESS")
    note("ADDFD while it waits", scene.add(name, 0, worker=2), "EINPROGRESS")
    note("the call then", scene.run(), "notify")
    note("the answer at the limit", scene.taken(1), "EBADF")
    note("ID_VALID after an installation that failed", scene.valid(name), "0")
    for _ in range(2):
        scene.add(name, 0, worker=1)
        scene.run()
        scene.taken(1)
    note("ADDFD and SEND where no number is free", scene.add(name, AND_SEND, worker=1), "waits")
    scene.run()
    note("the answer where no number is free", scene.taken(1), "EBADF", "descriptor-limit-errors", "EMFILE")
    note("ID_VALID then", scene.valid(name), "0")
    note("SEND", scene.send(name, 7), "0")
    note("ID_VALID of an answered call", scene.valid(name), "ENOENT")
    note("a second SEND", scene.send(name), "EINPROGRESS")
    note("ADDFD to an answered call", scene.add(name, 0, worker=2), "EINPROGRESS")
    note("SEND CONTINUE with a value to an answered call", scene.send(name, 3, 0, CONTINUE), "EINVAL")
    note("the call returns", scene.run(), "7")
    note("SEND after that", scene.send(name), "ENOENT")
    note("ID_VALID after that", scene.valid(name), "ENOENT")
    note("ADDFD after that", scene.add(name, AND_SEND, worker=2), "ENOENT")


def unfetched(scene: Scene, note: Note) -> None:
    scene.call()
    before, name = scene.id, scene.id + 1
    note("ID_VALID of a call that wasn't received", scene.valid(name), "ENOENT")
    note("SEND to a call that wasn't received", scene.send(name), "EINPROGRESS")
    note("ADDFD to a call that wasn't received", scene.add(name), "EINPROGRESS")
    note("ADDFD and SEND to a call that wasn't received", scene.add(name, AND_SEND), "EINPROGRESS")
    note("RECV", scene.receive(), "0")
    note("its id is the next", scene.id - before, 1)


def answers(scene: Scene, note: Note) -> None:
    name = scene.id
    for value, error, expected in ((0, 0, "0"), (-1, 0, "EPERM"), (2**31, 0, str(2**31)), (5, -13, "EACCES"), (0, -4095, "E4095"), (0, -512, "E512")):
        note(f"SEND of value {value} and error {error}", scene.send(name, value, error), "0")
        note("the call returns", scene.run(), expected)
        name = scene.received_call()
    for error in (1, 38, 4095, -4096, -2**31):
        note(f"SEND of error {error}", scene.send(name, 0, error), "EINVAL", "answer-errors", 0)
        note("the call then", scene.run(), "notify", "answer-errors", error)
        name = scene.received_call()


def ended_caller(scene: Scene, note: Note) -> None:
    name = scene.received_call()
    note("ADDFD with flags 0", scene.add(name, 0, worker=1), "waits")
    scene.signal(9)
    note("the task after SIGKILL", scene.run(), "dead")
    note("the answer to the request", scene.taken(1), "ENOENT", "descriptor-before-signal", 3)


def close_on_exec(scene: Scene, note: Note) -> None:
    name = scene.received_call()
    for number, flags, number_flags in ((3, 0, os.O_CLOEXEC), (4, 0, 0), (2, SET_NUMBER, os.O_CLOEXEC), (3, SET_NUMBER, 0), (4, SET_NUMBER, os.O_CLOEXEC)):
        scene.add(name, flags, number=number if flags else 0, number_flags=number_flags, worker=1)
        scene.run()
        note(f"ADDFD with flags {flags} and newfd_flags {number_flags:o} is installed at", scene.taken(1), number)
        note("its close-on-exec mark", scene.close_on_exec(number), number_flags)


def closed(bench: Bench, note: Note, killable: bool) -> None:
    for received in (True, False):
        scene = Scene(bench, killable)
        scene.received_call() if received else scene.call()
        scene.stage.broker.own_call(CALLS["close"], LISTENER)
        note(f"the listener is closed, the call {'was' if received else 'was not'} received: it returns", scene.run(), "open", "listener-closed", "ENOSYS")
    note("a notified call after that", scene.tasks.outcome(scene.task, scene.call()), "open", "listener-closed", "ENOSYS")
    scene = Scene(bench, killable)
    scene.handler(10, 2)
    scene.call()
    scene.signal(10)
    note("a signal before the RECV: the call returns", scene.run(), "EINTR")
    note("RECV then", scene.receive(), "ENOENT")
    note("RECV again", scene.receive(), "waits")


def stopped(scene: Scene, note: Note, there: Tuple[object, object]) -> None:
    """A caller that is stopped and goes on. `there` has Linux's answers."""
    name = scene.received_call()
    for number in (signal.SIGSTOP, signal.SIGCONT):
        scene.signal(number)
        scene.run()
    note("ID_VALID after SIGSTOP and SIGCONT", scene.valid(name), 0, "stopped-calls", there[0])
    note("RECV then", scene.receive(), "waits", "stopped-calls", there[1])


def interrupted(bench: Bench, note: Note) -> None:
    """Signals to a call that was received, of a listener that isn't killable."""
    scene = Scene(bench)
    scene.handler(10, 2)
    name = scene.received_call()
    scene.signal(10)
    note("ID_VALID with a signal pending", scene.valid(name), "0")
    note("SEND with a signal pending", scene.send(name, 9), "0")
    note("the call returns", scene.run(), "9")
    scene.task.leave_handler()
    scene.task.settle()
    name = scene.received_call()
    scene.signal(10)
    note("ADDFD with a signal pending", scene.add(name, 0, worker=1), "waits")
    note("the call returns", scene.run(), "EINTR")
    note("the answer to the request", scene.taken(1), "ENOENT", "descriptor-before-signal", 3)
    stopped(Scene(bench), note, ("ENOENT", 0))
    for mode, handler in ((2, "plain"), (1, "restarting")):
        for error in (512, 513, 514, 516):
            scene = Scene(bench)
            scene.handler(10, mode)
            scene.send(scene.received_call(), 0, -error)
            scene.signal(10)
            note(f"SEND of error -{error}, then a signal with a {handler} handler: the call returns", scene.run(), f"E{error}", "restart-errors", "restarts" if error == 513 or (mode, error) == (1, 512) else "EINTR")
            time.sleep(PAUSE)
