"""The events of workers, done by stand-ins and compared: each is a call on the listener, on the caller's memory, or in its tree."""
from __future__ import annotations

import os
from dataclasses import dataclass
from typing import Any, List, Optional

from tools.commands.linux_stage import machine
from tools.commands.linux_stage.journal import HANDS, Event
from tools.commands.linux_stage.known import OTHER_ACTS, mount_flags
from tools.commands.linux_stage.machine import ADD_DESCRIPTOR, AND_SEND, CONTINUE, ID, ID_VALID, IOCTL, KINDS, NOTIFICATION, RECEIVE, REPLY, REQUEST, SEND, answer
from tools.commands.linux_stage.script_text import has_listener
from tools.commands.linux_stage.stage import FIRST_OF_WORKERS, LISTENER, PROC
from tools.commands.linux_stage.stand_in import SECOND_TEXT, THIRD_TEXT, Order, Worker
from tools.commands.real_workloads.bpf import X86_64
from tools.commands.real_workloads.script_text import CALLS, tokens
from tools.references.stepping.kernel import SYSINFO_SIZE
from tools.references.stepping.reports import asked_text

F_DUPFD = 0
NO_BASE = 999999


@dataclass
class Request:
    """A request for a descriptor that Linux has queued: the stand-in that waits for it, and the call's id as the journal says it."""

    hand: Worker
    id: int
    sends: bool
    is_installed: bool = False


class WorkerEvents:
    def __init__(self, play):
        self.play, self.stage = play, play.stage
        self.same, self.differs = play.same, play.differs

    def take(self, event: Event) -> None:
        worker = self.stage.worker(int(event.actor[1:]))
        what = event.what.replace("-", "_")
        fields = self.request_fields(event) if what == "act" else event.fields
        getattr(self, f"do_{what}")(worker, *fields)

    def request_fields(self, event: Event) -> List[Any]:
        """Texts of a request may have blanks."""
        words = tokens(event.line)
        return words[words.index("act") + 1:]

    # ---- the listener

    def ioctl(self, worker: Worker, number: int, data: bytes) -> str:
        """Makes a request to the listener, whose number has the size of its structure."""
        worker.put(data.ljust(number >> 16 & 0x3FFF, b"\0"))
        worker.order(Order.OWN_CALL, IOCTL, LISTENER, number, worker.put(b""))
        return worker.settle(0.005)

    def leave_receive(self, worker: Worker) -> None:
        machine.libc.kill(worker.pid, machine.SIGUSR2)
        worker.settle()

    def do_skip(self, worker: Worker) -> None:
        if worker.request:
            hand = worker.request.hand
            self.same("take", answer(hand.result()) if hand.is_idle() else "waits", "waits")
        elif has_listener(self.stage.settings):
            self.compare_waiting(worker)

    def compare_waiting(self, worker: Worker) -> None:
        """A worker that has nothing to receive waits in the receive."""
        if self.ioctl(worker, RECEIVE, b"") == "idle":
            self.differs("receive", "a notification" if worker.result() == 0 else answer(worker.result()), "waits")
            return
        self.leave_receive(worker)
        self.same("receive that waits", answer(worker.result()), "EINTR")

    def do_recv(self, worker: Worker, came: str, pid: Optional[str] = None) -> None:
        if self.ioctl(worker, RECEIVE, b"") != "idle":
            self.leave_receive(worker)
            self.differs("receive", "waits", came)
        result = worker.result()
        if pid is None:
            self.same("receive", answer(result), came)
            return
        if result:
            self.differs("receive", answer(result), came)
        self.compare_notification(worker, int(came.removeprefix("id=")), pid)

    def compare_notification(self, worker: Worker, stated: int, pid: str) -> None:
        got_id, got_pid, flags, number, architecture, _, *arguments = NOTIFICATION.unpack(worker.get(NOTIFICATION.size))
        self.same("id", got_id, self.play.real_id(stated))
        got_pid = self.stage.number_of(got_pid)
        self.same("PID", f"pid={got_pid}", pid)
        entered = self.play.entered[stated]
        self.same("call of the notification", (number, arguments, got_pid, architecture, flags), (*entered, X86_64, 0))
        worker.caller, worker.notification = got_pid, stated

    def do_check(self, worker: Worker, stated: str, came: str) -> None:
        self.ioctl(worker, ID_VALID, ID.pack(self.play.real_id(int(stated))))
        self.same("check", "ok" if worker.result() == 0 else answer(worker.result()), came)

    def do_send(self, worker: Worker, stated: str, back: str, came: str) -> None:
        value, error, flags = 0, 0, 0
        if back == "continue":
            flags = CONTINUE
        elif back.lstrip("-").isdigit():
            value = int(back)
        else:
            error = -machine.error_number(back)
        self.ioctl(worker, SEND, REPLY.pack(self.play.real_id(int(stated)), value, error, flags))
        self.same("send", "ok" if worker.result() == 0 else answer(worker.result()), came)

    def do_addfd_put(self, worker: Worker, *fields: str) -> None:
        """The script's lines tell which flags a request has. The hand that makes it may have to wait."""
        *stated, came = fields
        asked, hand = self.play.step.put.asked, self.stage.worker(HANDS + worker.seat)
        self.same("fields of the request", " ".join(stated), asked_text(asked))
        data = REQUEST.pack(self.play.real_id(asked.id), asked.flags, asked.srcfd, asked.newfd, asked.newfd_flags)
        state = self.ioctl(hand, ADD_DESCRIPTOR, data)
        if state != "idle":
            worker.request = Request(hand, asked.id, bool(asked.flags & AND_SEND))
            self.play.requests.append(worker.request)
        self.same("request for a descriptor", "ok" if state != "idle" else answer(hand.result()), came)

    def do_addfd_take(self, worker: Worker, came: str) -> None:
        request, worker.request = worker.request, None
        hand = request.hand
        state = "idle" if hand.is_idle() else hand.settle()
        if state != "idle" and came == "ENOENT":  # the call left the list: the request waits until its task has run
            for task in self.stage.tasks.values():
                if task.notification == request.id and not task.is_dead():
                    task.settle()
            state = hand.settle()
        self.same("take of a descriptor", answer(hand.result()) if state == "idle" else "waits", came)

    def do_let_go(self, worker: Worker) -> None:
        for descriptor in (worker.memory, worker.base):
            if descriptor is not None:
                worker.own_call(CALLS["close"], descriptor)
        worker.memory = worker.base = worker.caller = worker.notification = None

    # ---- the caller's memory and its directories

    def open(self, worker: Worker, path: str, flags: int) -> int:
        return worker.own_call(CALLS["openat"], PROC, worker.put(path.encode() + b"\0"), flags, 0)

    def kept_high(self, worker: Worker, descriptor: int) -> int:
        """Below a number stand the descriptors of the script alone."""
        if descriptor < 0:
            return descriptor
        kept = worker.own_call(machine.FCNTL, descriptor, F_DUPFD, FIRST_OF_WORKERS)
        worker.own_call(CALLS["close"], descriptor)
        return kept

    def do_open_mem(self, worker: Worker, pid: str, came: str) -> None:
        opened = self.kept_high(worker, self.open(worker, f"{self.stage.own_number(int(pid))}/mem", os.O_RDWR))
        if opened >= 0:
            worker.memory = opened
        gone = opened in (-2, -3)
        self.same("opening of the memory", "ok" if opened >= 0 else "ESRCH" if gone else answer(opened), came)

    def do_open_base(self, worker: Worker, pid: str, number: str, came: str) -> None:
        pid = self.stage.own_number(int(pid))
        opened = self.open(worker, f"{pid}/root", os.O_PATH | os.O_DIRECTORY)
        gone = opened in (-2, -3, -13)
        if opened >= 0 and number != "-100":
            worker.own_call(CALLS["close"], opened)
            opened = self.open(worker, f"{pid}/fd/{number}", os.O_PATH | os.O_DIRECTORY)
        opened = self.kept_high(worker, opened)
        worker.base = opened if opened >= 0 else worker.base
        linux = "ok" if opened >= 0 else "ESRCH" if gone else "EBADF" if opened in (-2, -20) else answer(opened)
        self.same("opening of the base", linux, came)

    def do_read(self, worker: Worker, address: str, length: str, came: str) -> None:
        if worker.memory is None:
            self.same("read without a memory", "EFAULT", came)
            return
        result = worker.own_call(machine.PREAD, worker.memory, worker.put(b""), int(length), int(address))
        if result == 0 and length != "0":
            self.same("read", "end of file", came)
        elif self.is_fault(result, int(address)):
            self.same("read", "EFAULT", came)
        else:
            bytes_read = worker.get(max(result, 0)).rstrip(b"\0").hex() or "-" if result >= 0 else answer(result)
            self.same("read", bytes_read, came)

    def is_fault(self, result: int, address: int) -> bool:
        """/proc/PID/mem answers EIO where nothing is mapped, and EINVAL for the upper half of the addresses."""
        return result == -5 or result == -22 and address >= 2**63 - 200

    def do_plant(self, worker: Worker, address: str, came: str) -> None:
        if came == "EDQUOT":
            return  # the policy's own limit
        result = worker.own_call(machine.PWRITE, worker.memory, worker.put(self.play.step.written), SYSINFO_SIZE, int(address))
        fault = self.is_fault(result, int(address))
        linux = {SYSINFO_SIZE: "ok", 0: "end of file"}.get(result, "EFAULT" if fault else f"wrote {result}" if result >= 0 else answer(result))
        self.same("write", linux, came)

    # ---- effects

    def do_act(self, worker: Worker, *words: Any) -> None:
        *request, came = words
        if came == "EDQUOT":
            return  # the policy's own limit
        if request[0] in ("mount", "setxattr") and not self.goes_to_base(worker, request[2 if request[0] == "mount" else 1]):
            if came == "ok":
                self.differs(f"effect of {request[0]}", "no directory to begin at", came)
            return
        act = {"mknod": self.mknod, "mknodat": self.mknod, "mount": self.mount, "setxattr": self.setxattr}[request[0]]
        result = act(worker, request)
        linux = "ok" if result == 0 else answer(result)
        if linux == "ok" and request[0] == "mount" and mount_flags(int(request[4].removeprefix("flags="))) & OTHER_ACTS:
            linux = "nothing mounted"
        self.same(f"effect of {request[0]}", linux, came)

    def goes_to_base(self, worker: Worker, path: bytes) -> bool:
        """Goes to the directory from which a relative path is meant. Whether the effect can be tried: Linux has no such call without a directory."""
        if not path.startswith(b"/") and worker.base is not None:
            worker.own_call(machine.FCHDIR, worker.base)
        return path.startswith(b"/") or worker.base is not None

    def mknod(self, worker: Worker, request: List[Any]) -> int:
        path, kind, *numbers = request[1:] if request[0] == "mknod" else request[2:]
        base = worker.base
        if base is None:
            base = -100 if path.startswith(b"/") else NO_BASE
        made = os.makedev(*map(int, numbers[0].split(":"))) if numbers else 0
        return worker.own_call(CALLS["mknodat"], base, worker.put(path + b"\0"), KINDS[kind] | 0o666, made)

    def mount(self, worker: Worker, request: List[Any]) -> int:
        """Mounts an empty file system, whatever the type. Where the call has no type or an empty one, the mount has the same."""
        source, target, kind, flags = request[1:5]
        entered = self.play.entered.get(worker.notification)
        has_type = kind or entered is None or entered[1][2] != 0
        texts = (worker.put(source + b"\0"), worker.put(target + b"\0", SECOND_TEXT), worker.put(b"tmpfs\0" if kind else b"\0", THIRD_TEXT) if has_type else 0)
        return worker.own_call(CALLS["mount"], *texts, int(flags.removeprefix("flags=")), 0)

    def setxattr(self, worker: Worker, request: List[Any]) -> int:
        path, name, value, flags = request[1:5]
        value = b"" if value == "-" else bytes.fromhex(value)
        texts = (worker.put(path + b"\0"), worker.put(name + b"\0", SECOND_TEXT), worker.put(value, THIRD_TEXT))
        return worker.own_call(CALLS["setxattr"], *texts, len(value), int(flags.removeprefix("flags=")))
