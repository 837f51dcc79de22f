"""The simulated kernel (docs/KERNEL.md): its tasks, its listener, and what workers may ask it for. Each step is one event, or none where it can't be made."""
from __future__ import annotations

import struct
from dataclasses import dataclass, field
from functools import cached_property, partial
from typing import TYPE_CHECKING, Any, Dict, List, Optional, Tuple, Union

from tools.commands.real_workloads.bpf import X86_64
from tools.references.stepping import filters
from tools.references.stepping.facts import AT_FDCWD, CALL_NAMES, CONTINUE, SEND, SETFD, Addfd, Event, Fail, Notif
from tools.references.stepping.memory import Group
from tools.references.stepping.rules import EFAULT, Mknod, Mount, OpenAt, SetXattr, base_of, kind_of, plan, request_of
from tools.references.stepping.trees import EBADF, ENOENT, ENOSYS, EPERM, Tree, Walk

if TYPE_CHECKING:
    from tools.references.stepping.scripts import Instruction

ESRCH, ECHILD, EAGAIN, EBUSY, EMFILE, EINPROGRESS, EDQUOT = 3, 10, 11, 16, 24, 115, 122
SIGKILL, SIGNALS = 9, (9, 10, 12, 15)
MOST_DESCRIPTORS = 1_048_576
SYSINFO_SIZE = 112
SYSINFO = struct.Struct("<10QH6xQQI4x")
IDS = 2**64


@dataclass(eq=False)
class Request:
    """A request for a descriptor: the call for which it was put, and the number that was installed, or why none was."""

    call: "Call"
    asked: object
    answer: object = None


@dataclass(eq=False)
class Call:
    """A listed call: whether it was received, how it will return, and the requests for descriptors that aren't installed."""

    id: int
    task: "Task"
    number: int
    args: tuple
    is_listed: bool = True
    is_fetched: bool = False
    back: object = None
    queue: list = field(default_factory=list)

    @property
    def is_waiting(self) -> bool:
        return self.is_fetched and not self.is_answered

    @property
    def is_answered(self) -> bool:
        return self.back is not None or any(request.asked.flags & SEND for request in self.queue)


@dataclass(eq=False)
class Task:
    name: tuple
    pid: int
    parent: Optional["Task"]
    group: Group
    program: list
    handlers: dict
    at: int = 0
    started: int = 0
    children: dict = field(default_factory=dict)
    pending: set = field(default_factory=set)
    call: Optional[Call] = None
    entered: Optional[tuple] = None
    owes: bool = False
    has_ended: bool = False
    was_waited_for: bool = False

    @cached_property
    def actor(self) -> str:
        return "t" + ".".join(map(str, self.name))

    @property
    def is_reaped(self) -> bool:
        return self.was_waited_for or (self.has_ended and (self.parent is None or self.parent.has_ended))

    def is_fatal(self, signal: int) -> bool:
        return signal == SIGKILL or self.handlers.get(signal, "default") == "default"


@dataclass(eq=False)
class Worker:
    """What the kernel keeps of a worker."""

    memory: Optional[Group] = None
    base: Optional[int] = None
    request: Optional[Request] = None


class Kernel:
    def __init__(self, container):
        self.container, self.tree = container, Tree(container)
        self.events, self.calls = [], []
        self.entered_calls, self.received = 0, 0
        self.is_closed = False
        self.holders, self.last_pid = {}, container.pidbase
        self.workers = {}
        group = Group(container.pages)
        self.tasks = {}
        self.make_task((0,), container.pidbase + 1, None, group, container.programs[-1], {})
        self.note("-", "spawn", (0,), (container.pidbase + 1, "new"))

    def note(self, actor: str, kind: str, *facts: Any) -> Event:
        """Adds an event, and gives it."""
        self.events.append(Event(actor, kind, facts))
        return self.events[-1]

    # ---- tasks

    def make_task(self, name: Tuple[int, ...], pid: int, parent: Optional[Task], group: Group, program: List[Instruction], handlers: Dict[Any, Any]) -> Task:
        task = Task(name, pid, parent, group, program, handlers)
        self.tasks[name] = self.holders[pid] = task
        self.last_pid = pid
        return task

    def holder(self, pid: int) -> Optional[Task]:
        """The task that has a PID, or None."""
        task = self.holders.get(pid)
        return None if task is None or task.is_reaped else task

    def next_pid(self) -> Optional[int]:
        """The first free PID behind the last one given, in a circle; None where none is free."""
        first, count = self.container.pidbase + 1, self.container.pidmax
        begin = self.last_pid + 1 - first
        return next((first + (begin + at) % count for at in range(count) if self.holder(first + (begin + at) % count) is None), None)

    def step_of(self, task):
        """What a task's step does; None where it can't step."""
        if task.has_ended:
            return None
        if task.call is not None and task.call.back is not None:
            return partial(self.resume, task)
        if task.owes:
            return partial(self.run_natively, task)
        signal = self.due_signal(task)
        if signal is not None:
            return partial(self.deliver, task, signal)
        if task.call is not None:
            return partial(self.install, task) if task.call.queue else None
        if task.at >= len(task.program):
            return partial(self.exit, task)
        instruction = task.program[task.at]
        if instruction.word == "wait" and not self.may_wait(task):
            return None
        return partial(INSTRUCTIONS[instruction.word], self, task, *instruction.operands)

    def step(self, task: Any) -> Any:
        """Makes a task's step; None where it can't step."""
        step = self.step_of(task)
        return step() if step else None

    def able(self) -> List[Task]:
        """The tasks that can step, in the order in which they were made."""
        return [task for task in self.tasks.values() if self.step_of(task)]

    def due_signal(self, task: Task) -> Optional[int]:
        """The signal that is delivered next: SIGKILL first, and then the lowest."""
        if not task.pending:
            return None
        held = self.container.killable and task.call is not None and task.call.is_fetched
        return next((signal for signal in SIGNALS if signal in task.pending and (not held or task.is_fatal(signal))), None)

    def resume(self, task: Any) -> Any:
        call = task.call
        self.unlist(call)
        task.owes = call.back == CONTINUE
        return self.note(task.actor, "resume", call.back)

    def unlist(self, call: Any) -> None:
        call.is_listed = False
        call.task.call = None
        self.calls.remove(call)

    def deliver(self, task: Task, signal: int) -> Event:
        task.pending.discard(signal)
        mode = "end" if task.is_fatal(signal) else task.handlers[signal]
        effect = mode if mode == "end" else "run" if task.call is None else "restart" if mode == "restart" else "eintr"
        if task.call is not None:
            self.unlist(task.call)
        if effect == "restart":
            task.at -= 1
        task.has_ended = effect == "end"
        return self.note(task.actor, "deliver", signal, effect)

    def install(self, task: Any) -> Any:
        request = task.call.queue.pop(0)
        request.answer = self.place_for(task.group, request.asked)
        if not isinstance(request.answer, Fail):
            task.group.slots[request.answer] = ("broker", request.asked.srcfd)
            if request.asked.flags & SEND:
                task.call.back = request.answer
        return self.note(task.actor, "install", request.answer)

    def place_for(self, group: Group, asked: Addfd) -> Union[Fail, int]:
        """The number at which a request is installed, or why it isn't."""
        if not asked.flags & SETFD:
            free = group.lowest_free(self.container.rlimit)
            return Fail(EBADF) if free is None else free
        if asked.newfd >= MOST_DESCRIPTORS:
            return Fail(EMFILE)
        return Fail(EBADF) if asked.newfd >= self.container.rlimit else asked.newfd

    # ---- instructions

    def exit(self, task: Task) -> Event:
        task.has_ended = True
        return self.note(task.actor, "exit")

    def poke(self, task: Task, address: int, content: bytes) -> Event:
        task.at += 1
        task.group.write(address, content)
        return self.note(task.actor, "poke", address, content)

    def set_handler(self, task: Task, signal: int, mode: str) -> Event:
        task.at += 1
        task.handlers[signal] = mode
        return self.note(task.actor, "handler", signal, mode)

    def enter(self, task: Task, number: int, args: Tuple[int, int, int, int, int, int]) -> Event:
        task.at += 1
        task.entered = (number, args)
        verdict = filters.verdict(self.container.filters, number, args)
        if verdict[0] == "notify":
            call = Call((self.container.firstid + self.entered_calls) % IDS, task, number, args)
            self.entered_calls += 1
            task.call = call
            self.calls.append(call)
            verdict = ("notify", call.id)
        task.owes = verdict[0] in ("allow", "log")
        task.has_ended = verdict[0] == "kill"
        return self.note(task.actor, "call", number, args, verdict)

    def start(self, task: Task, program: int, shares: bool) -> Event:
        task.at += 1
        task.started += 1
        name, pid = (*task.name, task.started), self.next_pid()
        if pid is None:
            return self.note(task.actor, "spawn", name, Fail(EAGAIN))
        group = task.group if shares else task.group.copied()
        task.children[task.started] = self.make_task(name, pid, task, group, self.container.programs[program], dict(task.handlers))
        return self.note(task.actor, "spawn", name, (pid, "share" if shares else "copy"))

    def send_signal(self, task: Task, whom: str, number: Optional[int], signal: int) -> Event:
        task.at += 1
        pid = self.addressed(task, whom, number)
        receiver = self.holder(pid)
        if receiver is not None:
            receiver.pending.add(signal)
        return self.note(task.actor, "kill", pid, signal, Fail(ESRCH) if receiver is None else None)

    def addressed(self, task, whom, number):
        """The PID for which a signal is meant; 0, which nobody has, where no such task was made."""
        if whom == "pid":
            return number
        meant = {"self": task, "parent": task.parent, "child": task.children.get(number)}[whom]
        return 0 if meant is None else meant.pid

    def may_wait(self, task: Task) -> bool:
        """Whether a wait has something to tell: a child that has ended, or that there is none."""
        left = [child for child in task.children.values() if not child.is_reaped]
        return not left or any(child.has_ended for child in left)

    def wait(self, task: Task) -> Event:
        task.at += 1
        ended = next((child for child in task.children.values() if child.has_ended and not child.is_reaped), None)
        if ended is None:
            return self.note(task.actor, "wait", Fail(ECHILD))
        ended.was_waited_for = True
        return self.note(task.actor, "wait", ended.name)

    # ---- native calls

    def run_natively(self, task: Any) -> Any:
        task.owes = False
        return self.note(task.actor, "native", self.native(task, *task.entered))

    def native(self, task, number, args):
        """What a call without rights answers; it does it."""
        name, group = CALL_NAMES.get(number), task.group
        if name == "close":
            return 0 if group.slots.pop(args[0] % 2**32, None) else Fail(EBADF)
        if name == "getpid":
            return task.pid
        if name == "sysinfo":
            if not group.is_mapped(args[0], SYSINFO_SIZE):
                return Fail(EFAULT)
            group.write(args[0], self.host_sysinfo())
            return 0
        if base_of(number, args) is None:
            return Fail(ENOSYS)
        texts = []
        for part in plan(number, args):
            texts.append(group.copy(part))
            if isinstance(texts[-1], Fail):
                return texts[-1]
        return self.request_natively(group, request_of(number, args, texts), self.directory(group, base_of(number, args)))

    def request_natively(self, group: Any, request: Any, base: Optional[int]) -> Any:
        if isinstance(request, OpenAt):
            return self.open_natively(group, request, base)
        if isinstance(request, Mount):
            return Fail(EPERM)
        if isinstance(request, Mknod) and kind_of(request.mode) in ("chr", "blk"):
            return self.make_device_natively(request, base)
        if isinstance(request, SetXattr) and not request.flags & ~3 and not request.name.startswith(b"user."):
            return Fail(EPERM)
        answer = self.tree.done(request, base)
        return 0 if answer is None else answer

    def make_device_natively(self, request, base):
        """A device answers EPERM once the tests of the tree have passed."""
        try:
            self.tree.new_place(request.path, base)
        except Walk as error:
            return error.fail
        return Fail(EPERM)

    def open_natively(self, group: Group, request: OpenAt, base: Optional[int]) -> Union[Fail, int]:
        try:
            node = self.tree.walk(request.path, base, creates=False)
        except Walk as error:
            return error.fail
        free = group.lowest_free(self.container.rlimit)
        if free is None:
            return Fail(EMFILE)
        group.slots[free] = ("node", node)
        return free

    def directory(self, group: Group, dirfd: int) -> Optional[int]:
        """The directory that a descriptor leads to, or None."""
        if dirfd == AT_FDCWD:
            return self.container.root
        slot = group.slots.get(dirfd)
        return slot[1] if slot and slot[0] == "node" and self.tree.is_directory(slot[1]) else None

    def sysinfo(self, memory: int, swap: int) -> bytes:
        """The structure for these limits."""
        uptime, used, shared, buffers, swap_used, processes = self.container.figures
        return SYSINFO.pack(uptime, 0, 0, 0, memory, max(memory - used, 0), shared, buffers, swap, max(swap - swap_used, 0), processes, 0, 0, 1)

    def host_sysinfo(self) -> bytes:
        return self.sysinfo(*(self.container.limits or [(0, 0)])[0])

    def container_sysinfo(self) -> bytes:
        return self.sysinfo(*(min(limits) for limits in zip(*(self.container.limits or [(0, 0)]))))

    # ---- what workers ask for

    def worker(self, number: int) -> Worker:
        return self.workers.setdefault(number, Worker())

    def named(self, identifier):
        """The listed call with an id, or None."""
        return next((call for call in self.calls if call.id == identifier), None)

    def unfetched(self) -> Optional[Call]:
        """The oldest call that wasn't received, where a receive would give one."""
        return next((call for call in self.calls if not call.is_fetched), None)

    def receive(self, number):
        """None where the receive would wait."""
        if self.received == self.entered_calls:
            return None
        self.received += 1
        call = self.unfetched()
        if call is None:
            return self.note(f"w{number}", "recv", Fail(ENOENT))
        call.is_fetched = True
        return self.note(f"w{number}", "recv", Notif(call.id, call.task.pid, 0, call.number, X86_64, 0, call.args))

    def open_memory(self, number, pid):
        task = self.holder(pid)
        if task is None or task.has_ended:
            return self.note(f"w{number}", "open-mem", pid, Fail(ESRCH))
        self.worker(number).memory = task.group
        return self.note(f"w{number}", "open-mem", pid, None)

    def open_base(self, number: int, pid: int, dirfd: int) -> Any:
        task = self.holder(pid)
        if task is None or task.has_ended:
            return self.note(f"w{number}", "open-base", pid, dirfd, Fail(ESRCH))
        directory = self.directory(task.group, dirfd)
        if directory is None:
            return self.note(f"w{number}", "open-base", pid, dirfd, Fail(EBADF))
        self.worker(number).base = directory
        return self.note(f"w{number}", "open-base", pid, dirfd, None)

    def check(self, number, identifier):
        call = self.named(identifier)
        return self.note(f"w{number}", "check", identifier, None if call and call.is_waiting else Fail(ENOENT))

    def read(self, number, address, length):
        memory = self.worker(number).memory
        return self.note(f"w{number}", "read", address, length, memory.read(address, length) if memory else Fail(EFAULT))

    def act(self, number: int, request: Union[Mknod, Mount, SetXattr], is_spent: bool = False) -> Event:
        """Does it, unless its rule has granted as often as it may."""
        return self.note(f"w{number}", "act", request, Fail(EDQUOT) if is_spent else self.tree.done(request, self.worker(number).base))

    def plant(self, number, address, content, is_spent=False):
        memory = self.worker(number).memory
        if is_spent:
            return self.note(f"w{number}", "plant", address, content, Fail(EDQUOT))
        if not memory.is_mapped(address, len(content)):
            return self.note(f"w{number}", "plant", address, content, Fail(EFAULT))
        memory.write(address, content)
        return self.note(f"w{number}", "plant", address, content, None)

    def put(self, number: int, asked: Addfd) -> Event:
        return self.note(f"w{number}", "addfd-put", asked, self.put_answer(number, asked))

    def put_answer(self, number: int, asked: Addfd) -> Optional[Fail]:
        if asked.srcfd not in self.container.broker:
            return Fail(EBADF)
        call = self.named(asked.id)
        if call is None:
            return Fail(ENOENT)
        if not call.is_waiting:
            return Fail(EINPROGRESS)
        if asked.flags & SEND and call.queue:
            return Fail(EBUSY)
        self.worker(number).request = Request(call, asked)
        call.queue.append(self.worker(number).request)
        return None

    def take(self, number):
        """None where the request has no answer yet."""
        request = self.worker(number).request
        if request.answer is None and request.call.is_listed:
            return None
        self.worker(number).request = None
        return self.note(f"w{number}", "addfd-take", Fail(ENOENT) if request.answer is None else request.answer)

    def send(self, number, identifier, back):
        call = self.named(identifier)
        answer = Fail(ENOENT) if call is None else None if call.is_waiting else Fail(EINPROGRESS)
        if answer is None:
            call.back = back
        return self.note(f"w{number}", "send", identifier, back, answer)

    def let_go(self, number: int) -> Event:
        self.worker(number).memory = self.worker(number).base = None
        return self.note(f"w{number}", "let-go")

    def close(self) -> Event:
        """Closes the listener: no call is listed any more, and nothing follows."""
        self.is_closed = True
        return self.note("listener", "close")


INSTRUCTIONS = {
    "poke": Kernel.poke, "handler": Kernel.set_handler, "call": Kernel.enter, "kill": Kernel.send_signal, "wait": Kernel.wait, "exit": Kernel.exit,
    "spawn": partial(Kernel.start, shares=False), "thread": partial(Kernel.start, shares=True),
}
