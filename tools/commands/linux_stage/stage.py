"""The machine as a script states it: the host's tree, the container's root, its first task under the script's filters, and the workers.

All of it stands in a process and mount namespace of its own, on one processor. The process that plays has a higher priority than
tasks that aren't let run, and a lower one than those that are.
"""
from __future__ import annotations

import ctypes
import mmap
import os
import resource
import signal
import struct
import time
from typing import Callable, Dict, List, Set, Tuple

from tools.commands.linux_stage import machine, script_text
from tools.commands.linux_stage.machine import KINDS, CannotMap, Stop, mount
from tools.commands.linux_stage.stand_in import FIRST_WORKER, MAILBOX, SLOTS, Order, StandIn, Task, Worker
from tools.commands.real_workloads import bpf
from tools.commands.real_workloads.script_text import CALLS, FIRST_ADDRESS, FIRST_PAGES
from tools.references.stepping.scripts import Node

# descriptors of the broker that no script's number reaches
PROC, LISTENER, FIRST_OF_WORKERS = 1100, 1101, 1200
MAILBOXES, PROGRAM, KEPT = 2000, 2001, 2010
# changing owners, going past modes and owners of files, sending signals, changing ids, setting capabilities of files: a container's root has
# more, but no call of a script needs more, and the calls that a script makes by their numbers are done for real
RIGHTS = sum(1 << capability for capability in (*range(8), 31))
CLONE_VM, CLONE_FILES = 0x100, 0x400
THREAD = CLONE_VM | CLONE_FILES
FILTER_TEXT, CAPABILITIES = 8192, 4112
OWN_NOTIFIED = 0x0FFFFFFF  # the number of no call
SIGNALS = (signal.SIGUSR1, signal.SIGUSR2, signal.SIGTERM)


def make_node(path: bytes, node: Node) -> None:
    if node.kind == "dir":
        os.mkdir(path, 0o777)
    elif node.kind == "link":
        os.symlink(node.target, path)
    else:
        os.mknod(path, KINDS[node.kind] | 0o666, os.makedev(*node.device) if node.device else 0)


def coded(word: str, value: int, then: int, otherwise: int) -> bpf.Instruction:
    """An instruction of a script's filter as the kernel takes it."""
    return bpf.Instruction(bpf.WORDS[word], then, otherwise, value)


class Stage:
    """`settings` is what the script states. `as_init` says that the first task is the first process of a PID namespace of its own: PID 1 there."""

    def __init__(self, settings, program, room, processor, as_init=False):
        self.settings, self.program, self.room, self.processor, self.as_init = settings, program, room, processor, as_init
        self.tasks, self.workers = {}, {}
        self.slots = 0
        self.first_id = 0x1234567  # of the script's first notification

    def build(self, workers: Set[int]) -> None:
        os.sched_setaffinity(0, {self.processor})
        self.make_file_systems()
        self.make_tree()
        self.make_mailboxes()
        self.make_broker()
        for number in sorted(workers):
            self.worker(number)
        if not self.as_init:
            self.limit_process_numbers(self.settings.pidbase)

    def make_file_systems(self) -> None:
        top = f"{self.room}/stage"
        mount("none", "/", None, 0x4000 | 0x40000)  # all that follows is mounted here alone
        mount("none", top, "tmpfs", 0, "mode=777,size=200m")
        self.host, self.proc = f"{top}/host", f"{top}/proc"
        os.mkdir(self.host)
        os.mkdir(self.proc)
        mount("none", self.host, "tmpfs", 0, "mode=777,size=100m,nr_inodes=20000")
        mount("proc", self.proc, "proc")
        mount("proc", "/proc", "proc")
        os.umask(0)

    def make_tree(self) -> None:
        paths = [self.host.encode()]
        for node in self.settings.nodes[1:]:
            paths.append(b"/".join([paths[node.directory], node.name]))
            make_node(paths[-1], node)
        for (node, name), value in self.settings.attributes.items():
            os.setxattr(paths[node], name, value, follow_symlinks=False)
        self.root = paths[self.settings.root]

    def make_mailboxes(self) -> None:
        self.boxes_file = os.memfd_create("mailboxes", 0)
        os.ftruncate(self.boxes_file, MAILBOX * SLOTS)
        self.boxes = mmap.mmap(self.boxes_file, MAILBOX * SLOTS)
        self.address = ctypes.addressof(ctypes.c_char.from_buffer(self.boxes))

    def limit_process_numbers(self, last: int) -> None:
        """Limits the numbers of the namespace that the calling process is in, and says which one was given last."""
        highest = max(script_text.FIRST_FREE_PID + 1, self.settings.pidbase + self.settings.pidmax + 1)
        for name, value in (("pid_max", highest), ("ns_last_pid", last)):
            with open(f"/proc/sys/kernel/{name}", "w") as file:
                file.write(str(value))

    # ---- numbers of processes: those of the script, and those that this process and the workers have for them

    def is_init(self, task: Task) -> bool:
        return self.as_init and task.name == "0"

    def own_number(self, number: int) -> int:
        """This process's number for the process that has a number of the script, or one that nobody has."""
        if not self.as_init and number >= script_text.FIRST_FREE_PID:
            return number
        return next((task.pid for task in reversed(self.tasks.values()) if task.number == number and not task.reaped), 0)

    def number_of(self, pid: int) -> int:
        """The script's number for a process, by this process's number for it."""
        return next((task.number for task in self.tasks.values() if task.pid == pid), pid)

    # ---- processes

    def launch(self, stand_in: StandIn, openings: Dict[int, Callable[[], int]]) -> None:
        """Starts a stand-in in the container's root. `openings` makes its descriptors, by number."""
        is_init = self.as_init and stand_in.slot < FIRST_WORKER
        if is_init:
            machine.unshare(machine.NEW_PIDS)
        pid = os.fork()
        if pid == 0:
            try:
                if is_init:
                    self.limit_process_numbers(1)
                self.become(stand_in, openings)
            finally:
                os._exit(98)
        stand_in.started(pid, 1 if is_init else pid)
        machine.run_first(pid)
        end = time.monotonic() + 2
        while "futex" not in stand_in.waits_in():
            if stand_in.is_dead() or time.monotonic() > end:
                raise Stop(f"{stand_in.name} doesn't start: {stand_in.waits_in()}")
        if stand_in.slot < FIRST_WORKER:
            machine.stand_still(pid)

    def become(self, stand_in: StandIn, openings: Dict[int, Callable[[], int]]) -> None:
        machine.run_first(0)
        for each in SIGNALS:
            signal.signal(each, signal.SIG_DFL)
        program = os.open(self.program, os.O_PATH)
        resource.setrlimit(resource.RLIMIT_NOFILE, (4096, 4096))
        os.dup2(self.boxes_file, MAILBOXES)
        os.dup2(program, PROGRAM, inheritable=False)
        kept = [(number, os.dup2(opening(), KEPT + at)) for at, (number, opening) in enumerate(openings.items())]
        os.chroot(self.root)
        os.chdir("/")
        os.closerange(0, MAILBOXES)
        for number, descriptor in kept:
            os.dup2(descriptor, number)
            os.close(descriptor)
        os.dup2(MAILBOXES, 3)
        os.close(MAILBOXES)
        no_environment: Dict[str, str] = {}
        os.execve(PROGRAM, ["stand_in", str(stand_in.slot)], no_environment)

    def make_broker(self) -> None:
        """Worker 0 is the process of the broker, with its descriptors; the others are its threads."""
        self.broker = self.workers[0] = Worker(self.boxes, self.address, 0)
        self.launch(self.broker, {PROC: lambda: os.open(self.proc, os.O_PATH)})
        self.prepare_to_leave(self.broker)
        for number in self.settings.broker:
            self.open_at(number)

    def open_at(self, number: int) -> None:
        made = self.broker.own_call(machine.MEMFD_CREATE, self.broker.put(b"descriptor\0"), 0)
        if made == number:
            return
        if self.broker.own_call(machine.DUP2, made, number) != number:
            raise Stop(f"descriptor {number} of the broker")
        self.broker.own_call(CALLS["close"], made)

    def worker(self, number: int) -> Worker:
        if number not in self.workers:
            worker = self.workers[number] = Worker(self.boxes, self.address, number)
            self.broker.order(Order.START, THREAD | signal.SIGCHLD, worker.slot)
            self.broker.settle()
            if self.broker.result() < 0:
                raise Stop(f"worker {number}: {machine.answer(self.broker.result())}")
            worker.started(self.broker.result())
            machine.run_first(worker.pid)
            self.prepare_to_leave(worker)
        return self.workers[number]

    def prepare_to_leave(self, worker: Worker) -> None:
        """A receive that waits is left by a signal whose handler doesn't restart it."""
        worker.order(Order.HANDLE, machine.SIGUSR2, 2)
        worker.settle()

    def task(self, name: str) -> Task:
        """A stand-in for a new task, which isn't started."""
        if self.slots >= FIRST_WORKER:
            raise Stop("more tasks than are compared")
        task = Task(self.boxes, self.address, self.slots, name)
        self.slots += 1
        return task

    # ---- the first task

    def first_task(self) -> Task:
        task = self.task("0")
        self.launch(task, dict.fromkeys((0, 1, 2), lambda: os.open("/dev/null", os.O_RDWR)))
        self.tasks["0"] = task
        self.code = task.addresses()
        self.call_address = self.code.script_call_after
        for address, pages in self.settings.ranges or [(FIRST_ADDRESS, FIRST_PAGES)]:
            got = task.own_call(machine.MMAP, address, pages * 4096, 3, 0x100032, -1, 0)
            if got != address:
                raise CannotMap(address + pages * 4096, -got)
        resource.prlimit(task.pid, resource.RLIMIT_CORE, (0, 0))
        for instructions, listens in self.settings.filters:
            self.install_filter(task, instructions, listens)
        if script_text.has_listener(self.settings):
            self.first_id = self.own_id(task) + 1
        self.drop_capabilities(task)
        resource.prlimit(task.pid, resource.RLIMIT_NOFILE, (self.settings.rlimit, self.settings.rlimit))
        task.hold_in_handlers()
        return task

    def install_filter(self, task: Task, instructions: List[Tuple[str, int, int, int]], listens: bool) -> None:
        """Installs a filter behind instructions that allow the stand-in's own calls, but for one that they notify, and gives its listener to the broker."""
        low, high = self.code.own_call_after & 0xFFFFFFFF, self.code.own_call_after >> 32
        notify = [("ld", 0, 0, 0), ("jeq", OWN_NOTIFIED, 0, 1), ("ret", bpf.NOTIFY, 0, 0)] if listens else []
        left = len(notify) + 1
        own = [("ld", 12, 0, 0), ("jeq", high, 0, left + 2), ("ld", 8, 0, 0), ("jeq", low, 0, left), *notify, ("ret", bpf.ALLOW, 0, 0), ("ldi", 0, 0, 0)]
        program = [coded(*instruction) for instruction in [*own, *instructions]]
        text = task.put(bpf.to_bytes(program), FILTER_TEXT)
        flags = (machine.NEW_LISTENER | (machine.WAIT_KILLABLE if self.settings.killable else 0)) if listens else 0
        listener = task.own_call(machine.SECCOMP, 1, flags, task.put(struct.pack("<HxxxxxxQ", len(program), text)))
        if listener < 0:
            raise Stop(f"filter: {machine.answer(listener)}")
        if listens:
            self.take_listener(task, listener)

    def own_id(self, task: Task) -> int:
        """The id of a notified call of the stand-in's own. The ids behind it are those of the script's calls."""
        task.order(Order.OWN_CALL, OWN_NOTIFIED)
        task.settle()
        self.broker.own_call(machine.IOCTL, LISTENER, machine.RECEIVE, self.broker.put(bytes(machine.NOTIFICATION.size)))
        found = self.broker.get(machine.ID.size)
        self.broker.own_call(machine.IOCTL, LISTENER, machine.SEND, self.broker.put(found.ljust(machine.REPLY.size, b"\0")))
        task.settle()
        return machine.ID.unpack(found)[0]

    def take_listener(self, task: Task, listener: int) -> None:
        held = self.broker.own_call(machine.PIDFD_OPEN, task.pid, 0)
        taken = self.broker.own_call(machine.PIDFD_GETFD, held, listener, 0)
        if self.broker.own_call(machine.DUP2, taken, LISTENER) != LISTENER:
            raise Stop("the listener can't be taken")
        self.broker.own_call(CALLS["close"], taken)
        self.broker.own_call(CALLS["close"], held)
        task.own_call(CALLS["close"], listener)

    def drop_capabilities(self, task: Task) -> None:
        """A container's root without the rights to mount and to make devices."""
        sets = task.put(struct.pack("<6I", RIGHTS, RIGHTS, 0, 0, 0, 0), CAPABILITIES)
        if task.own_call(machine.CAPSET, task.put(struct.pack("<II", 0x20080522, 0)), sets) != 0:
            raise Stop("the rights of the first task can't be dropped")
