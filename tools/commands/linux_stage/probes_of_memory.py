"""Reads of a task's memory at odd addresses, wait(2) and signals, PIDs that run out, and what a container's root may mount."""
from __future__ import annotations

import ctypes
import os
from typing import TYPE_CHECKING, Any, Callable

from tools.commands.linux_stage import apart, machine
from tools.commands.linux_stage.machine import answer
from tools.commands.linux_stage.probes_of_listeners import SETTINGS, Scene
from tools.commands.linux_stage.script_text import FIRST_FREE_PID
from tools.commands.linux_stage.stage import PROC
from tools.commands.linux_stage.stand_in import Order
from tools.commands.real_workloads.script_text import CALLS

if TYPE_CHECKING:
    from tools.commands.linux_stage.comparison import Bench
    from tools.commands.linux_stage.probes import Note, Notes

START, END, TEXT = 0x1F000, 0x20000, b"abcdefgh" * 600
GREATEST_PID = 320
READS = ((0x1FFF0, 16), (0x1FFF0, 17), (0x1FFF0, 256), (0x1FFFF, 256), (0x1FF00, 256), (0x1F000, 4096), (0x1F000, 65535))


def run(bench: Bench, notes: Notes) -> None:
    def note(*probe: Any) -> None:
        notes.take("memory and wait", *probe)

    reads(Scene(bench), note)
    for mode, name in ((2, "plain"), (1, "restarting")):
        note(f"a signal with a {name} handler during wait(2)", signalled_wait(Scene(bench, settings=SETTINGS), mode), "waits", "wait-interrupted", "EINTR")
    note(f"the PID behind {GREATEST_PID}, the greatest, where no base is stated", apart.in_namespaces(number_given_again), 2, "process-numbers", FIRST_FREE_PID)
    for what, act in MOUNTS.items():
        note(f"{what} by the root of a user namespace", in_user_namespace(act), "EPERM", "user-namespace", 0)


def reads(scene: Scene, note: Note) -> None:
    scene.task.put(TEXT)
    scene.task.order(Order.STORE, START, END - START)
    scene.task.settle()
    worker = scene.stage.workers[0]
    memory = worker.own_call(CALLS["openat"], PROC, worker.put(b"%d/mem\0" % scene.task.pid), 2, 0)

    def read(address: int, length: int) -> Any:
        result = worker.own_call(machine.PREAD, memory, worker.put(b""), length, address)
        return worker.get(result) if result > 0 else answer(result)

    for address, length in READS:
        expected = TEXT[address - START:][:min(length, END - address)]
        got = read(address, length)
        note(f"read of {length} bytes at 0x{address:x}: how many", len(got), len(expected))
        note(f"read of {length} bytes at 0x{address:x}: the right ones", got == expected, True)
    for address in (END, 0, 0xFFFF, 2**47 - 1, 2**47, 2**63, 2**64 - 1):
        note(f"read at 0x{address:x}, where nothing is mapped", read(address, 16), "EFAULT", "memory-errors", "EINVAL" if address >= 2**63 else "EIO")
    nobody = worker.own_call(CALLS["openat"], PROC, worker.put(b"999/mem\0"), 2, 0)
    note("opening of the memory of nobody", answer(nobody), "ESRCH", "memory-errors", "ENOENT")


def signalled_wait(scene: Scene, mode: int) -> str:
    """What wait(2) answers when a signal with a handler of this mode comes."""
    scene.handler(10, mode)
    scene.task.order(Order.START, 17, scene.stage.task("0.1").slot)
    scene.task.settle()
    scene.task.order(Order.OWN_CALL, machine.WAIT4, -1, 0, 0, 0)
    scene.task.settle(0.01)
    scene.signal(10)
    scene.task.settle(0.01)
    scene.task.leave_handler()
    return answer(scene.task.result()) if scene.task.settle(0.01) == "idle" else "waits"


def number_given_again() -> int:
    """The first PID that a namespace gives again, to children that are each reaped before the next is made."""
    with open("/proc/sys/kernel/pid_max", "w") as file:
        file.write(str(GREATEST_PID + 1))
    last = os.getpid()
    while True:
        pid = os.fork()
        if pid == 0:
            os._exit(0)
        os.waitpid(pid, 0)
        if pid < last:
            return pid
        last = pid


def mounted(kind: str, flags: int = 0, source: str = "none") -> str:
    result = machine.libc.mount(source.encode(), b"/mnt", kind.encode(), ctypes.c_ulong(flags), None)
    return "0" if result == 0 else machine.error_name(ctypes.get_errno())


MOUNTS = {
    "tmpfs": lambda: mounted("tmpfs"), "proc": lambda: mounted("proc"), "sysfs": lambda: mounted("sysfs"), "ramfs": lambda: mounted("ramfs"),
    "mqueue": lambda: mounted("mqueue"), "devpts": lambda: mounted("devpts"), "a bind mount": lambda: mounted("none", 0x5000, "/tmp"),
}


def in_user_namespace(act: Callable[[], Any]) -> Any:
    """What an act answers to the root of a user namespace that has the other namespaces as its own."""
    def as_root() -> Any:
        machine.unshare(machine.NEW_USERS)
        for name, text in (("uid_map", "0 0 1"), ("setgroups", "deny"), ("gid_map", "0 0 1")):
            with open(f"/proc/self/{name}", "w") as file:
                file.write(text)
        return apart.in_namespaces(act)

    return apart.in_process(as_root)
