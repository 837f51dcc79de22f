"""Filters that the kernel takes or refuses: each instruction with values at its edges, each code, and chains of filters."""
from __future__ import annotations

import ctypes
import itertools
import os
import struct
from typing import TYPE_CHECKING, Callable, Iterator, List, Tuple

from tools.commands.linux_stage import comparison, machine
from tools.commands.linux_stage.comparison import Bench
from tools.commands.real_workloads import bpf

if TYPE_CHECKING:
    from tools.commands.linux_stage.probes import Note, Notes

TEXT = "ret 0x7fff0000"
TAKE = (6, 0, 0, bpf.ALLOW)
# with the index register, scratch words, multiplication, division, and a return of the accumulator
LEFT_OUT = {0x01, 0x02, 0x03, 0x07, 0x0C, 0x16, 0x1C, 0x1D, 0x24, 0x2C, 0x2D, 0x34, 0x3C, 0x3D, 0x4C, 0x4D, 0x5C, 0x6C, 0x7C, 0x80, 0x81, 0x87, 0xAC}
OTHERS: List[List[str]] = [
    ["ret 0x30000"], ["ret 0x30001", TEXT], [], ["ldi 0"], ["ja 0"], [TEXT, "ldi 0"], ["jeq 0 0 0"], [TEXT, TEXT], ["ja 1", "ldi 4", TEXT],
    ["ldi 0"] * 4095 + [TEXT], ["ldi 0"] * 4096 + [TEXT],
]
# how many filters of how many instructions, and whether Linux takes them: it counts the instructions that it makes of these
CHAINS = ((16, 1, "ok"), (16, 2044, "ENOMEM"), (16, 2045, "ENOMEM"), (7, 4096, "ok"), (8, 4096, "ENOMEM"), (16, 4096, "ENOMEM"), (17, 1, "ok"))


def installed(filter_bytes: bytes) -> int:
    """Installs a filter on the calling process, and gives the error, or 0."""
    text = ctypes.create_string_buffer(filter_bytes, len(filter_bytes) + 8)
    head = ctypes.create_string_buffer(struct.pack("<HxxxxxxQ", len(filter_bytes) // 8, ctypes.addressof(text)))
    return ctypes.get_errno() if machine.libc.syscall(machine.SECCOMP, 1, 0, head) else 0


def apart(act: Callable[[], int]) -> int:
    """The exit status of an act in a process of its own; a negative one is the signal that ended it."""
    pid = os.fork()
    if pid == 0:
        status = 255
        try:
            status = act()
        finally:
            os._exit(status)
    return os.waitstatus_to_exitcode(os.waitpid(pid, 0)[1])


def taken(filter_bytes: bytes) -> str:
    """Whether the kernel takes the filter. One that it takes may end the process at its exit."""
    status = apart(lambda: installed(filter_bytes))
    return "ok" if status <= 0 else machine.error_name(status)


def run(bench: Bench, notes: Notes) -> None:
    machine.libc.prctl(38, 1, 0, 0, 0)
    texts(bench, lambda *probe: notes.take("filters, by text", *probe))
    codes(lambda *probe: notes.take("filters, by code", *probe))
    chains(bench, lambda *probe: notes.take("chains of filters", *probe))
    starts(lambda *probe: notes.take("what a filter sees", *probe))


# ---- by text

def texts(bench: Bench, note: Note) -> None:
    for lines in edges():
        instructions = map(bpf.instruction_of, map(str.split, lines))
        note(" ; ".join(lines)[:70], taken(bpf.to_bytes(instructions)), accepted(bench, [lines]), "action-trap" if "ret 0x3000" in " ".join(lines) else "", "ok")


def accepted(bench: Bench, filters: List[List[str]]) -> str:
    """Whether the program takes the filters."""
    blocks = ["\n".join(["filter", *lines, "end\n"]) for lines in filters]
    status, _, line = comparison.played(bench, b"{}", ("".join(blocks) + "prog main\nexit\nend\n").encode())
    return "ok" if status == 0 else "EINVAL" if "bad filter" in line else line


def edges() -> Iterator[List[str]]:
    for at in [*range(72), 128, 2**31, 2**32 - 4, 2**32 - 1]:
        yield [f"ld {at}", TEXT]
    for word, bits in itertools.product(("lsh", "rsh"), (0, 1, 31, 32, 33, 64, 255, 2**31, 2**32 - 1)):
        yield [f"{word} {bits}", TEXT]
    for word, value in itertools.product(("ldi", "add", "sub", "or", "and", "xor"), (0, 1, 2**31, 2**32 - 1)):
        yield [f"{word} {value}", TEXT]
    yield ["neg", TEXT]
    for far in (0, 1, 2, 3, 254, 255, 256, 2**31, 2**32 - 1):
        yield [f"ja {far}", "ldi 1", TEXT]
    for word, then, otherwise in itertools.product(("jeq", "jgt", "jge", "jset"), (0, 1, 2, 255), (0, 1, 2, 255)):
        yield [f"{word} 5 {then} {otherwise}", "ldi 1", TEXT]
    for behind in (2, 1):
        yield ["jeq 1 255 254", *["ldi 0"] * 254, *[TEXT] * behind]
    for value in (0, 0x80000000, 0x50000, 0x7FC00000, 0x7FF00000, 0x7FFC0000, 0x7FFF0000, 0x10000, 0x12345678, 0xFFFFFFFF):
        yield [f"ret {value}"]
    yield from OTHERS


# ---- by code, which no text can say

def codes(note: Note) -> None:
    for code in [*range(256), 0x100, 0x120, 0x1006, 0x8020, 0xFFFF]:
        came = taken(bpf.to_bytes([(code, 0, 0, 4), TAKE]))
        # with K 4 a plain jump leads behind the end
        expected = "ok" if code in bpf.NAMES and code != bpf.WORDS["ja"] else "EINVAL"
        note(f"code 0x{code:x} with K 4", came, expected, "filter-instructions" if code in LEFT_OUT else "", "ok")


# ---- chains

def chain(count: int, length: int) -> str:
    filter_bytes = bpf.to_bytes([(0, 0, 0, 0)] * (length - 1) + [TAKE])
    status = apart(lambda: next((error for error in (installed(filter_bytes) for _ in range(count)) if error), 0))
    return "ok" if status == 0 else machine.error_name(status)


def chains(bench: Bench, note: Note) -> None:
    for count, length, there in CHAINS:
        here = accepted(bench, [["ldi 0"] * (length - 1) + [TEXT]] * count)
        note(f"{count} filters of {length} instructions", chain(count, length), here, "filter-sizes", there)


# ---- what a filter starts with and sees

def ended_by(filter_bytes: bytes, number: int = 500) -> str:
    """What a call answers under a filter."""
    def act() -> int:
        if installed(filter_bytes):
            return 250
        return ctypes.get_errno() if machine.libc.syscall(number, 0) < 0 else 0

    status = apart(act)
    return f"signal {-status}" if status < 0 else machine.error_name(status) if status else "0"


def only(number: int, *instructions: Tuple[int, int, int, int]) -> bytes:
    """A filter that asks these of one call, and allows the others."""
    return bpf.to_bytes([(0x20, 0, 0, 0), (0x15, 1, 0, number), TAKE, *instructions])


def starts(note: Note) -> None:
    first, second = (6, 0, 0, 0x50001), (6, 0, 0, 0x50002)
    note("the accumulator is 0 at the start", ended_by(bpf.to_bytes([(0x15, 1, 0, 0), TAKE, (0x20, 0, 0, 0), (0x15, 1, 0, 500), TAKE, first])), "EPERM")
    for at, half in ((8, "low"), (12, "high")):
        note(f"the {half} half of the instruction pointer is 0", ended_by(only(500, (0x20, 0, 0, at), (0x15, 0, 1, 0), first, second)), "EPERM", "instruction-pointer", "ENOENT")
    for number in (335, 336):
        note(f"call {number} under a filter that ends its task", ended_by(only(number, (6, 0, 0, 0x80000000)), number), "signal 31", "calls-no-filter-sees", "signal 4" if number == 335 else "ENXIO")
    note("TRACE without a tracer", ended_by(only(500, (6, 0, 0, 0x7FF00000))), "ENOSYS")
    note("USER_NOTIF without a listener", ended_by(only(500, (6, 0, 0, 0x7FC00000))), "ENOSYS")
    note("TRAP", ended_by(only(500, (6, 0, 0, 0x30000))), "refused", "action-trap", "signal 31")
    for action in (0x10000, 0x60000, 0x7FFD0000, 0x90000000, 0xFFFF0000):
        note(f"the unknown action 0x{action:x}", ended_by(only(500, (6, 0, 0, action))), "signal 31")
