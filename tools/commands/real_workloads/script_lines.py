"""Lines of a script that a traced call comes to."""
from __future__ import annotations

from typing import List

from tools.commands.real_workloads.script_text import PAGE, quoted
from tools.commands.real_workloads.strace_text import Call, Text, Unreadable, descriptor, field, text_or_address

LONGEST_SHOWN = 300
FIGURES = ("totalram", "freeram", "sharedram", "bufferram", "totalswap", "freeswap")


def shown(call: Call) -> str:
    """A call as it stands in a comment: its texts as they are, and no longer than a line should be."""
    parts = []
    for argument in call.arguments:
        try:
            value = text_or_address(argument) if argument.startswith('"') else None
        except Unreadable:
            value = None
        parts.append(quoted(value.content) + "..." * value.is_cut if isinstance(value, Text) else plain(argument))
    text = ", ".join(parts)
    return f"{call.name}({text if len(text) <= LONGEST_SHOWN else text[:LONGEST_SHOWN] + ' ..'}) = {call.answer}"


def plain(argument: str) -> str:
    """An argument that isn't quoted, in printable letters and without the path that strace puts behind a descriptor."""
    try:
        argument = str(descriptor(argument)[0]) if "<" in argument else argument
    except Unreadable:
        pass
    return "".join(it if " " <= it <= "~" else "?" for it in argument)


def stores(address: int, content: bytes, rest: int) -> List[str]:
    """The lines that store a text, and zeros for what strace didn't print of it."""
    known = [f"poke 0x{address:x} {quoted(content)}"] if content else []
    return known + ([f"fill 0x{address + len(content):x} {rest} 0"] if rest else [])


def figures(text):
    """The lines of a script for what sysinfo told."""
    try:
        unit = int(field(text, "mem_unit") or 1)
        total, free, shared, buffers, swap, free_swap = (int(field(text, it)) * unit for it in FIGURES)
        uptime, procs = int(field(text, "uptime")), int(field(text, "procs"))
    except (TypeError, ValueError):
        return []
    if max(total, free, shared, buffers, swap, free_swap, uptime) >= 2**64 or procs >= 2**16 or free > total or free_swap > swap:
        return []
    return [f"cgroup {total} {swap}", f"figures {uptime} {total - free} {shared} {buffers} {swap - free_swap} {procs}"]


def as_written(part: str, argument: int) -> str:
    """An argument as a script has it: addresses and flags in base 16, modes in base 8."""
    if part == "mode":
        return f"0o{argument:06o}"
    return f"0x{argument:x}" if argument >= PAGE else str(argument)
