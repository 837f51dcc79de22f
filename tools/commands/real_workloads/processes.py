"""The processes of a trace: which call made each, and to which of them each item of the trace belongs.

strace prints a new process's first lines before or behind the return of the call that made it. A call is known by the number that it returned.
Where that is a number of another namespace and strace didn't translate it, the oldest call counts whose child is still looked for.
"""
from __future__ import annotations

from dataclasses import dataclass, field
from typing import Any, List, Set

from tools.commands.real_workloads.strace_text import Call, Text, Unreadable, field as field_of, number, text_or_address

MAKERS = {"clone", "clone3", "fork", "vfork"}
SHARES_MEMORY, SHARES_FILES = 0x100, 0x400


@dataclass(eq=False)
class Process:
    pid: int
    first_line: int
    made_by: object = None  # the call that made it, or None where the trace doesn't have it
    parent: object = None
    programs: list = field(default_factory=list)  # what it executed
    ended_at: int | None = None  # the line
    signals: list = field(default_factory=list)  # the lines and numbers of those that it got
    children: int = 0

    @property
    def is_thread(self):
        return self.made_by is not None and flags_of(self.made_by) & (SHARES_MEMORY | SHARES_FILES) == SHARES_MEMORY | SHARES_FILES


def flags_of(call: Call) -> int:
    if call.name not in ("clone", "clone3"):
        return 0
    try:
        return number(field_of(call.text, "flags") or "0")
    except Unreadable:
        return 0


class Processes:
    """Goes through the items of a trace, and says of each which process it is of."""

    def __init__(self, items):
        self.alive, self.all, self.of_item = {}, [], []
        self.children = {}  # the processes by the calls that made them
        self.open = []  # calls that made processes which haven't been seen, oldest first
        self.pids = {item.of.pid for item in items}
        self.callers = {}  # the processes of the calls that were begun
        for item in items:
            self.take(item)

    def take(self, item: Any) -> None:
        process = self.callers.get(id(item.of)) or self.alive.get(item.of.pid) or self.birth(item)
        self.of_item.append(process)
        if item.what == "superseded":
            self.alive[item.of.pid] = self.alive.pop(item.of.by, process)
            process.ended_at = item.line
        elif item.what == "ended":
            self.alive.pop(item.of.pid, None)
            process.ended_at = item.line
            process.signals.append((item.line, item.of.signal))
        elif item.what == "signal":
            process.signals.append((item.line, item.of.number))
        else:
            self.take_call(item.what, item.of, process)

    def take_call(self, what: str, call: Any, process: Any) -> None:
        if what == "begin":
            self.callers[id(call)] = process
        if what != "end" and call.name in MAKERS and call.answer.is_good and call.answer.value > 0:
            self.open.append((call, process))
        if what != "begin" and call.name == "execve" and call.answer.is_good:
            process.programs.append(program_of(call))

    def birth(self, item: Any) -> Any:
        """The process of an item with a number that nobody has."""
        process = Process(item.of.pid, item.line)
        found = next((it for it in self.open if it[0].answer.pid == item.of.pid), None)
        if found is None:
            found = next((it for it in self.open if it[0].answer.pid not in self.pids), None)
        if found is not None:
            self.open.remove(found)
            process.made_by, process.parent = found
            self.children[id(found[0])] = process
        self.alive[item.of.pid] = process
        self.all.append(process)
        return process


def program_of(call: Call) -> str:
    """The words that a process executed, as far as they can be read."""
    try:
        text = text_or_address(call.arguments[0])
    except (Unreadable, IndexError):
        return "?"
    return text.content.decode("ascii", "backslashreplace") if isinstance(text, Text) else "?"


def descendants(processes: List[Process], pids: Set[int]) -> Set[Process]:
    """The processes with these numbers, and all that they made."""
    found = {it for it in processes if it.pid in pids}
    for process in processes:
        if process.parent in found:
            found.add(process)
    return found
