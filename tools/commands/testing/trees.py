"""The tree of a container: what its lines state, and the directories and files without which its calls would tell only that these are missing."""
from __future__ import annotations

from typing import TYPE_CHECKING

from tools.commands.messages.script_words import NODES
from tools.commands.real_workloads.script_text import quoted
from tools.commands.real_workloads.tree import place, text_of
from tools.commands.testing.calls import NEEDS_DIRECTORY

if TYPE_CHECKING:
    from tools.commands.testing.calls import Call


class Tree:
    """The lines of a tree, each behind that of its directory, with the line of the test file that states it, if one does."""

    def __init__(self):
        self.lines, self.kinds, self.root = [], {(): "dir"}, ()

    def state(self, line, script_line):
        """Adds what a setting states, as the script has it."""
        path = place((), line.rest[0].content) if line.rest else ()
        if line.first.text in NODES:
            self.make_directories(path[:-1])
            self.kinds[path] = line.first.text
        elif line.first.text == "root":
            self.make_directories(path)
            self.root = path
        elif line.first.text == "attr" and path not in self.kinds:
            self.make(path, "reg")
        self.lines.append((script_line, line))

    def need(self, call: Call) -> None:
        """Adds what a call needs and no line states."""
        if call.path is None or not call.path:
            return
        path = self.root + place((), call.path)
        self.make_directories(path[:-1])
        if call.need and path not in self.kinds:
            self.make(path, call.need)

    def make_directories(self, path):
        for length in range(1, len(path) + 1):
            if self.kinds.get(path[:length], NEEDS_DIRECTORY) != NEEDS_DIRECTORY:
                return
            if path[:length] not in self.kinds:
                self.make(path[:length], NEEDS_DIRECTORY)

    def make(self, path, kind):
        """Adds a node, unless what is above it is no directory, or its name can't be one of a tree."""
        is_name = all(0 < len(name) <= 255 for name in path) and len(text_of(path)) < 4096
        if path and is_name and self.kinds.get(path[:-1]) == NEEDS_DIRECTORY or len(path) == 1 and is_name:
            self.kinds[path] = kind
            self.lines.append((f"{kind} {quoted(text_of(path))}", None))
