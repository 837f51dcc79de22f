"""The tree of a script, as far as a trace tells it.

What the calls of the script need of a path decides whether it is there from the start: as many of them as possible are to find what they
found. Where no call of the script says anything of a path, the first other call that does decides.
"""
from __future__ import annotations

import stat
from collections import defaultdict
from typing import Any, List, Optional, Set, Tuple

from tools.commands.real_workloads.finds import Finds
from tools.commands.real_workloads.script_text import MOST_NODES, quoted

LONGEST_PATH, LONGEST_NAME = 4095, 255
# what a call needs, and leaves: it was there, it wasn't, it wasn't and the call made it
THERE, MISSING, MADE = "there", "missing", "made"
KINDS = {stat.S_IFDIR: "dir", stat.S_IFREG: "reg", stat.S_IFIFO: "fifo", stat.S_IFSOCK: "sock", stat.S_IFCHR: "chr", stat.S_IFBLK: "blk"}


def place(base: Tuple[bytes, ...], path: bytes) -> Tuple[bytes, ...]:
    """Where a path leads from a directory, as names from the root. Links are not followed, since a trace doesn't tell them all."""
    names = [] if path.startswith(b"/") else list(base)
    for name in path.split(b"/"):
        if name == b"..":
            names = names[:-1]
        elif name not in (b"", b"."):
            names.append(name)
    return tuple(names)


def split_device(device: int) -> Tuple[int, ...]:
    return device >> 8 & 0xFFF, device & 0xFF | device >> 12 & 0xFFF00


def kind_of(mode: int, device: int) -> Optional[Tuple[Any, ...]]:
    """What `st_mode` and `st_rdev` say, as the words of a line."""
    word = KINDS.get(stat.S_IFMT(mode))
    return (word, *split_device(device)) if word in ("chr", "blk") else (word,) if word else None


def agreeing(facts: List[str], is_there: bool) -> int:
    """How many of the calls find what they found, where the path is there from the start, or isn't."""
    found = 0
    for fact in facts:
        found += is_there if fact == THERE else not is_there
        is_there = is_there or fact == MADE
    return found


class Tree:
    def __init__(self):
        self.needed, self.seen = defaultdict(list), {}
        self.kinds, self.attributes, self.set_by_calls, self.followed = {}, [], set(), set()
        self.holders = set()  # paths below which something was looked for
        self.loops = set()  # paths that lead nowhere, since they lead through a link to itself
        self.decided, self.left_out = {}, (0, 0)  # of those that are needed, and of the others
        self.finds = Finds()

    def say(self, path: Tuple[bytes, ...], fact: str, kind: Optional[Tuple[str, ...]] = None, by_script: bool = False) -> None:
        """Notes what a call says of a path, and with it of the directories in front."""
        if kind and fact != MISSING:
            self.kinds.setdefault(path, kind)
        if by_script:
            self.needed[path].append(fact)
            self.finds.note(path, fact)
        elif path not in self.seen:
            self.seen[path] = fact
        if path and fact != MISSING:
            self.say_directory(path[:-1], by_script)

    def say_directory(self, path: Tuple[bytes, ...], by_script: bool = False) -> None:
        if by_script or path not in self.seen:
            self.say(path, THERE, ("dir",), by_script)

    def is_directory(self, path):
        """Something was found in it, or it was found to be one."""
        self.kinds[path] = ("dir",)

    def attribute(self, path: Tuple[bytes, ...], name: bytes, was_there: bool) -> None:
        """A call of the script asks for an attribute to be there, or sets it."""
        if was_there and (path, name) not in self.set_by_calls:
            self.attributes.append((path, name))
        self.set_by_calls.add((path, name))

    def starts_with(self, path: Tuple[bytes, ...]) -> bool:
        """Whether the path is there from the start. It is asked when all is said."""
        if path not in self.decided:
            facts = self.needed.get(path)
            self.decided[path] = agreeing(facts, True) >= agreeing(facts, False) if facts else self.seen.get(path) == THERE
        return self.decided[path]

    def holds_all(self, path: Tuple[bytes, ...]) -> bool:
        """Whether nothing in front of the path is missing."""
        return all(self.starts_with(path[:length]) for length in range(1, len(path)))

    def links_to_themselves(self) -> Set[Tuple[bytes, bytes]]:
        """The shortest of the paths that lead nowhere, unless they lead somewhere at another time."""
        return {path for path in self.loops if path and path not in self.followed and self.writable(path)
                and not any(path[:length] in self.loops for length in range(1, len(path)))}

    def chosen(self):
        """The paths that are in the tree, each behind its directory: those first that a call of the script needs."""
        loops = self.links_to_themselves()
        for path in loops:
            self.kinds.setdefault(path, ("link", text_of(path)))
        wanted = {path for path in [*self.needed, *self.seen] if path and self.starts_with(path) and self.writable(path)} | loops
        needed = {path for path in wanted if path in self.needed} | loops
        paths = set()
        for path in [*sorted(needed), *sorted(wanted - needed)]:
            more = {path[:length] for length in range(1, len(path) + 1)} - paths
            if (path in needed or self.holds_all(path)) and len(paths) + len(more) + len(self.attributes) <= MOST_NODES:
                paths |= more
        self.left_out = len(needed - paths), len(wanted - needed - paths)
        return sorted(paths)

    @staticmethod
    def writable(path: Tuple[bytes, ...]) -> bool:
        return sum(map(len, path)) + len(path) <= LONGEST_PATH and all(len(name) <= LONGEST_NAME for name in path)

    def kind(self, path: Tuple[bytes, ...]) -> Tuple[str, ...]:
        """The words that state the node, but for its path. What was opened through a link is stated in the link's place."""
        kind = self.kinds.get(path) or (("dir",) if path in self.holders else ("reg",))
        return ("reg",) if kind[0] == "link" and path in self.followed else kind

    def lines(self):
        paths = self.chosen()
        there, parents = set(paths), {path[:-1] for path in paths}
        found, self.stated = [], {}
        for path in paths:
            word, *rest = self.stated[path] = ("dir",) if path in parents else self.kind(path)
            operands = [quoted(it) if isinstance(it, bytes) else str(it) for it in rest]
            found.append(" ".join([word, quoted(text_of(path)), *operands]))
        attributes = [key for key in self.attributes if key[0] in there]
        return found + [f'attr {quoted(text_of(path))} {quoted(name)} ""' for path, name in attributes]


def text_of(path: Tuple[bytes, ...]) -> bytes:
    return b"/" + b"/".join(path)
