"""The container's tree, as a script states it and a report tells its changes; and which effects of workers a later one took from sight.

tools/commands/explored.py asks for these. Paths are walked as path_resolution(7) has it, from the container's root; those that go from another
directory aren't told.
"""
from __future__ import annotations

import re
from typing import Any, Dict, List, Optional, Tuple

MOST_LINKS = 40
NODES = {"dir", "reg", "fifo", "sock", "chr", "blk", "link"}
# what mknod(2) makes without rights, by the four bits S_IFMT of its mode
NATIVE_KINDS = {0o00: "reg", 0o10: "reg", 0o01: "fifo", 0o14: "sock"}
AT_FDCWD = -100


def unquoted(token: str) -> bytes:
    """The bytes of a quoted token."""
    escapes = {b"\\0": b"\0", b"\\n": b"\n", b"\\\\": b"\\", b'\\"': b'"'}
    raw = token.encode("latin-1")[1:-1]
    return re.sub(rb"\\(?:x[0-9a-fA-F]{2}|.)", lambda found: escapes.get(found[0]) or bytes([int(found[0][2:], 16)]), raw)


def tokens(text: str) -> List[str]:
    """The tokens of a line; a quoted one keeps its quotes."""
    return re.findall(r'"(?:[^"\\]|\\.)*"|\S+', text)


class Tree:
    """Nodes, of each its parent, its name and its kind; the values of their attributes; and the mounts, each as target and root."""

    def __init__(self, script: bytes) -> None:
        self.nodes: List[Tuple[Optional[int], bytes, str, Optional[bytes]]] = [(None, b"/", "dir", None)]
        self.attrs: Dict[Tuple[int, bytes], bytes] = {}
        self.mounts: List[Any] = []
        self.root = 0
        # the newest node of each directory and name
        self.entries: Dict[Any, int] = {}
        for line in script.decode("latin-1").splitlines():
            words = tokens(line)
            if words[:1] == ["prog"]:
                break
            if words and words[0] in NODES:
                directory, _, name = unquoted(words[1]).rpartition(b"/")
                self.make(self.stated(directory), name, words[0], unquoted(words[2]) if words[0] == "link" else None)
            elif words[:1] == ["attr"]:
                self.attrs[self.stated(unquoted(words[1])), unquoted(words[2])] = unquoted(words[3])
            elif words[:1] == ["root"]:
                self.root = self.stated(unquoted(words[1]))

    def stated(self, path: bytes) -> int:
        """The node of a path of a setting, which leads through directories alone."""
        at = 0
        for name in filter(None, path.split(b"/")):
            at = self.entry(at, name)
        return at

    def make(self, parent: Optional[int], name: bytes, kind: str, target: Optional[bytes] = None) -> int:
        self.nodes.append((parent, name, kind, target))
        self.entries[parent, name] = len(self.nodes) - 1
        return len(self.nodes) - 1

    def entry(self, directory: int, name: bytes) -> Any:
        return self.entries.get((directory, name))

    def mounted_on(self, node: int) -> Optional[int]:
        """The root of the newest mount on a node."""
        return next((root for target, root in reversed(self.mounts) if target == node), None)

    def top(self, node: int) -> int:
        """What is seen at a node."""
        while (root := self.mounted_on(node)) is not None:
            node = root
        return node

    def up(self, node: int) -> int:
        """What `..` leads to."""
        while node != self.root:
            parent = self.nodes[node][0]
            if parent is not None:
                return parent
            covered = next((target for target, root in self.mounts if root == node), None)
            if covered is None:
                return node
            node = covered
        return node

    def walked(self, path: bytes, creates: bool = False) -> Any:
        """The node to which a path leads, or with `creates` the directory and the name of a new one; None where it leads nowhere."""
        parts, at, links = [part for part in path.split(b"/") if part], self.root, 0
        if not path:
            return None
        while parts:
            part = parts.pop(0)
            if self.nodes[at][2] != "dir" or len(part) > 255:
                return None
            if creates and not parts:
                return None if part in (b".", b"..") else (at, part)
            found = at if part == b"." else self.up(at) if part == b".." else self.entry(at, part)
            if found is None:
                return None
            if part in (b".", b"..") or self.nodes[found][2] != "link":
                at = found if part in (b".", b"..") else self.top(found)
                continue
            links += 1
            if links > MOST_LINKS:
                return None
            target = self.nodes[found][3]
            at = self.root if target.startswith(b"/") else at
            parts = [part for part in target.split(b"/") if part] + parts
        return None if creates else at

    # ---- effects

    def mknod(self, path: bytes, kind: str) -> None:
        place = self.walked(path, creates=True)
        if place is not None:
            parent, name = place
            self.make(parent, name, kind)

    def mount(self, target: bytes) -> int:
        """Mounts on the directory at a path, and gives the root."""
        directory = self.walked(target)
        root = self.make(None, b"", "dir")
        self.mounts.append((directory, root))
        return root

    def setxattr(self, path: bytes, name: bytes, value: bytes) -> int:
        """Sets an attribute of the node at a path, and gives the node."""
        node = self.walked(path)
        self.attrs[node, name] = value
        return node


class Memory:
    """The bytes that tasks have stored: those of threads are one."""

    def __init__(self) -> None:
        self.groups: Dict[str, Dict[int, int]] = {"t0": {}}

    def spawned(self, parent: str, child: str, kind: str) -> None:
        self.groups[child] = self.groups[parent] if kind == "shared" else dict(self.groups[parent])

    def poke(self, actor: str, address: int, stored: bytes) -> None:
        self.groups[actor].update({address + at: byte for at, byte in enumerate(stored)})

    def read(self, actor: str, address: int, length: int) -> bytes:
        return bytes(self.groups[actor].get(address + at, 0) for at in range(length))

    def text(self, actor: str, address: int) -> bytes:
        return self.read(actor, address, 4096).partition(b"\0")[0]


def is_told(dirfd: int, path: bytes) -> bool:
    """Whether a path goes from the container's root."""
    return path.startswith(b"/") or dirfd == AT_FDCWD


def natively(tree: Tree, memory: Memory, actor: str, call: List[str]) -> None:
    """What a call without rights changed, where it ended well."""
    name, *numbers = call[:-1]
    at = [int(number) % 2**64 for number in numbers]
    if name in ("mknod", "mknodat"):
        dirfd, address, mode = (AT_FDCWD, *at[:2]) if name == "mknod" else (at[0] - 2**64 if at[0] >> 63 else at[0], *at[1:3])
        path = memory.text(actor, address)
        if is_told(dirfd, path) and (mode >> 12) % 16 in NATIVE_KINDS:
            tree.mknod(path, NATIVE_KINDS[(mode >> 12) % 16])
    elif name == "setxattr":
        tree.setxattr(memory.text(actor, at[0]), memory.text(actor, at[1]), memory.read(actor, at[2], at[3]))


def acted(tree: Any, words: Any) -> Any:
    """What a worker's request changed, which was done; and how to tell at the end whether it is out of sight, if it may be."""
    if words[0] in ("mknod", "mknodat"):
        dirfd = int(words[1]) if words[0] == "mknodat" else AT_FDCWD
        text, kind = words[-3:-1] if ":" in words[-1] else words[-2:]
        if is_told(dirfd, unquoted(text)):
            tree.mknod(unquoted(text), kind)
    elif words[0] == "mount":
        root = tree.mount(unquoted(words[2]))
        return lambda: " covered" if tree.mounted_on(root) is not None else ""
    elif words[0] == "setxattr":
        path, name = unquoted(words[1]), unquoted(words[2])
        value = b"" if words[3] == "-" else bytes.fromhex(words[3])
        node = tree.setxattr(path, name, value)
        return lambda: " replaced" if tree.attrs[node, name] != value else ""
    return None


def fates(script: bytes, events: Any) -> Any:
    """What became of the effects of a report's events, by their places: ` covered` or ` replaced` where a later one took them from sight."""
    tree, memory, calls, kept = Tree(script), Memory(), {}, {}
    for place, (actor, words) in enumerate(events):
        words = tokens(words)
        if words[0] == "spawn" and words[2].startswith("pid=") and actor != "-":
            memory.spawned(actor, "t" + words[1], words[3])
        elif words[0] == "poke":
            memory.poke(actor, int(words[1]), bytes.fromhex(words[2]) if words[2] != "-" else b"")
        elif words[0] == "call":
            calls[actor] = words[1:-1] if words[-1].startswith("id=") else words[1:]
        elif words[0] == "native" and re.fullmatch(r"\d+", words[1]):
            natively(tree, memory, actor, calls[actor])
        elif words[0] == "act" and words[-1] == "ok":
            kept[place] = acted(tree, words[1:-1])
    return {place: fate() for place, fate in kept.items() if fate is not None}
