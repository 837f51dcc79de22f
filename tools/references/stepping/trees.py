"""The container's tree: nodes, attributes and mounts, and how paths are walked over it (docs/KERNEL.md; path_resolution(7))."""
from __future__ import annotations

from typing import Any, List, Optional, Tuple

from tools.references.stepping.facts import Fail, major_of, minor_of
from tools.references.stepping.rules import Mknod, Mount, SetXattr, kind_of
from tools.references.stepping.scripts import Node

EPERM, ENOENT, EBADF, EEXIST, ENOTDIR, EINVAL, ENAMETOOLONG, ENOSYS, ELOOP, ENODATA = 1, 2, 9, 17, 20, 22, 36, 38, 40, 61
MOST_LINKS, MOST_NAME = 40, 255
CREATE_FLAG, REPLACE_FLAG, ATTRIBUTE_FLAGS = 1, 2, 3


class Walk(Exception):
    """A walk that ends with an error."""

    def __init__(self, number: int) -> None:
        super().__init__(number)
        self.fail = Fail(number)


def parts_of(path: bytes) -> List[bytes]:
    return [part for part in path.split(b"/") if part]


class Tree:
    """Nodes by their numbers, of which 0 is `/`."""

    def __init__(self, container):
        self.nodes = list(container.nodes)
        self.entries = {(node.directory, node.name): at for at, node in enumerate(self.nodes) if at}
        self.attributes = dict(container.attributes)
        self.root = container.root
        # the root of the newest mount on a node, and the node that a mount's root covers
        self.mounted, self.covered = {}, {}

    def is_directory(self, node: int) -> bool:
        return self.nodes[node].kind == "dir"

    # ---- walks

    def top(self, node: int) -> int:
        """What is seen at a node."""
        while node in self.mounted:
            node = self.mounted[node]
        return node

    def up(self, node: int) -> int:
        """What `..` leads to."""
        while node != self.root:
            if self.nodes[node].directory is not None:
                return self.nodes[node].directory
            node = self.covered[node]
        return node

    def walk(self, path: bytes, base: Optional[int], creates: bool) -> Any:
        """The node to which a path leads; or the directory and the name of a new node. Raises Walk."""
        if not path:
            raise Walk(ENOENT)
        at = self.root if path.startswith(b"/") else base
        if at is None:
            raise Walk(EBADF)
        parts, links = parts_of(path)[::-1], 0
        while parts:
            part = parts.pop()
            self.test_component(at, part)
            if creates and not parts:
                if part in (b".", b".."):
                    raise Walk(EEXIST)
                return at, part
            found = at if part == b"." else self.up(at) if part == b".." else self.entries.get((at, part))
            if found is None:
                raise Walk(ENOENT)
            if part in (b".", b".."):
                at = found
            elif self.nodes[found].kind == "link":
                links += 1
                if links > MOST_LINKS:
                    raise Walk(ELOOP)
                target = self.nodes[found].target
                at = self.root if target.startswith(b"/") else at
                parts += parts_of(target)[::-1]
            else:
                at = self.top(found)
        if creates:
            raise Walk(EEXIST)
        return at

    def test_component(self, at: int, part: bytes) -> None:
        if not self.is_directory(at):
            raise Walk(ENOTDIR)
        if len(part) > MOST_NAME:
            raise Walk(ENAMETOOLONG)

    # ---- changes. Each answers None where it is done, and else the error

    def done(self, request: Any, base: Optional[int]) -> Any:
        """Does what a request asks for."""
        change = {Mknod: self.make, Mount: self.mount, SetXattr: self.set_attribute}[type(request)]
        try:
            return change(request, base)
        except Walk as error:
            return error.fail

    def make(self, request, base):
        kind = kind_of(request.mode)
        if kind in ("dir", "bad"):
            return Fail(EPERM if kind == "dir" else EINVAL)
        place = self.new_place(request.path, base)
        low = request.device % 2**32
        self.add(*place, kind, (major_of(low), minor_of(low)) if kind in ("chr", "blk") else None)
        return None

    def new_place(self, path: bytes, base: Optional[int]) -> Any:
        place = self.walk(path, base, creates=True)
        if place in self.entries:
            raise Walk(EEXIST)
        return place

    def add(self, directory: int, name: bytes, kind: str, device: Optional[Tuple[int, ...]]) -> None:
        self.entries[directory, name] = len(self.nodes)
        self.nodes.append(Node(directory, name, kind, device, None))

    def mount(self, request, base):
        if not request.fstype:
            return Fail(EINVAL)
        node = self.walk(request.target, base, creates=False)
        if not self.is_directory(node):
            return Fail(ENOTDIR)
        self.mounted[node], self.covered[len(self.nodes)] = len(self.nodes), node
        self.nodes.append(Node(None, b"", "dir", None, None))
        return None

    def set_attribute(self, request: SetXattr, base: Optional[int]) -> Optional[Fail]:
        if request.flags & ~ATTRIBUTE_FLAGS:
            return Fail(EINVAL)
        key = (self.walk(request.path, base, creates=False), request.name)
        if key in self.attributes and request.flags & CREATE_FLAG:
            return Fail(EEXIST)
        if key not in self.attributes and request.flags & REPLACE_FLAG:
            return Fail(ENODATA)
        self.attributes[key] = request.value
        return None
