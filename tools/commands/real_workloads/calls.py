"""The calls that a script has, as a trace shows them: their texts, their numbers, and what a worker reads of them."""
from __future__ import annotations

from dataclasses import dataclass, field
from typing import Optional

from tools.commands.real_workloads.script_text import END_OF_ADDRESSES, NAME_LIMIT, PATH_LIMIT, PIECE, VALUE_LIMIT
from tools.commands.real_workloads.strace_text import Call, Text, Unreadable, descriptor, number, text_or_address

# what each argument is, in the order of the call
PARTS = {
    "close": ("descriptor",), "getpid": (), "sysinfo": ("figures",),
    "mknod": ("path", "mode", "number"), "mknodat": ("directory", "path", "mode", "number"),
    "openat": ("directory", "path", "number", "mode"), "mount": ("path", "path", "type", "number", "data"),
    "setxattr": ("path", "name", "value", "number", "number"),
}
# arguments that strace leaves out where the call doesn't look at them
OPTIONAL = {"mknod": 1, "mknodat": 1, "openat": 1}
LIMITS = {"path": PATH_LIMIT, "type": PATH_LIMIT, "data": PATH_LIMIT, "name": NAME_LIMIT}
ENDED_BY_ZERO = {"path", "name", "type"}
HAS_BASE = {"mknod", "mknodat", "mount", "setxattr", "openat"}
CURRENT_DIRECTORY = -100
CLOSE_ON_EXEC = 0o2000000
CREATE, DIRECTORY = 0o100, 0o200000
REMOUNT, BIND, MOVE, PROPAGATION = 32, 4096, 8192, 0xF << 17
# file systems that a user namespace may mount (FS_USERNS_MOUNT of Linux)
OF_NAMESPACES = {b"tmpfs", b"proc", b"sysfs", b"devpts", b"mqueue", b"cgroup", b"cgroup2", b"overlay", b"ramfs", b"fuse", b"binfmt_misc", b"bpf"}


@dataclass
class Made:
    """A call as a script can make it."""

    name: str
    arguments: list  # numbers, and Texts where the script stores something
    parts: tuple
    directory: tuple | None = None  # the number and the path of a directory's descriptor
    is_cut: bool = False  # strace printed no more than the beginning of a text
    texts: dict = field(default_factory=dict)  # the Texts, by their arguments

    def number_of(self, at: int) -> int:
        return self.arguments[at] if at < len(self.arguments) else 0

    @property
    def path(self) -> Optional[bytes]:
        """The path that the call is about, or None where there is none that can be read."""
        at = {"mknod": 0, "mknodat": 1, "openat": 1, "mount": 1, "setxattr": 0}.get(self.name)
        text = self.texts.get(at)
        return text.content if text else None


def made(call: Call) -> Made:
    """The call of a script for one of a trace. Raises Unreadable where an argument isn't what it should be."""
    parts, arguments = PARTS[call.name], call.arguments
    if call.name == "sysinfo":
        return Made(call.name, [number(arguments[0])] if arguments and not arguments[0].startswith("{") else [], parts)
    if not len(parts) - OPTIONAL.get(call.name, 0) <= len(arguments) <= len(parts):
        raise Unreadable(f"{len(arguments)} arguments")
    found = Made(call.name, [], parts)
    for at, (part, argument) in enumerate(zip(parts, arguments)):
        found.arguments.append(value_of(found, at, part, argument))
    return found


def value_of(found, at, part, argument):
    """An argument's number, or its Text."""
    if part in ("descriptor", "directory"):
        value, path = descriptor(argument)
        if part == "directory":
            found.directory = (signed(value), path)
        return signed(value)
    if part in ("number", "mode"):
        return in_range(number(argument))
    value = text_or_address(argument)
    if isinstance(value, Text):
        if part in ENDED_BY_ZERO and b"\0" in value.content:
            raise Unreadable("a text with a zero byte in it")
        found.texts[at] = value
        found.is_cut = found.is_cut or value.is_cut and len(value.content) < LIMITS.get(part, VALUE_LIMIT) - 1
    return value


def in_range(value: int) -> int:
    if not -(2**63) <= value < 2**64:
        raise Unreadable(f"{value} is out of range")
    return value


def signed(value: int) -> int:
    """The low 32 bits, with their sign."""
    value &= 0xFFFFFFFF
    return value - 2**32 if value >= 2**31 else value


def stored(found: Made, at: int) -> bytes:
    """The bytes that the script stores for a text of the call."""
    part, text = found.parts[at], found.texts[at]
    if part == "value":
        return text.content[:VALUE_LIMIT]
    if text.is_cut and len(text.content) >= LIMITS[part] - 1:
        return text.content.ljust(LIMITS[part], b"a")[:LIMITS[part]]
    return (text.content + b"\0")[:LIMITS[part]]


def unknown_rest(found: Made, at: int) -> int:
    """How many bytes of a value a worker reads that strace didn't print."""
    size = found.number_of(3)
    return max(0, size - len(stored(found, at))) if found.parts[at] == "value" and size <= VALUE_LIMIT else 0


def pieces_of(found: Made, at: int) -> int:
    """How often a worker reads for an argument, if all can be read."""
    part, value = found.parts[at], found.arguments[at]
    if part == "value":
        return -(-found.number_of(3) // PIECE) if found.number_of(3) <= VALUE_LIMIT else 0
    if at in found.texts:
        return -(-len(stored(found, at)) // PIECE)
    return 1 if part in LIMITS and (value != 0 or part in ("path", "name")) else 0


def pieces(found: Made) -> int:
    return sum(pieces_of(found, at) for at in range(len(found.arguments)))


def unmapped(address: int) -> int:
    """An address that no script of these tools maps, for one that strace couldn't read."""
    return address % 2**64 if address == 0 or address % 2**64 >= END_OF_ADDRESSES // 2 else 1


def mount_of_namespace(found: Made) -> bool:
    """Whether a user namespace may make the mount, without a broker: of its file systems, or a change of one that is there."""
    kind = found.texts.get(2)
    return bool(found.number_of(3) & (REMOUNT | BIND | MOVE | PROPAGATION)) or bool(kind and kind.content.split(b".")[0] in OF_NAMESPACES)
