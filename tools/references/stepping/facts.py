"""The names and numbers of the system call interface, and how a report writes what a step came to."""
from __future__ import annotations

import errno
import re
from typing import Any, NamedTuple, Optional

from tools.commands.messages.policy_words import ERRORS
from tools.commands.real_workloads.script_text import CALLS

CALL_NAMES = {number: name for name, number in CALLS.items()}
ERROR_NAMES = {getattr(errno, name): name for name in ERRORS}
AT_FDCWD = -100
CONTINUE = "continue"
SETFD, SEND = 1, 2
O_CLOEXEC = 0o2000000
SHORT_NAME_BYTE = re.compile(rb"[a-z0-9._-]")


class Fail(NamedTuple):
    """An error, in the place of an answer."""

    number: int


class Notif(NamedTuple):
    """What a receive gives (struct seccomp_notif)."""

    id: int
    pid: int
    flags: int
    number: int
    arch: int
    ip: int
    args: tuple


class Addfd(NamedTuple):
    """A request for a descriptor (struct seccomp_notif_addfd)."""

    id: int
    flags: int
    srcfd: int
    newfd: int
    newfd_flags: int


class Event(NamedTuple):
    """A step: who took it, of which kind it is, and what belongs to that kind."""

    actor: str
    kind: str
    facts: tuple


def signed(number: int, bits: int) -> int:
    """The lower bits of a number, read with a sign."""
    number %= 1 << bits
    return number - (1 << bits) if number >> (bits - 1) else number


def major_of(device: int) -> int:
    return device // 256 % 4096


def minor_of(device: int) -> int:
    return device % 256 + device // 1048576 * 256


# ---- words of a report


def error_text(number: int) -> str:
    return ERROR_NAMES.get(number, f"E{number}")


def number_text(answer: Any) -> str:
    return error_text(answer.number) if isinstance(answer, Fail) else str(answer)


def result_text(answer: Optional[Fail]) -> str:
    return error_text(answer.number) if isinstance(answer, Fail) else "ok"


def call_text(number: int) -> str:
    return CALL_NAMES.get(number, str(number))


def quoted(content: bytes) -> str:
    return '"' + "".join("\\" + chr(byte) if byte in b'"\\' else chr(byte) if 0x20 <= byte <= 0x7E else f"\\x{byte:02x}" for byte in content) + '"'


def hex_or_dash(content: bytes) -> str:
    return content.hex() or "-"


def escaped(content: bytes) -> str:
    """The name of a file system or a program, of any bytes."""
    return "".join(chr(byte) if SHORT_NAME_BYTE.fullmatch(bytes([byte])) else f"\\x{byte:02x}" for byte in content)
