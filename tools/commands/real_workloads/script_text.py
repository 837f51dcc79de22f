"""The words of a script: what can be called, the limits, and how texts are quoted and read again."""
from __future__ import annotations

import re
from typing import List, Union

CALLS = {"close": 3, "getpid": 39, "sysinfo": 99, "mknod": 133, "mount": 165, "setxattr": 188, "openat": 257, "mknodat": 259}
SIGNALS = {9, 10, 12, 15}
MOST_INSTRUCTIONS, MOST_CALLS, MOST_TASKS, MOST_DEPTH = 100_000, 20_000, 4_000, 64
MOST_NODES, MOST_STEPS, MOST_PAGES, MOST_FILTERS, MOST_BYTES = 10_000, 200_000, 64, 16, 8_388_608
FIRST_ADDRESS, PAGE, FIRST_PAGES, END_OF_ADDRESSES = 0x10000, 4096, 16, 2**47
PATH_LIMIT, NAME_LIMIT, VALUE_LIMIT, PIECE = 4096, 256, 4096, 256
TOKEN = re.compile(rb'"((?:[^"\\]|\\.)*)"|[^\s"]+')
ESCAPE = re.compile(rb"\\(?:x([0-9a-fA-F]{2})|(.))")
ESCAPES = {b"0": b"\0", b"n": b"\n"}


def printed(byte: int) -> str:
    if byte == 0:
        return "\\0"
    if byte in b'"\\':
        return "\\" + chr(byte)
    return chr(byte) if 0x20 <= byte <= 0x7E else f"\\x{byte:02x}"


def quoted(content: bytes) -> str:
    return '"' + "".join(map(printed, content)) + '"'


def unquoted(content: bytes) -> bytes:
    return ESCAPE.sub(lambda it: bytes([int(it[1], 16)]) if it[1] else ESCAPES.get(it[2], it[2]), content)


def tokens(line: str) -> List[Union[bytes, str]]:
    """The tokens of a line that the program takes: texts for bare ones, bytes for quoted ones."""
    return [it[0].decode() if it[1] is None else unquoted(it[1]) for it in TOKEN.finditer(line.encode("latin-1"))]
