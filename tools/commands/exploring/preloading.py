"""Whether a library can be preloaded into the program that a command starts (ld.so(8), LD_PRELOAD), which is told before the first run."""
from __future__ import annotations

import os
import platform
import re
import shlex
import shutil
import struct
from typing import List, NamedTuple, Optional

MOST_HEAD, MOST_INTERPRETERS, MOST_SCANNED = 4_096, 4, 1 << 26
ELF, SCRIPT, GO = b"\x7fELF", b"#!", b"Go buildinf:"
# elf(5): the class of 64 bits, the segment that names the dynamic loader, and the machines by their names
CLASS_64, PT_INTERP = 2, 3
MACHINES = {"x86_64": 62, "aarch64": 183}
SET_ID, CAPABILITIES = 0o6000, "security.capability"
ASSIGNMENT = re.compile(r"[A-Za-z_]\w*=")
# the options of env(1) behind which a word of theirs stands
WITH_OPERAND = ("-u", "--unset", "-C", "--chdir")
CLIENT = "let it use the client for its language (docs/YOUR_BROKER.md, By a client)"


class Elf(NamedTuple):
    """What the head of a program says: whether it is for this machine, and the path of its dynamic loader, or None."""

    is_native: bool
    loader: Optional[str]


def elf_of(head: bytes) -> Elf:
    is_native = head[4] == CLASS_64 and struct.unpack_from("<H", head, 18)[0] == MACHINES.get(platform.machine())
    if head[4] != CLASS_64:
        return Elf(False, None)
    begin, size, count = struct.unpack_from("<Q", head, 32)[0], *struct.unpack_from("<HH", head, 54)
    for at in range(begin, begin + size * count, size or 1):
        if at + 40 <= len(head) and struct.unpack_from("<I", head, at)[0] == PT_INTERP:
            place, length = struct.unpack_from("<Q", head, at + 8)[0], struct.unpack_from("<Q", head, at + 32)[0]
            return Elf(is_native, os.fsdecode(head[place:place + length].rstrip(b"\0")))
    return Elf(is_native, None)


def behind_env(words: List[str]) -> List[str]:
    """The command that env(1) starts; empty where it starts none."""
    left = list(words)
    while left:
        word = left.pop(0)
        if word in ("-S", "--split-string"):
            left = shlex.split(left[0]) + left[1:] if left else []
        elif word.startswith("-S"):
            left = shlex.split(word[2:]) + left
        elif word in WITH_OPERAND:
            left = left[1:]
        elif not word.startswith("-") and not ASSIGNMENT.match(word):
            return [word, *left]
    return []


def is_set_id(path: str) -> bool:
    """Whether the program gets rights of its own where it is started, so that ld.so(8) preloads nothing into it."""
    try:
        has_capabilities = CAPABILITIES in os.listxattr(path)
    except OSError:
        has_capabilities = False
    return has_capabilities or bool(os.stat(path).st_mode & SET_ID)


def why_not_elf(path: str, head: bytes) -> Optional[str]:
    """Why no library can be preloaded into a program of this head, and what to do; None where one can."""
    elf = elf_of(head)
    if not elf.is_native:
        return f"{path} is built for another machine: build it for {platform.machine()}"
    if elf.loader is None:
        with open(path, "rb") as file:
            is_go = GO in file.read(MOST_SCANNED)
        if is_go:
            return f'{path} is in Go without cgo, so no library can be preloaded: `import "C"` in it and build with CGO_ENABLED=1, or {CLIENT}'
        return f"{path} is linked statically, so no library can be preloaded: link it without -static, or {CLIENT}"
    if is_set_id(path):
        return f"{path} is set-user-ID or has capabilities, so no library is preloaded: try a copy without them (chmod u-s,g-s; setcap -r)"
    return None


def program_of(command: List[str]) -> Optional[str]:
    """The path of the program that a command names; None where there is none."""
    return shutil.which(command[0]) if "/" not in command[0] else command[0]


def why_not(command: List[str], depth: int = 0) -> Optional[str]:
    """Why no library can be preloaded into what a command starts, also behind `#!` and env(1), and what to do; None where one can, or the command can't be started at all."""
    path = program_of(command)
    if path is None:
        return None
    try:
        with open(path, "rb") as file:
            head = file.read(MOST_HEAD)
    except OSError:
        return None
    if head.startswith(SCRIPT) and depth < MOST_INTERPRETERS:
        # (execve(2): all behind the interpreter is one word)
        interpreter = os.fsdecode(head[len(SCRIPT):].split(b"\n")[0]).strip().split(None, 1)
        return why_not([*interpreter, path, *command[1:]], depth + 1) if interpreter else None
    wrong = why_not_elf(path, head) if head.startswith(ELF) and len(head) >= 64 else None
    if wrong is None and os.path.basename(path) == "env" and depth < MOST_INTERPRETERS:
        started = behind_env(command[1:])
        return why_not(started, depth + 1) if started else None
    return wrong
