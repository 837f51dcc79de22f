"""The requests of `step`: which lines are one, and why others aren't. Those of workers are lines of a schedule, too."""
from __future__ import annotations

import re
from functools import lru_cache
from typing import Any, List, NamedTuple, Optional, Tuple, Union

from tools.commands.messages.script_lines import Token, is_task, number_of
from tools.references.stepping import lexing
from tools.references.stepping.lexing import LineFault
from tools.references.stepping.rules import Mknod, Mount, SetXattr

# as docs/reference/SCRIPT.md has them, the first that is shown is told (Refusals of a script)
REASONS = ("wrong count", "wrong form", "bad number", "out of range", "unknown name")
LONGEST = 65_536
# of so many lines with at most so many bytes is kept what they ask for
KEPT, MOST_KEPT = 4_096, 512
RECV_SIZE, ADDFD_SIZE, SEND_SIZE, SYSINFO_SIZE = 80, 24, 24, 112
HEX = re.compile(r"[0-9a-fA-F]*")


class Asked(NamedTuple):
    """A request: its word, the number of its worker where it is one of a worker's, and its operands."""

    word: str
    operands: tuple
    worker: int = -1


class Number(NamedTuple):
    least: int
    most: int

    def reason(self, token):
        if token.is_quoted:
            return "wrong form"
        number = number_of(token.text)
        return "bad number" if number is None else None if self.least <= number <= self.most else "out of range"

    def value(self, token):
        return number_of(token.text)


class Bytes(NamedTuple):
    """As many bytes in hexadecimal."""

    size: int

    def reason(self, token):
        if token.is_quoted:
            return "wrong form"
        if len(token.text) != 2 * self.size:
            return "out of range"
        return None if HEX.fullmatch(token.text) else "bad number"

    def value(self, token: Token) -> bytes:
        return bytes.fromhex(token.text)


class Text(NamedTuple):
    """A text between quotes, which may have zero bytes or not."""

    zeros: bool = False

    def reason(self, token):
        if not token.is_quoted:
            return "wrong form"
        return "out of range" if b"\0" in token.content and not self.zeros else None

    def value(self, token: Any) -> bytes:
        return token.content


class Word(NamedTuple):
    """A word that stands there, one of these."""

    texts: tuple

    def reason(self, token: Token) -> Optional[str]:
        return "wrong form" if token.is_quoted else None if token.text in self.texts else "unknown name"

    def value(self, token: Token) -> str:
        return token.text


class TaskName:
    def reason(self, token: Token) -> Optional[str]:
        return "wrong form" if token.is_quoted else None if is_task(token.text) else "bad number"

    def value(self, token: Token) -> Tuple[int, ...]:
        return tuple(map(int, token.text.split(".")))


def unsigned(bits: int) -> Number:
    return Number(0, 2**bits - 1)


def with_sign(bits: int) -> Number:
    return Number(-(2 ** (bits - 1)), 2 ** (bits - 1) - 1)


TEXT, VALUE = Text(), Text(zeros=True)
PID, ID, ADDRESS, LENGTH, DIRFD = unsigned(32), unsigned(64), unsigned(64), unsigned(16), with_sign(32)
ALONE = {"able": (), "report": (), "script": (), "close": ()}
OF_WORKERS = {
    "recv": (), "open-mem": (PID,), "open-base": (PID, DIRFD), "check": (ID,), "read": (ADDRESS, LENGTH), "plant": (ADDRESS, Bytes(SYSINFO_SIZE)), "let-go": (),
    "addfd": (ID, unsigned(32), unsigned(32), unsigned(32), unsigned(32)), "addfd-result": (), "send": (ID, with_sign(64), with_sign(32), unsigned(32)),
    "recv-raw": (Bytes(RECV_SIZE),), "addfd-raw": (Bytes(ADDFD_SIZE),), "send-raw": (Bytes(SEND_SIZE),),
}
ACT = "act"
MODE, DEVICE, FLAGS = unsigned(32), unsigned(64), unsigned(64)
ACTS = {
    "mknod": (TEXT, MODE, DEVICE), "mknodat": (DIRFD, TEXT, MODE, DEVICE), "mount": (TEXT, TEXT, TEXT, FLAGS, TEXT), "setxattr": (TEXT, TEXT, VALUE, FLAGS),
}
# what may stand behind a mount, by the number of its operands
VIA, SHIFT = Word(("via",)), Word(("shift",))
BEHIND_MOUNT = {1: (SHIFT,), 2: (VIA, TEXT), 3: (VIA, TEXT, SHIFT)}
# what is looked at, with its operands
LOOKS = {"pid": (PID,), "fd": (PID, unsigned(32)), "path": (PID, DIRFD, TEXT, Word(("follow", "nofollow"))), "listener": ()}
# a greater number than there are seats is a refusal of its own, whatever number it is
WORKER = Number(0, 2**100)
MOST_WORKER = 15


def values_of(tokens, kinds):
    """The values of operands, each of its kind."""
    if len(tokens) != len(kinds):
        raise LineFault("wrong count")
    reasons = [reason for reason in (kind.reason(token) for token, kind in zip(tokens, kinds)) if reason]
    if reasons:
        raise LineFault(min(reasons, key=REASONS.index))
    return tuple(kind.value(token) for token, kind in zip(tokens, kinds))


def bare(token: Token) -> str:
    """The word that a token is; empty of a quoted one."""
    return "" if token.is_quoted else token.text


def kinds_of(call: str, count: int) -> Tuple[Any, ...]:
    """What the operands of a call have to be that a worker makes itself, where there are so many."""
    stated = ACTS[call]
    return stated + BEHIND_MOUNT.get(count - len(stated), ()) if call == "mount" else stated


def mount_of(source, target, fstype, flags, options, *behind):
    """A mount, behind which may stand `via` with a program, and `shift`."""
    return Mount(source, target, fstype, options, behind[1] if len(behind) > 1 else b"", flags, len(behind) in (1, 3))


MADE = {
    "mknod": lambda path, mode, device: Mknod(None, path, mode % 2**16, device),
    "mknodat": lambda dirfd, path, mode, device: Mknod(dirfd, path, mode % 2**16, device),
    "mount": mount_of,
    "setxattr": lambda path, name, value, flags: SetXattr(path, name, value, flags % 2**32),
}


def words_of_worker(tokens: Union[List[Token], Tuple[Token, ...]]) -> Tuple[str, Optional[str]]:
    """What the words of a worker's line ask for, and the call where that is an act; the tokens begin with the worker's number."""
    if len(tokens) < 2:
        raise LineFault("wrong count")
    word = bare(tokens[1])
    if word == ACT and len(tokens) < 3:
        raise LineFault("wrong count")
    call = bare(tokens[2]) if word == ACT else None
    if call not in ACTS if word == ACT else word not in OF_WORKERS:
        raise LineFault("unknown word")
    return word, call


def asked_of_worker(tokens):
    word, call = words_of_worker(tokens)
    operands = tokens[2:] if call is None else tokens[3:]
    kinds = OF_WORKERS[word] if call is None else kinds_of(call, len(operands))
    number, *values = values_of((tokens[0], *operands), (WORKER, *kinds))
    return Asked(word, tuple(values) if call is None else (MADE[call](*values),), number)


def asked_of_judge(tokens: List[Token]) -> Asked:
    """A judgement, and whether it is of a broker that does nothing more by itself; the tokens stand behind `judge`."""
    if tokens and bare(tokens[0]) != "idle":
        raise LineFault("unknown word")
    values_of(tokens[1:], ())
    return Asked("judge", (bool(tokens),))


def asked_of_look(tokens: List[Token]) -> Asked:
    """What is looked at; the tokens stand behind `look`."""
    if not tokens:
        raise LineFault("wrong count")
    at = bare(tokens[0])
    if at not in LOOKS:
        raise LineFault("unknown word")
    return Asked("look", (at, *values_of(tokens[1:], LOOKS[at])))


def is_asking(tokens: Tuple[Token, ...]) -> bool:
    """Whether the line of a schedule says what a worker asks for, by its third token."""
    return len(tokens) > 2 and bare(tokens[0]) == "w" and bare(tokens[2]) in (ACT, *OF_WORKERS)


def seat_reason(token):
    """That a worker's number in a schedule is above 15; None where it isn't, or is no number."""
    return "out of range" if not token.is_quoted and (number_of(token.text) or 0) > MOST_WORKER else None


def read_request(line: bytes) -> Optional[Asked]:
    """The request that a line is, without its newline; None of one without a token. Raises LineFault."""
    return short_request(line) if len(line) <= MOST_KEPT else request_in(line)


@lru_cache(KEPT)
def short_request(line: bytes) -> Optional[Asked]:
    """The same of a short line, of which sessions have the same again and again."""
    return request_in(line)


def request_in(line: bytes) -> Optional[Asked]:
    tokens = lexing.tokens_of(line)
    return read_tokens(tokens) if tokens else None


def read_tokens(tokens):
    """The request that the tokens of a line are. Raises LineFault."""
    word = bare(tokens[0])
    if word == "w":
        return asked_of_worker(tokens[1:])
    if word == "t":
        return Asked(word, values_of(tokens[1:], (TaskName(),)))
    if word == "judge":
        return asked_of_judge(tokens[1:])
    if word == "look":
        return asked_of_look(tokens[1:])
    if word not in ALONE:
        raise LineFault("unknown word")
    return Asked(word, values_of(tokens[1:], ALONE[word]))
