"""Reads what strace prints: calls, whole or in two parts, signals, and the ends of processes."""
from __future__ import annotations

import re
import signal
import sys
from dataclasses import dataclass
from functools import lru_cache
from io import BytesIO
from typing import Any, BinaryIO, List, Match, NamedTuple, Optional, Set, Tuple, Union

from tools.commands.real_workloads.named_numbers import value_of

# a PID, with the program's name where it was asked for, and a time, where one was
PREFIX = re.compile(r"(?:\[pid +(\d+)(?:<[^>]*>)?\] +|(\d+)(?:<[^>]*>)? +)?(?:(?:\d\d:\d\d:\d\d(?:\.\d+)?|\d+\.\d{6}|\+? *\d+\.\d{6}) +)?")
WHOLE = re.compile(r"([a-z_][a-z_0-9]*)\((.*)\)\s+= (.*)", re.S)
UNFINISHED_ENDS = (" ...>", " ...>) = ?")
UNFINISHED = re.compile(r"([a-z_][a-z_0-9]*)\((.*?),? *<(?:unfinished|detached) \.\.\.>(\)\s+= \?)?", re.S)
RESUMED = re.compile(r"<\.\.\. ([a-z_][a-z_0-9]*) resumed> ?(.*)\)\s+= (.*)", re.S)
SIGNAL = re.compile(r"--- (SIG[A-Z0-9+_]+) \{(.*)\} ---")
STOPPED = re.compile(r"--- stopped by ")
ENDED = re.compile(r"\+\+\+ (?:exited with (\d+)|killed by (SIG[A-Z0-9+_]+))")
SUPERSEDED = re.compile(r"\+\+\+ superseded by execve in pid (\d+) \+\+\+")
MODE = re.compile(r"\[ Process PID=(\d+) runs in (.*) mode\. \]")
REMARK = re.compile(r"strace: |\$ |Process \d+ (?:attached|detached|suspended|resumed)")
ANSWER = re.compile(r"(-?\d+|0x[0-9a-f]+|\?)(?:<((?:[^>\\]|\\.)*)>)?(?: (E[A-Z0-9]+))?")
IN_STRACES_NAMES = re.compile(r"/\* (\d+) in strace's PID NS \*/")
COMMENT = re.compile(r"/\*.*?\*/")
OCTAL = re.compile(r"0[0-7]+")
MAKEDEV = re.compile(r"makedev\((0x[0-9a-f]+|\d+), (0x[0-9a-f]+|\d+)\)")
ANNOTATED = re.compile(r"(-?\d+|AT_FDCWD)<((?:[^>\\]|\\.)*)>")
# what parts arguments and holds them together; quoted texts and the paths of descriptors are one mark each
MARK = re.compile(r'"(?:[^"\\]|\\.)*"?|(?<=\w)<(?:[^>\\]|\\.)*>|[(\[{)\]},]')
HEXADECIMAL = re.compile(r"(?:\\x[0-9a-f]{2})*")
ESCAPE = re.compile(rb"\\(?:x([0-9a-fA-F]{2})|([0-7]{1,3})|(.))", re.S)
ESCAPES = {b"n": b"\n", b"t": b"\t", b"r": b"\r", b"v": b"\v", b"f": b"\f", b"a": b"\a", b"b": b"\b"}
SIXTY_FOUR = "64 bit"
# a trace has many records; Python 3.8 and 3.9 can't make them smaller
SLOTS = {"slots": True} if sys.version_info >= (3, 10) else {}


# in bytes
MOST_OF_A_LINE = 16 << 20


class Unreadable(Exception):
    """An argument isn't what it should be. The text says what it is."""


class Text(NamedTuple):
    """Bytes that a call names by an address."""

    content: bytes
    is_cut: bool  # strace printed the beginning alone


class Answer(NamedTuple):
    value: int | None  # None where the call didn't return
    error: str  # the error's name, or nothing; ERESTART.. where the call didn't return, and is entered again
    path: bytes | None  # of the descriptor, where strace was asked for it
    pid: int | None  # the process that was made or waited for, by the number that strace has for it

    @property
    def is_good(self) -> bool:
        return self.value is not None and not self.error

    def __str__(self) -> str:
        return "?" if self.value is None else self.error or str(self.value)


@dataclass(**SLOTS)
class Call:
    """A call of the trace. What it gets when it is whole is filled in then."""

    pid: int
    name: str
    text: str  # of its arguments
    first: int  # the number of its first line
    mode: str
    answer: Answer = Answer(None, "", None, None)
    last: int | None = None  # the number of the line in which it returned
    parts: list | None = None

    @property
    def arguments(self) -> List[str]:
        """The arguments, which are asked for when the call is whole."""
        if self.parts is None:
            self.parts = split(self.text)
        return self.parts


class Signal(NamedTuple):
    pid: int
    number: int
    sender: int | None


class End(NamedTuple):
    pid: int
    signal: int  # that ended it, or 0


class Superseded(NamedTuple):
    """The process goes on as what its thread `by` was, which made another program of it."""

    pid: int
    by: int


class Item(NamedTuple):
    line: int
    what: str  # call, begin, end, signal, ended, superseded
    of: object


def signal_number(name: str) -> int:
    return int(getattr(signal, name, 0))


def device_number(major: int, minor: int) -> int:
    return (minor & 0xFF) | (major << 8) | ((minor & ~0xFF) << 12)


def simple_number(text: str) -> int:
    """A number of C, or a name of one."""
    if OCTAL.fullmatch(text):
        return int(text, 8)
    if device := MAKEDEV.fullmatch(text):
        return device_number(*(int(it, 0) for it in device.groups()))
    try:
        return int(text, 0)
    except ValueError:
        value = value_of(text)
    if value is None:
        raise Unreadable(f"{text!r} is no number")
    return value


def number(text: str) -> int:
    """An argument that is a number, also as names with `|` between them."""
    text = ANNOTATED.sub(r"\1", COMMENT.sub("", text)).strip()
    parts = [text] if text.startswith("makedev") else text.split("|")
    result = 0
    for part in parts:
        result |= simple_number(part.strip())
    return result


@lru_cache(maxsize=65536)
def unescaped(text: str) -> bytes:
    """The bytes that strace wrote with escapes."""
    if HEXADECIMAL.fullmatch(text):
        return bytes.fromhex(text.replace("\\x", ""))

    def byte(found: Match[Any]) -> bytes:
        digits, octal, letter = found.groups()
        return bytes([int(digits, 16)]) if digits else bytes([int(octal, 8) & 0xFF]) if octal else ESCAPES.get(letter, letter)

    return ESCAPE.sub(byte, text.encode("utf-8", "surrogateescape"))


def text_or_address(argument: str) -> Union[Text, int]:
    """A Text where the argument is quoted, else its number: an address that strace couldn't read, or 0."""
    if not argument.startswith('"'):
        return number(argument)
    end = argument.rfind('"')
    return Text(unescaped(argument[1:end]), argument[end + 1:].startswith("..."))


def descriptor(argument: str) -> Tuple[int, Optional[bytes]]:
    """The number of a descriptor and the path behind it, where strace was asked for that, else None."""
    if found := ANNOTATED.match(argument):
        return simple_number(found[1]), unescaped(found[2])
    return number(argument), None


def split(text: str) -> List[str]:
    """The arguments of a call."""
    found, begun, depth = [], 0, 0
    for it in MARK.finditer(text):
        sign = it[0]
        if sign in "([{":
            depth += 1
        elif sign in ")]}":
            depth -= 1
        elif sign == "," and depth == 0:
            found.append(text[begun:it.start()].strip())
            begun = it.end()
    last = text[begun:].strip()
    return found + [last] if last or found else []


def field(text, name):
    """The text of a field of a structure that strace printed, or None."""
    found = re.search(rf"\b{name}=([^,}}]*)", text)
    return found and found[1].strip()


def answer_of(text: str) -> Answer:
    found = ANSWER.match(text)
    if found is None or found[1] == "?":
        return Answer(None, found[3] or "" if found else "", None, None)
    translated = IN_STRACES_NAMES.search(text)
    value = simple_number(found[1])
    path = None if found[2] is None else unescaped(found[2])
    return Answer(value, found[3] or "" if value == -1 else "", path, int(translated[1]) if translated else value)


def joint(begun: str, rest: str) -> str:
    """What stands between the two parts of the arguments of a call, of which strace printed the second one later."""
    if not begun or not rest or rest.startswith(","):
        return ""
    return " " if rest.startswith("=>") else ", "


class Trace:
    """The items of a trace in their order, and what couldn't be read."""

    def __init__(self, wanted):
        self.wanted = wanted  # the names of the calls whose arguments are looked at; of others there is their count
        self.items, self.lines, self.read = [], 0, 0
        self.other_calls, self.unreadable, self.resumed_alone = {}, 0, 0
        self.modes, self.in_call = {}, {}

    def add(self, line):
        """Takes the next line. False where it is none of strace's."""
        self.lines += 1
        start = PREFIX.match(line)
        pid, text = int(start[1] or start[2] or 0), line[start.end():]
        good = self.call(pid, text) or self.other(pid, text)
        self.read += good
        self.unreadable += not good
        return good

    def call(self, pid: int, text: str) -> bool:
        if text.startswith("<"):
            found = RESUMED.match(text)
            if found:
                self.resume(pid, *found.groups())
        elif text.endswith(UNFINISHED_ENDS) and (found := UNFINISHED.match(text)):
            self.begin(pid, found[1], found[2], whole=found[3] is not None)
        elif found := WHOLE.match(text):
            call = Call(pid, found[1], found[2], self.lines, self.modes.get(pid, SIXTY_FOUR), answer_of(found[3]), self.lines)
            self.keep("call", call)
        return found is not None

    def keep(self, what: str, call: Call) -> None:
        if call.name in self.wanted:
            self.items.append(Item(self.lines, what, call))
        elif what != "end":
            self.other_calls[call.name] = self.other_calls.get(call.name, 0) + 1

    def begin(self, pid: int, name: str, text: str, whole: bool) -> None:
        call = Call(pid, name, text, self.lines, self.modes.get(pid, SIXTY_FOUR))
        if not whole:
            self.in_call[pid] = call
        self.keep("begin", call)

    def resume(self, pid: int, name: str, text: str, answer: str) -> None:
        call = self.in_call.pop(pid, None)
        if call is None or call.name != name:
            self.resumed_alone += 1
            return
        call.text += joint(call.text, text) + text
        call.answer, call.last = answer_of(answer), self.lines
        self.keep("end", call)

    def other(self, pid: int, text: str) -> bool:
        if found := SIGNAL.match(text):
            sender = field(found[2], "si_pid")
            translated = sender and IN_STRACES_NAMES.search(sender)
            number_of_sender = int(translated[1]) if translated else int(sender.split()[0]) if sender else None
            self.items.append(Item(self.lines, "signal", Signal(pid, signal_number(found[1]), number_of_sender)))
        elif found := ENDED.match(text):
            self.in_call.pop(pid, None)
            self.items.append(Item(self.lines, "ended", End(pid, signal_number(found[2]) if found[2] else 0)))
        elif found := SUPERSEDED.match(text):
            if int(found[1]) in self.in_call:
                self.in_call[pid] = self.in_call.pop(int(found[1]))
            self.items.append(Item(self.lines, "superseded", Superseded(pid, int(found[1]))))
        elif found := MODE.match(text):
            self.modes[int(found[1])] = found[2]
        else:
            return STOPPED.match(text) is not None or REMARK.match(text) is not None or not text.strip()
        return True


def read(file: Union[BinaryIO, BytesIO], wanted: Set[str]) -> Trace:
    """The trace of a file that is opened for bytes. It ends before a line that is longer than any of strace's, as that of an endless file is."""
    trace = Trace(wanted)
    for line in iter(lambda: file.readline(MOST_OF_A_LINE), b""):
        if len(line) == MOST_OF_A_LINE:
            trace.unreadable += 1
            break
        trace.add(line.decode("utf-8", "surrogateescape").rstrip("\r\n"))
    return trace
