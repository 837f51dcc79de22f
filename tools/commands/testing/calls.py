"""The calls of a test file: their operands as people write them, and the arguments that a script passes."""
from __future__ import annotations

import re
from dataclasses import dataclass
from typing import TYPE_CHECKING, Any, Dict, List, Optional, Tuple

from tools.commands.messages.findings import advice, listed, meant
from tools.commands.messages.operands import packed
from tools.commands.real_workloads.script_text import PAGE
from tools.commands.testing import words
from tools.commands.testing.lines import Word, missing

if TYPE_CHECKING:
    from tools.commands.testing.lines import Line, NotUnderstood
    from tools.commands.testing.words import Operand

DEVICE = re.compile(r"(\d{1,9}):(\d{1,9})", re.ASCII)
OCTAL = re.compile(r"0o?[0-7]{0,11}", re.ASCII)
NUMBER, OPTION = re.compile(r"\d{1,9}", re.ASCII), re.compile(r"--?[a-z]+")
GREATEST_MODE, GREATEST_MAJOR, GREATEST_MINOR = 0o7777, 4095, 1_048_575
# what the path of a call needs in the tree, beside the directory that it lies in
NEEDS_DIRECTORY, NEEDS_FILE, NEEDS_NOTHING = "dir", "reg", ""


@dataclass(frozen=True)
class Stored:
    """A text that a call names by its address: its path, or another one."""

    content: bytes
    is_path: bool = False


@dataclass(frozen=True)
class Call:
    """A call: its name, its arguments, which are numbers and texts, and how it is written in the file."""

    name: str
    arguments: tuple
    text: str

    @property
    def path(self) -> Optional[bytes]:
        """The path that the call is about, without the zero at its end; None where there is none."""
        return next((it.content[:-1] for it in self.arguments if isinstance(it, Stored) and it.is_path), None)

    @property
    def need(self) -> str:
        """What has to be there at the path for the call to get as far as its decision."""
        if self.name == "openat":
            return NEEDS_NOTHING if self.arguments[2] & words.FLAGS_OF["openat"]["CREAT"] else NEEDS_FILE
        return {"mount": NEEDS_DIRECTORY, "setxattr": NEEDS_FILE}.get(self.name, NEEDS_NOTHING)

    @property
    def texts(self) -> List[bytes]:
        """The texts of the call, without the zero at their ends."""
        return [it.content.rstrip(b"\0") for it in self.arguments if isinstance(it, Stored)]


# ---- single operands: each answers a value, or raises what is wrong


def text_of(word: Word) -> bytes:
    content = word.content
    if b"\0" in content:
        raise word.fault("the text has a zero byte", "leave it out: a text ends by itself")
    if len(content) >= PAGE:
        raise word.fault(f"the text has {len(content)} bytes", f"a text has at most {PAGE - 1}")
    return content


def kind_of(word):
    kind = words.OTHER_KINDS.get(word.text, word.text)
    if kind not in words.KINDS:
        known = [*words.KINDS, *words.OTHER_KINDS]
        near = meant(word.text, known) if len(word.text) > 2 else ""
        raise word.fault(f"{word.text} is no kind of node", advice(near, "it is `c` or `chr`, `b` or `blk`, `p` or `fifo`, `f` or `reg`, `s` or `sock`"))
    return kind


def device_of(word):
    found = DEVICE.fullmatch(word.text)
    if not found:
        raise word.fault(f"{word.text} isn't the numbers of a device", "they are written `MAJOR:MINOR`, as `1:3`")
    major, minor = int(found[1]), int(found[2])
    if major > GREATEST_MAJOR or minor > GREATEST_MINOR:
        raise word.fault(f"no device has the numbers {word.text}", f"MAJOR is at most {GREATEST_MAJOR}, and MINOR at most {GREATEST_MINOR}")
    return packed(major, minor)


def mode_of(word):
    if not OCTAL.fullmatch(word.text) or word.is_quoted:
        is_near = re.fullmatch(r"[1-7][0-7]{2,3}", word.text) is not None
        raise word.fault(f"{word.text} is no mode", advice(f"write `0{word.text}`. " if is_near else "", f"a mode is octal and begins with 0, as `{words.USUAL_MODE}`"))
    mode = int(word.text.replace("o", ""), 8)
    if mode > GREATEST_MODE:
        raise word.fault(f"{word.text} has more than the bits of a mode", "the largest mode is `07777`; the kind of a node comes before it, as `c`")
    return mode


def flags_of(call, word):
    known, flags = words.FLAGS_OF[call], 0
    for name in filter(None, re.split(r"[,|]", word.text)):
        if name != "0" and name not in known:
            hint = f"did you mean `{words.OPTIONS_OF_MOUNT[name]}`? " if name in words.OPTIONS_OF_MOUNT else meant(name, known)
            usual = words.USUAL_FLAGS[call]
            raise word.fault(f"{name} is no flag of {call}", advice(hint, f"flags are {listed(usual)}{' and the like' * (2 * len(usual) < len(known))}, with commas between them"))
        flags |= known.get(name, 0)
    return flags


def directory_of(word):
    if word.text in ("AT_FDCWD", str(words.HERE)):
        return words.HERE
    return descriptor_of(word, "a directory is `AT_FDCWD` or a descriptor's number, as `3`")


def descriptor_of(word: Word, cure: str = "a descriptor is a number, as `3`") -> int:
    if word.is_quoted or not NUMBER.fullmatch(word.text):
        raise word.fault(f"{word.text} is no descriptor", cure)
    return int(word.text)


def is_directory(word: Word) -> bool:
    return not word.is_quoted and (word.text == "AT_FDCWD" or re.fullmatch(r"-?\d+", word.text) is not None)


def is_data(word: Word) -> bool:
    return word.key == "data" or not word.is_quoted and word.text.startswith("data=")


class Reader:
    """Reads the operands of one call, from the word behind its name on."""

    def __init__(self, line, name, given):
        self.line, self.name, self.given, self.at = line, name, given, 0
        self.form = words.FORMS_OF_CALLS[name]
        # the operands by their names, and the words in which they stand
        self.values, self.places = {}, {}

    @property
    def next(self) -> Optional[Word]:
        return self.given[self.at] if self.at < len(self.given) else None

    def is_here(self, operand: Operand) -> bool:
        """Whether the next word is for an operand that may be left out. A word that could only be a wrong one counts as one."""
        word = self.next
        if word is None:
            return False
        if operand.kind == "device":
            return self.values["KIND"] in words.DEVICES or DEVICE.fullmatch(word.text) is not None
        if operand.kind == "directory":
            return is_directory(word)
        if operand.kind == "data":
            return is_data(word)
        if operand.kind == "flags":
            return not is_data(word) and (self.name != "openat" or not OCTAL.fullmatch(word.text) or word.text == "0")
        return True

    def value(self, operand, word):
        if operand.kind in ("path", "text", "value"):
            if word.key:
                raise word.fault(f"{operand.name} of `{self.name}` comes here, and not {word.key}=", self.written())
            if OPTION.fullmatch(word.text) and not word.is_quoted:
                raise word.fault(f"{word.text} is an option of a command, and no operand of a call", self.written())
            return text_of(word)
        if operand.kind == "directory" and not is_directory(word):
            raise word.fault(f"{operand.name} of `{self.name}` comes here, and not {word.text}", self.written())
        if operand.kind == "device" and NUMBER.fullmatch(word.text) and self.at + 1 < len(self.given) and NUMBER.fullmatch(self.given[self.at + 1].text):
            raise word.fault("the numbers of a device are two words", f"write `{word.text}:{self.given[self.at + 1].text}`")
        if operand.kind == "flags":
            return flags_of(self.name, word)
        if operand.kind == "data":
            return text_of(word) if word.key else text_of(word)[len("data="):]
        return {"kind": kind_of, "device": device_of, "mode": mode_of, "directory": directory_of, "descriptor": descriptor_of}[operand.kind](word)

    def written(self) -> str:
        usage = f"{self.name} {self.form.usage}".rstrip()
        return f"it is written `{usage}`" + (f", as in `{self.form.example}`" if usage != self.form.example else "")

    def missing(self, operand: Operand) -> NotUnderstood:
        """The exception for an operand that isn't there."""
        place = self.given[-1] if self.given else self.line.first
        behind = Word("", place.line, place.end, place.end + 1)
        return behind.fault(f"{operand.name} of `{self.name}` is missing", self.written())

    def read(self, is_whole: bool = True) -> Dict[str, Any]:
        """The operands by their names. Where it needn't be the whole call, those behind the last word may be missing."""
        for operand in self.form.operands:
            if self.next is None and not operand.is_optional:
                if not is_whole:
                    break
                raise self.missing(operand)
            if not operand.is_optional or self.is_here(operand):
                self.values[operand.name], self.places[operand.name] = self.value(operand, self.next), self.next
                self.at += 1
            if operand.kind == "device":
                self.check_device(operand, is_whole)
        if self.next is not None:
            raise self.next.fault(f"`{self.name}` takes no {self.next.text} here", self.written())
        return self.values

    def check_device(self, operand: Operand, is_whole: bool) -> None:
        """A device has its numbers, and another node none."""
        is_device, is_given = self.values["KIND"] in words.DEVICES, operand.name in self.values
        if is_device and not is_given and is_whole:
            raise self.missing(operand)
        if is_given and not is_device:
            raise self.given[self.at - 1].fault(f"a {self.values['KIND']} has no numbers of a device", "write `c` for a character device, or `b` for a block device")


def arguments_of(name: str, values: Dict[str, Any]) -> Tuple[Any, ...]:
    """The arguments of a call, as a script passes them."""
    path = Stored(values["PATH"] + b"\0", True) if "PATH" in values else None
    flags = values.get("FLAGS", 0)
    if name in ("mknod", "mknodat"):
        node = (path, words.KINDS[values["KIND"]] | values.get("MODE", int(words.USUAL_MODE, 8)), values.get("MAJOR:MINOR", 0))
        return node if name == "mknod" else (values["DIRFD"], *node)
    if name == "mount":
        data = Stored(values["data=TEXT"] + b"\0") if "data=TEXT" in values else 0
        return Stored(values["SOURCE"] + b"\0"), Stored(values["TARGET"] + b"\0", True), Stored(values["TYPE"] + b"\0"), flags, data
    if name == "setxattr":
        value = Stored(values["VALUE"]) if values["VALUE"] else 0
        return path, Stored(values["NAME"] + b"\0"), value, len(values["VALUE"]), flags
    if name == "openat":
        return values.get("DIRFD", words.HERE), path, flags, values.get("MODE", 0)
    return (values["NUMBER"],) if name == "close" else ()


def name_of(word: Word) -> str:
    """The name of a call that a word is."""
    if word.text not in words.FORMS_OF_CALLS or word.is_quoted:
        other = words.OTHER_CALLS.get(word.text)
        hint = f"did you mean `{other}`? " if other else "" if word.text in words.NOT_NAMED else meant(word.text, words.CALL_NAMES)
        raise word.fault(f"{word.text} is no call that a test names", advice(hint, f"the calls are {listed(words.CALL_NAMES)}"))
    return word.text


def call_of(line: Line, given: Tuple[Word, ...], text: str) -> Call:
    """The call that these words of a line are; `text` is how they stand there."""
    if not given:
        raise missing(line, "the call", "call mknod /dev/null c 1:3 -> granted")
    name = name_of(given[0])
    stored = arguments_of(name, Reader(line, name, given[1:]).read())
    rest = sum(len(it.content) for it in stored if isinstance(it, Stored) and not it.is_path)
    if rest > PAGE:
        raise given[0].fault(f"the texts of the call have {rest} bytes", f"besides its path they have at most {PAGE}")
    return Call(name, stored, text)
