"""The lines of a script: their tokens with their places, the blocks that they make, and numbers, as docs/reference/SCRIPT.md has them."""
from __future__ import annotations

import re
from dataclasses import dataclass, field
from typing import TYPE_CHECKING, Iterator, List, Optional, Tuple

from tools.commands.messages.script_words import BLOCKS, FILTER, PROGRAM, SCHEDULE, SETTINGS

if TYPE_CHECKING:
    from tools.commands.messages.findings import Text

BLANKS = " \t"
BARE = re.compile(r"[!#-\[\]-~]+")
ESCAPE = re.compile(r'\\(?:x([0-9a-fA-F]{2})|([0n\\"]))')
ESCAPES = {"0": 0, "n": 10, "\\": 92, '"': 34}
OTHER_ESCAPES = {"t": 9, "r": 13, "a": 7, "b": 8, "e": 27, "f": 12, "v": 11}
NUMBER = re.compile(r"(-?)(?:0x([0-9a-fA-F]{1,16})|0o([0-7]{1,22})|(\d{1,20}))", re.ASCII)
TASK = re.compile(r"0(?:\.[1-9]\d{0,5})*", re.ASCII)
MOST_CHILD, MOST_NAMED = 100_000, 64
TYPOGRAPHIC = {"“": '"', "”": '"', "„": '"', "«": '"', "»": '"', "\u00a0": " ", "–": "-", "—": "-", "−": "-", "‘": '"', "’": '"'}


class LineFault(Exception):
    """A line that can't be split into tokens: from where to where, what is wrong, and what would be right."""

    def __init__(self, start: int, end: int, words: str, cure: str) -> None:
        super().__init__(words)
        self.found = (start, end, words, cure)


@dataclass(frozen=True)
class Token:
    """A token, as it stands in the line from `start` to `end`; of a quoted one also its bytes."""

    text: str
    start: int
    end: int
    content: Optional[bytes] = None

    @property
    def is_quoted(self) -> bool:
        return self.content is not None


@dataclass(frozen=True)
class Line:
    number: int
    tokens: tuple

    @property
    def word(self) -> str:
        """The bare word that the line begins with; empty where it begins with a quoted one."""
        return "" if self.tokens[0].is_quoted else self.tokens[0].text

    @property
    def operands(self) -> Tuple[Token, ...]:
        return self.tokens[1:]


@dataclass
class Block:
    """A filter, a program or a schedule: its kind, the line that opens it, those inside, and its end, if it is there."""

    kind: str
    opening: Line
    lines: list = field(default_factory=list)
    end: Optional[Line] = None

    @property
    def name(self) -> str:
        return self.opening.operands[0].text if self.kind == PROGRAM and self.opening.operands else ""


@dataclass
class Script:
    settings: list = field(default_factory=list)
    blocks: list = field(default_factory=list)

    def of_kind(self, kind: str) -> List[Block]:
        return [block for block in self.blocks if block.kind == kind]

    @property
    def programs(self) -> List[Block]:
        return self.of_kind(PROGRAM)

    @property
    def schedule(self) -> Optional[Block]:
        """The schedule, or None."""
        return next(iter(self.of_kind(SCHEDULE)), None)

    @property
    def open(self) -> Optional[Block]:
        """The block that isn't closed yet, or None."""
        return self.blocks[-1] if self.blocks and self.blocks[-1].end is None else None

    def named(self, *words: str) -> List[Line]:
        """The settings with one of these words."""
        return [line for line in self.settings if line.word in words]

    def take(self, line: Line) -> None:
        if self.open is not None:
            if line.word == "end":
                self.open.end = line
            else:
                self.open.lines.append(line)
        elif line.word in BLOCKS:
            self.blocks.append(Block(BLOCKS[line.word], line))
        else:
            self.settings.append(line)

    @property
    def part(self) -> str:
        """To which part a line belongs that comes next."""
        if self.open is not None:
            return self.open.kind
        return SETTINGS if all(block.kind == FILTER for block in self.blocks) else "programs"


def escape_fault(line, at):
    """What is wrong with a backslash inside of quotes."""
    letter = line[at + 1:at + 2]
    if letter in OTHER_ESCAPES:
        cure = f"write `\\x{OTHER_ESCAPES[letter]:02x}`"
    elif letter == "'":
        cure = "a single quote needs no backslash: write `'`"
    elif letter and letter in "xX":
        digit = re.match(r"[0-9a-fA-F]{1,2}", line[at + 2:])
        right = f"write `\\x{digit[0]:0>2}`" if digit else "write the byte's number, as `\\x0a`"
        return LineFault(at, at + 2 + len(digit[0] if digit else ""), "a small `x` and two hexadecimal digits make a byte", right)
    elif letter and letter in "1234567":
        digits = re.match(r"[0-7]{1,3}", line[at + 1:])[0]
        cure = f"octal escapes aren't known: write `\\x{int(digits, 8) % 256:02x}`"
    else:
        cure = 'the escapes are `\\0`, `\\n`, `\\\\`, `\\"` and `\\xHH`; a backslash is written `\\\\`'
    return LineFault(at, at + 2, f"there is no escape `\\{letter}`", cure)


def quoted(line: str, start: int) -> Token:
    """The quoted token that begins here."""
    content, at = bytearray(), start + 1
    while line[at:at + 1] != '"':
        letter = line[at:at + 1]
        if not letter:
            raise LineFault(start, len(line), "a quoted text isn't closed on its line", 'put `"` at its end; a line end inside of a text is `\\n`')
        if letter == "\\":
            found = ESCAPE.match(line, at)
            if not found:
                raise escape_fault(line, at)
            content.append(int(found[1], 16) if found[1] else ESCAPES[found[2]])
            at = found.end()
        elif letter < " ":
            raise LineFault(at, at + 1, f"a quoted text has the byte 0x{ord(letter):02x}", f"write `\\x{ord(letter):02x}`")
        else:
            content += letter.encode("utf-8", "surrogateescape")
            at += 1
    return Token(line[start:at + 1], start, at + 1, bytes(content))


def outside_fault(line: str, at: int) -> LineFault:
    """What is wrong with a character outside of quotes that begins no token."""
    letter = line[at]
    word = line[max(line.rfind(blank, 0, at) for blank in BLANKS) + 1:at]
    if letter == "\\" and word.startswith("'"):
        return LineFault(at - len(word), len(line.rstrip()), "a text is in single quotes", "put it into double quotes: single ones are characters like others")
    if letter == "\\":
        return LineFault(at, at + 1, "a backslash is outside of quotes", "a statement is one line; a text with a backslash is in double quotes, where `\\\\` is one")
    if letter in TYPOGRAPHIC:
        right = TYPOGRAPHIC[letter]
        what = "a blank that isn't a plain one" if right == " " else f"the character {letter}"
        return LineFault(at, at + 1, f"{what} is here", f"write {'a plain blank' if right == ' ' else f'`{right}`'}")
    if letter < " " or letter == "\x7f":
        return LineFault(at, at + 1, f"the byte 0x{ord(letter):02x} is outside of quotes", "remove it")
    return LineFault(at, at + 1, f"{letter} isn't ASCII, and is outside of quotes", "words, names and numbers have only visible ASCII characters; other text is in double quotes")


def touching(at: int) -> LineFault:
    return LineFault(at, at + 1, "a token touches a quoted text", "put a blank between the two; a `\"` inside of a text is `\\\"`")


def tokens_of(line):
    """The tokens of a line; raises LineFault for its leftmost fault. A comment and an empty line have none."""
    line = line[:-1] if line.endswith("\r") else line
    found, at = [], 0
    if line.lstrip(BLANKS).startswith("#"):
        return ()
    while at < len(line):
        if line[at] in BLANKS:
            at += 1
            continue
        if found and found[-1].end == at and (line[at] == '"' or (found[-1].is_quoted and BARE.match(line, at))):
            raise touching(at)
        if line[at] == '"':
            found.append(quoted(line, at))
        else:
            bare = BARE.match(line, at)
            if not bare:
                raise outside_fault(line, at)
            found.append(Token(bare[0], at, bare.end()))
        at = found[-1].end
    return tuple(found)


def lines_of(text: Text, first: int = 1, last: Optional[int] = None) -> Iterator[Line]:
    """The lines that have tokens, from one number to another, up to the first that can't be split."""
    for number in range(first, (len(text.lines) if last is None else last) + 1):
        try:
            tokens = tokens_of(text.line(number))
        except LineFault:
            return
        if tokens:
            yield Line(number, tokens)


def script_of(text: Text, last: Optional[int] = None) -> Script:
    """The script of a text, up to a line."""
    script = Script()
    for line in lines_of(text, 1, last):
        script.take(line)
    return script


def number_of(text):
    """The number that a bare token is, or None."""
    found = NUMBER.fullmatch(text)
    if not found:
        return None
    sign, sixteen, eight, ten = found.groups()
    value = int(sixteen, 16) if sixteen else int(eight, 8) if eight else int(ten)
    return -value if sign else value


def is_task(text: str) -> bool:
    """Whether a text is the name of a task."""
    return TASK.fullmatch(text) is not None and text.count(".") <= MOST_NAMED and all(int(it) <= MOST_CHILD for it in text.split(".")[1:])


# ---- the tasks that programs start


START = ("spawn", "thread")


def starts(program: Block) -> List[Line]:
    """The lines of a program that start tasks: its K-th task is child K."""
    return [line for line in program.lines if line.word in START]


def program_of(script: Script, task: str) -> Tuple[Optional[Block], str]:
    """The program that a task runs, or None where it never comes, and how far its name leads."""
    named = {program.name: program for program in script.programs}
    found, known = script.programs[-1], "0"
    for number in map(int, task.split(".")[1:]):
        children = starts(found)
        if number > len(children):
            return None, known
        found = named[children[number - 1].operands[0].text]
        known += f".{number}"
    return found, known
