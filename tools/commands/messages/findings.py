"""A finding: a place in a text, what is wrong there, and what would be right; and how it is shown."""
from __future__ import annotations

import textwrap
import unicodedata
from bisect import bisect_right
from dataclasses import dataclass
from typing import Any, Iterable, List

from tools.commands.command_line.pages import WIDTH
from tools.commands.command_line.table import near

INDENT = "    "
# how much of a long line is shown before and behind the place
BEFORE, BEHIND = 40, 60
CUT = "..."


@dataclass(frozen=True)
class Finding:
    """Lines are counted from 1; line 0 stands for the whole file. `start` and `length` count characters of the line."""

    name: str
    line: int
    start: int
    length: int
    words: str
    cure: str

    @property
    def column(self) -> int:
        return self.start + 1


class Text:
    """A file's text, as lines of characters. A byte that isn't UTF-8 is one character, which stands for that byte."""

    def __init__(self, data: bytes) -> None:
        self.whole = data.decode("utf-8", "surrogateescape")
        self.lines = self.whole.split("\n")
        self.starts = [0]
        for line in self.lines[:-1]:
            self.starts.append(self.starts[-1] + len(line) + 1)

    def line(self, number: int) -> str:
        return self.lines[number - 1] if 1 <= number <= len(self.lines) else ""

    def line_of(self, at: int) -> int:
        """The number of the line in which a character of the text stands."""
        return bisect_right(self.starts, at)

    def finding(self, name: str, start: int, end: int, words: str, cure: str) -> Finding:
        """A finding from one character of the text to another, as far as it is on the first one's line."""
        line = self.line_of(start)
        begin = start - self.starts[line - 1]
        length = min(end - start, len(self.lines[line - 1]) - begin)
        return Finding(name, line, begin, max(length, 1), words, cure)


def whole_file(name: str, words: str, cure: str) -> Finding:
    """A finding that no single line shows."""
    return Finding(name, 0, 0, 0, words, cure)


def printable(letter: str) -> str:
    """What stands on a terminal for a character of a file."""
    return letter if letter == "\t" or letter.isprintable() else "\N{REPLACEMENT CHARACTER}"


def shown(text: str) -> str:
    return "".join(map(printable, text))


def columns(letter: str) -> int:
    """How many columns of a terminal a character takes."""
    if unicodedata.combining(letter):
        return 0
    return 2 if unicodedata.east_asian_width(letter) in "WF" else 1


def room_of(text: str) -> str:
    """Blanks that are as wide as a text; a tab stays one."""
    return "".join("\t" if letter == "\t" else " " * columns(letter) for letter in text)


def excerpt(line: str, start: int, length: int) -> List[str]:
    """The line, or the part of a long one around the place, and a mark below the place; nothing of a line without text."""
    line = line.rstrip("\r")
    if not line.strip():
        return []
    first = 0 if len(line) <= BEFORE + BEHIND else max(0, start - BEFORE)
    last = len(line) if len(line) - first <= BEFORE + BEHIND else first + BEFORE + BEHIND
    front, behind = CUT if first else "", CUT if last < len(line) else ""
    marked = max(1, min(start + length, last) - start)
    mark = "^" + "~" * (sum(map(columns, shown(line[start:start + marked]))) - 1)
    return [INDENT + front + shown(line[first:last]) + behind, INDENT + " " * len(front) + room_of(shown(line[first:start])) + mark]


def filled(head: str, text: str) -> List[str]:
    """A text as lines, with blanks below its head. What stands between backquotes isn't broken."""
    kept = "`".join(part.replace(" ", "\0") if at % 2 else part for at, part in enumerate(text.split("`")))
    lines = textwrap.wrap(kept, WIDTH - len(head), break_on_hyphens=False, break_long_words=False)
    return [(head if at == 0 else " " * len(head)) + line.replace("\0", " ") for at, line in enumerate(lines)]


def place_of(finding: Finding, path: str) -> str:
    return f"{path}:{finding.line}:{finding.column}" if finding.line else path


def message(finding: Finding, path: str, text: Text, kind: str = "") -> List[str]:
    """The lines that show a finding: its place, what is wrong, the line with a mark, and the cure."""
    lines = [f"{place_of(finding, shown(path))}: {kind}{shown(finding.words)}"]
    if finding.line and finding.line <= len(text.lines):
        lines += excerpt(text.line(finding.line), finding.start, finding.length)
    return lines + (filled("help: ", shown(finding.cure)) if finding.cure else [])


def meant(word, known):
    """A question with the nearest word, to stand before a list of what is right; empty where none is near."""
    found = near(word, known)
    return f"did you mean `{found}`? " if found else ""


def joined(words: Iterable[Any], last: str = "and") -> str:
    """Words as a text: a, b and c."""
    words = list(words)
    return words[0] if len(words) == 1 else f"{', '.join(words[:-1])} {last} {words[-1]}"


def listed(words: Any, last: str = "and") -> str:
    """The same, each between backquotes."""
    return joined((f"`{it}`" for it in words), last)


def advice(hint: str, sentence: str) -> str:
    """A sentence that says what is right, behind a hint where there is one."""
    return f"{hint}{sentence[0].upper()}{sentence[1:]}." if hint else sentence
