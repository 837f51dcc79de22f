"""The lines of a test file as words with their places, and what is said of a line that can't be understood."""
from __future__ import annotations

import re
from dataclasses import dataclass
from typing import Optional

from tools.commands.messages.findings import Finding
from tools.commands.messages.script_lines import ESCAPE, ESCAPES, TYPOGRAPHIC

ARROW, OTHER_ARROWS = "->", ("=>", "-->", "==>", "→", "⇒", "=", "==")
# blanks, a comment, a parenthesis, a text in quotes with or without a key, a bare word, or a quote that isn't closed
PARTS = re.compile(r'(?P<blank>\s+)|(?P<comment>#.*)|(?P<mark>[()])|(?P<key>[^\s"()=]+=)?"(?P<text>(?:[^"\\]|\\.)*)"|(?P<bare>[^\s"()]+)|(?P<open>.)')
WRONG_ESCAPE = re.compile(r'\\(?!x[0-9a-fA-F]{2}|[0n\\"])')


class NotUnderstood(Exception):
    """A place of a test file that can't be understood: what is wrong there, and what would be right. `about` are lines on a file that stands there."""

    def __init__(self, found, about=()):
        super().__init__(found.words)
        self.found, self.about = found, about


@dataclass(frozen=True)
class Word:
    """A word of a line. `key` is what stands in front of `=` and a text in quotes, as in data="size=1m"."""

    text: str
    line: int
    start: int
    end: int
    is_quoted: bool = False
    key: str = ""

    @property
    def content(self) -> bytes:
        """The bytes that the word stands for."""
        return unescaped(self.text) if self.is_quoted else self.text.encode("utf-8", "surrogateescape")

    def fault(self, words: str, cure: str) -> NotUnderstood:
        """The exception that says what is wrong with this word."""
        return NotUnderstood(Finding("", self.line, self.start, self.end - self.start, words, cure))


@dataclass(frozen=True)
class Line:
    """A line that isn't empty: its words, and its text from the first to the last of them."""

    number: int
    words: tuple
    text: str

    @property
    def first(self) -> Word:
        return self.words[0]

    @property
    def rest(self):
        return self.words[1:]

    def behind(self) -> Word:
        """The place behind the last word, where something is missing."""
        return Word("", self.number, self.words[-1].end, self.words[-1].end + 1)


def unescaped(text: str) -> bytes:
    """The bytes of a text in quotes, in which `\\0`, `\\n`, `\\\\`, `\\"` and `\\xHH` stand for a byte."""
    content, at = b"", 0
    for found in ESCAPE.finditer(text):
        content += text[at:found.start()].encode("utf-8", "surrogateescape")
        content += bytes([int(found[1], 16) if found[1] else ESCAPES[found[2]]])
        at = found.end()
    return content + text[at:].encode("utf-8", "surrogateescape")


def not_a_word(number, found):
    """What is said of a quote that isn't closed."""
    place = Word(found[0], number, found.start(), len(found.string))
    return place.fault("the quote isn't closed on its line", 'a text in quotes ends with `"`; write `\\"` for a quote inside')


def word_of(number, found):
    """The word that a part of a line is."""
    key, text = found["key"] or "", found["text"]
    if text is None:
        plain = found[0]
        if plain[0] in TYPOGRAPHIC and TYPOGRAPHIC[plain[0]] == '"':
            raise Word(plain, number, found.start(), found.end()).fault("the quotes are of another kind", 'write `"` on both sides of a text')
        return Word(plain, number, found.start(), found.end())
    wrong = WRONG_ESCAPE.search(text.replace("\\\\", "__"))
    if wrong:
        start = found.start("text") + wrong.start()
        raise Word(text, number, start, start + 2).fault(f"`{text[wrong.start():wrong.start() + 2]}` isn't an escape", 'the escapes are `\\0`, `\\n`, `\\\\`, `\\"` and `\\xHH`')
    return Word(text, number, found.start(), found.end(), True, key.rstrip("="))


def words_of(number, text):
    """The words of a line, without its comment."""
    words = []
    for found in PARTS.finditer(text):
        if found["open"] is not None:
            raise not_a_word(number, found)
        if found["blank"] is None and found["comment"] is None:
            words.append(word_of(number, found))
    return tuple(words)


def line_of(number: int, text: str) -> Optional[Line]:
    """The line with this number; None where nothing stands on it."""
    words = words_of(number, text)
    return Line(number, words, text[words[0].start:words[-1].end]) if words else None


def missing(line: Line, what: str, example: str) -> NotUnderstood:
    """The exception for a line that ends before all is said."""
    return line.behind().fault(f"{what} is missing", f"as in `{example}`")
