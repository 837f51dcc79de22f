"""Reads JSON and keeps where each key and each value stands; of a text that isn't JSON, what is wrong with it, and where.

It takes what the program's reader takes (RFC 8259, at most 127 objects and arrays in one another, no number beyond a double's), so it finds a fault
where that reader has found one.
"""
from __future__ import annotations

import math
import re
from dataclasses import dataclass, field
from typing import Any, Iterator, Match, Optional, Tuple

from tools.commands.messages.findings import near

MOST_NESTED = 127
SPACE = re.compile(r"[ \t\r\n]*")
NUMBER = re.compile(r"-?(?:0|[1-9]\d*)(?:\.\d+)?(?:[eE][-+]?\d+)?", re.ASCII)
# what somebody may have meant as one word or number
BARE = re.compile(r"[^\s,:=\[\]{}\"'“”]+")
LITERALS = {"true": True, "false": False, "null": None}
FOREIGN_LITERALS = {"None": "null", "nil": "null", "undefined": "null", "NULL": "null", "True": "true", "TRUE": "true", "yes": "true", "False": "false", "FALSE": "false",
                    "no": "false"}
ESCAPE = re.compile(r'\\(?:["\\/bfnrt]|u[0-9a-fA-F]{4})')
ESCAPES = {"b": "\b", "f": "\f", "n": "\n", "r": "\r", "t": "\t"}
CLOSING = {"{": "}", "[": "]"}
QUOTES = {"“": "”", "”": "”", "„": "“", "«": "»", "‘": "’", "’": "’", "'": "'", "`": "`"}
FIRST_LINE = re.compile(r"^(?![ \t]*(?:#|\r?$)).*", re.M)
YAML_LINE = re.compile(r"(?:- )?[A-Za-z_][\w.-]*:(?: |\r?$)|---\s*$")


@dataclass(frozen=True)
class Subject:
    """What a text should be, for what is said where it is no JSON: its name, the least one, what stands in place of a comment, how many objects and arrays
    of it stand in one another, and its greatest number."""

    name: str
    least: str
    remark: str
    nested: str
    greatest: int


POLICY = Subject("policy", "`{}`, which passes every call", "a rule's `name` can state its purpose", "six", 2**32 - 1)


class NotJson(Exception):
    """A place at which a text is no JSON: from where to where, a name, what is wrong, and what would be right."""

    def __init__(self, name: str, start: int, end: int, words: str, cure: str) -> None:
        super().__init__(words)
        self.found = (name, start, end, words, cure)


@dataclass
class Value:
    """A JSON value: `kind` is object, array, string, number or literal. `plain` is what a string or a literal says, and of a number its text."""

    kind: str
    start: int
    end: int = 0
    plain: object = None
    members: dict = field(default_factory=dict)
    items: list = field(default_factory=list)
    # members whose key comes again behind them
    hidden: list = field(default_factory=list)

    def member(self, key: str) -> Optional[Value]:
        """The value of a key, or None."""
        found = self.members.get(key)
        return found.value if found else None


@dataclass
class Member:
    key: str
    start: int
    end: int
    value: Value


def every_object(value: Value) -> Iterator[Value]:
    """The objects in a value, itself among them."""
    if value.kind == "object":
        yield value
    for one in [it.value for it in value.members.values()] + value.items:
        yield from every_object(one)


def yaml_line(text: str) -> Optional[Match[Any]]:
    """The first line of a text that looks like YAML, as its match: it begins with a bare key, or is YAML's mark of a document. None where it doesn't."""
    first = FIRST_LINE.search(text)
    return first if first and YAML_LINE.match(first[0]) else None


class Scanner:
    def __init__(self, text, subject=POLICY):
        self.text, self.subject, self.at, self.open = text, subject, 0, []

    def skip(self):
        self.at = SPACE.match(self.text, self.at).end()

    def next(self) -> str:
        return self.text[self.at:self.at + 1]

    def refuse(self, name: str, words: str, cure: str, start: Optional[int] = None, end: Optional[int] = None) -> None:
        start = self.at if start is None else start
        raise NotJson(name, start, start + 1 if end is None else end, words, cure)

    def document(self) -> Value:
        """The value that the whole text is."""
        self.look_at_bytes()
        if not self.text.strip():
            self.refuse("empty-file", "the file has nothing in it", f"the least {self.subject.name} is {self.subject.least}", 0)
        self.skip()
        value = self.value()
        self.skip()
        if self.next():
            self.refuse_more()
        return value

    def look_at_bytes(self) -> None:
        """Refuses what no JSON begins with, and bytes that aren't UTF-8."""
        if self.text.startswith("\ufeff"):
            self.refuse("byte-order-mark", "the file begins with a byte order mark, the bytes ef bb bf", "save it as UTF-8 without a byte order mark", 0)
        bad = re.search("[\udc80-\udcff]", self.text)
        if bad:
            self.refuse("not-utf-8", f"the byte 0x{ord(bad[0]) - 0xdc00:02x} isn't UTF-8", "save the file as UTF-8", bad.start())

    def refuse_more(self) -> None:
        """Something stands behind the value."""
        self.refuse_comment()
        if self.next() in ("}", "]"):
            self.refuse("unopened", f"nothing is open that this `{self.next()}` could close", "remove it, or open its object or array further up")
        self.refuse("text-behind-the-end", "the JSON value has ended, and there is more after it", f"a {self.subject.name} is one object: put everything between its `{{` and its `}}`")

    def refuse_comment(self) -> None:
        """Refuses a comment, where one begins here."""
        for mark in ("//", "/*", "#"):
            if self.text.startswith(mark, self.at):
                end = self.text.find("\n", self.at)
                self.refuse("comment", "JSON has no comments", f"remove it; {self.subject.remark}", end=len(self.text) if end < 0 else end)

    def refuse_end(self, what: str) -> None:
        """The file ends inside of what is open."""
        opening = self.open[-1]
        kind = "object" if self.text[opening] == "{" else "array"
        closing = "".join(CLOSING[self.text[at]] for at in reversed(self.open))
        self.refuse("not-closed", f"the file ends, and this {kind} isn't closed", f"{what}, and then `{closing}`" if what else f"add `{closing}`", opening)

    def value(self) -> Value:
        letter = self.next()
        if letter in CLOSING:
            return self.nested(letter)
        if letter == '"':
            start = self.at
            return Value("string", start, plain=self.string(), end=self.at)
        return self.scalar()

    def nested(self, letter: str) -> Value:
        self.open.append(self.at)
        if len(self.open) > MOST_NESTED:
            self.refuse("too-deep", f"more than {MOST_NESTED} objects and arrays are in one another", f"a {self.subject.name} needs {self.subject.nested} at most")
        value = self.object() if letter == "{" else self.array()
        value.end = self.at
        self.open.pop()
        return value

    def object(self) -> Value:
        value = Value("object", self.at)
        self.at += 1
        while not self.ends("}", bool(value.members)):
            start = self.at
            key = self.key()
            end = self.at
            self.colon(key)
            member = Member(key, start, end, self.value())
            if key in value.members:
                value.hidden.append(value.members[key])
            value.members[key] = member
        return value

    def array(self) -> Value:
        value = Value("array", self.at)
        self.at += 1
        while not self.ends("]", bool(value.items)):
            value.items.append(self.value())
        return value

    def ends(self, closing: str, has_some: bool) -> bool:
        """Whether an object or an array ends here. Between two of its parts it goes past their comma."""
        self.skip()
        self.refuse_comment()
        if self.next() == closing:
            self.at += 1
            return True
        if not self.next():
            self.refuse_end("")
        if self.next() in ("}", "]"):
            self.refuse_other_closing(closing)
        if not has_some:
            if self.next() == ",":
                self.refuse("lone-comma", "a comma is only between two values", "remove it")
            return False
        if self.next() != ",":
            self.refuse_no_comma()
        comma = self.at
        self.at += 1
        self.skip()
        self.refuse_comment()
        if self.next() in ("}", "]"):
            self.refuse("trailing-comma", f"a comma is before the closing `{self.next()}`", "remove it: JSON has no comma after the last part", comma)
        if self.next() == ",":
            self.refuse("lone-comma", "two commas follow each other", "remove one")
        if not self.next():
            self.refuse_end("remove the last comma")
        return False

    def refuse_other_closing(self, closing: str) -> None:
        line = self.text.count("\n", 0, self.open[-1]) + 1
        kind = "object" if closing == "}" else "array"
        self.refuse("wrong-closing", f"the {kind} of line {line} is open, and isn't closed by `{self.next()}`", f"close it with `{closing}`")

    def refuse_no_comma(self) -> None:
        if self.next() == ":" and self.text[self.open[-1]] == "[":
            self.refuse("key-in-an-array", "an array has values, and no keys", "put an object into it: `[{\"name\": ..}]`")
        if self.next() in ("=", ":", ";"):
            self.refuse("no-comma", f"`{self.next()}` is in the place of a comma", "put `,` between two values")
        self.refuse("missing-comma", "a comma is missing before this", "put `,` between two values")

    def key(self):
        if self.next() == '"':
            return self.string()
        self.refuse_quotes("a key")
        found = BARE.match(self.text, self.at)
        if found:
            self.refuse("unquoted-key", f"the key {found[0]} isn't in quotes", f'write `"{found[0]}"`', end=found.end())
        self.refuse("no-key", "a key belongs here", 'each part of an object is `"KEY": VALUE`')

    def refuse_quotes(self, what: str) -> None:
        """Refuses quotes of another kind."""
        letter = self.next()
        if letter in QUOTES:
            end = self.text.find(QUOTES[letter], self.at + 1)
            line_end = self.text.find("\n", self.at) % (len(self.text) + 1)
            end = end if 0 <= end < line_end else self.at
            text = self.text[self.at + 1:end]
            kind = "single quotes" if letter == "'" else f"quotes like {letter}"
            self.refuse("wrong-quotes", f"{what} is in {kind}", f'JSON has only double quotes: `"{text}"`' if text else "JSON has only double quotes", end=end + 1)

    def colon(self, key: str) -> None:
        self.skip()
        self.refuse_comment()
        if self.next() == "=":
            self.refuse("missing-colon", "`=` is in the place of a colon", f'write `"{key}": ` and the value')
        if self.next() != ":":
            if not self.next():
                self.refuse_end(f'go on after "{key}" with `:` and a value')
            self.refuse("missing-colon", f'a colon is missing after the key "{key}"', f'write `"{key}": ` and the value')
        self.at += 1
        self.skip()
        self.refuse_comment()
        if self.next() in (",", "}", "]"):
            self.refuse("missing-value", f'the key "{key}" has no value', "put a value after the colon, or remove the key")
        if not self.next():
            self.refuse_end("add the value")

    def scalar(self):
        """A number or a literal, or what was meant as one."""
        self.refuse_quotes("a text")
        self.refuse_comment()
        found = BARE.match(self.text, self.at)
        if not found:
            self.refuse("no-value", "a value belongs here", "a value is an object, an array, a text in double quotes, a number, `true`, `false` or `null`")
        word, start = found[0], self.at
        if word in LITERALS:
            self.at = found.end()
            return Value("literal", start, self.at, LITERALS[word])
        if NUMBER.fullmatch(word) and math.isfinite(float(word)):
            self.at = found.end()
            return Value("number", start, self.at, word)
        self.refuse("bare-word", *bare_word(word, self.subject), end=found.end())

    def string(self) -> str:
        """The text of a string, whose opening quote is next."""
        start, parts = self.at, []
        self.at += 1
        while self.next() != '"':
            letter = self.next()
            if letter == "\\":
                parts.append(self.escape())
            elif letter == "\n" or not letter:
                self.refuse("text-not-closed", "a text isn't closed on its line", 'put `"` at its end; a line end inside of a text is `\\n`', start, self.at)
            elif letter < " ":
                self.refuse("control-byte", f"a text has the byte 0x{ord(letter):02x}", "write `\\t`" if letter == "\t" else f"write `\\u{ord(letter):04x}`")
            else:
                parts.append(letter)
                self.at += 1
        self.at += 1
        return "".join(parts)

    def escape(self):
        found = ESCAPE.match(self.text, self.at)
        if not found:
            self.refuse_escape()
        if found[0][1] != "u":
            self.at = found.end()
            return ESCAPES.get(found[0][1], found[0][1])
        return self.unicode_escape()

    def unicode_escape(self):
        """The character of `\\uHHHH`; one above ffff is a pair of them."""
        start = self.at
        high = int(self.text[start + 2:start + 6], 16)
        self.at += 6
        if not 0xD800 <= high < 0xE000:
            return chr(high)
        low = re.compile(r"\\u([dD][c-fC-F][0-9a-fA-F]{2})").match(self.text, self.at)
        if high >= 0xDC00 or not low:
            self.refuse("half-a-pair", "this escape is half of a pair", "a character above ffff is two escapes, as `\\ud83d\\ude00`; or write the character itself", start, self.at)
        self.at = low.end()
        return chr(0x10000 + ((high - 0xD800) << 10) + int(low[1], 16) - 0xDC00)

    def refuse_escape(self) -> None:
        letter = self.text[self.at + 1:self.at + 2]
        cure = "the escapes of JSON are `\\\"`, `\\\\`, `\\/`, `\\b`, `\\f`, `\\n`, `\\r`, `\\t` and `\\uHHHH`"
        hexadecimal = re.compile(r"\\x([0-9a-fA-F]{2})").match(self.text, self.at)
        if hexadecimal:
            cure = f"write `\\u00{hexadecimal[1]}`"
        elif letter == "0":
            cure = "write `\\u0000`"
        elif letter == "'":
            cure = "a single quote needs no backslash: write `'`"
        self.refuse("unknown-escape", f"JSON has no escape `\\{letter}`", cure, end=self.at + 2)


def bare_word(word: str, subject: Subject) -> Tuple[str, ...]:
    """What is wrong with a word where a value belongs, and what would be right."""
    if word in FOREIGN_LITERALS:
        return f"JSON has no word {word}", f"write `{FOREIGN_LITERALS[word]}`, or the text `\"{word}\"`"
    if re.fullmatch(r"-?0[xX][0-9a-fA-F]+", word):
        return "JSON has no hexadecimal numbers", f"write `{int(word, 16)}`"
    if re.fullmatch(r"-?0\d+", word, re.ASCII):
        return "a number of JSON has no leading zeros", f"write `{int(word)}`; if it was meant as octal, `{int(word, 8)}`" if set(word) <= set("-01234567") else f"write `{int(word)}`"
    if re.fullmatch(r"\+\d+", word, re.ASCII):
        return "a number of JSON has no `+` before it", f"write `{word[1:]}`"
    if NUMBER.fullmatch(word):
        return "the number is too great", f"no number of a {subject.name} is above {subject.greatest}"
    if re.match(r"[-+.]?\d", word, re.ASCII):
        return f"{word} is no number of JSON", "a number has decimal digits, as `259`; a text is in double quotes, as `\"1:3\"`"
    found = near(word, LITERALS)
    return f"{word} is no value of JSON", f"write `{found}`, or the text `\"{word}\"`" if found else f'a text is in double quotes: `"{word}"`'
