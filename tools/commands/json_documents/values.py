"""The words in the lines of an output as values of a document, and back.

A `Kind` reads one field of a line, or a few beside each other, and writes them again. A `Form` is a line, or a part of one, with a name for
each of its fields.
"""
from __future__ import annotations

import re
from collections import namedtuple
from typing import Any, Dict

Kind = namedtuple("Kind", "read write fields", defaults=(1,))

ESCAPED = re.compile(rb'\\(?:x([0-9a-f]{2})|([\\"]))')
TO_ESCAPE = re.compile(rb'[^ -~]|["\\]')


class Form:
    """A line's text, with the places of its fields in braces, and the kind of each."""

    def __init__(self, text: str, **kinds: Kind) -> None:
        self.text, self.kinds = text, kinds

    def read(self, fields: Any) -> Dict[str, Any]:
        values, at = {}, 0
        for name, kind in self.kinds.items():
            values[name] = kind.read(*fields[at:at + kind.fields])
            at += kind.fields
        return values

    def write(self, values: Dict[str, Any]) -> str:
        return self.text.format_map({name: kind.write(values[name]) for name, kind in self.kinds.items()})


def or_dash(kind: Kind) -> Kind:
    """The same, where `-` stands for null."""
    return Kind(lambda field: None if field == "-" else kind.read(field), lambda value: "-" if value is None else kind.write(value))


def unescaped(text: bytes) -> bytes:
    """The bytes of a text in which a byte may be written as `\\xHH`, and `\\` and `"` behind a `\\`."""
    return ESCAPED.sub(lambda found: bytes.fromhex(found[1].decode()) if found[1] else found[2], text)


def text_of_bytes(content: bytes) -> str:
    """Bytes as a text: UTF-8, in which `\\` is doubled, and a byte that isn't UTF-8 is `\\xHH`."""
    return content.replace(b"\\", b"\\\\").decode("utf-8", "backslashreplace")


def bytes_of(text: str) -> bytes:
    """The bytes of such a text."""
    return unescaped(text.encode("utf-8"))


def text_of(quoted: str) -> str:
    """The text between quotes."""
    return text_of_bytes(unescaped(quoted[1:-1].encode("ascii")))


def quoted(content: bytes) -> str:
    """Bytes between quotes, as a report has them."""
    escaped = TO_ESCAPE.sub(lambda found: b"\\" + found[0] if found[0] in b'"\\' else b"\\x%02x" % found[0][0], content)
    return f'"{escaped.decode("ascii")}"'


def quoted_of(text: str) -> str:
    """The same text between quotes."""
    return quoted(bytes_of(text))


# ---- what comes of something: always an object, whose `kind` says what else it has

BARE = {"ok", "continue", "restarted", "ended", "open", "pid"}


def result_of(word: str) -> Dict[str, Any]:
    if word in BARE:
        return {"kind": word}
    return {"kind": "error", "error": word} if word.startswith("E") else {"kind": "value", "value": word}


def result_word(result: Dict[str, Any]) -> str:
    return result.get(result["kind"], result["kind"])


def started_of(pid: str, memory: str, error: str) -> Dict[str, Any]:
    return result_of(error) if error else {"kind": "started", "pid": int(pid), "memory": memory}


def started_words(result: Dict[str, Any]) -> str:
    return f"pid={result['pid']} {result['memory']}" if result["kind"] == "started" else result_word(result)


def received_of(notification: str, pid: str, error: str) -> Dict[str, Any]:
    return result_of(error) if error else {"kind": "received", "id": notification, "pid": int(pid)}


def received_words(result: Dict[str, Any]) -> str:
    return f"id={result['id']} pid={result['pid']}" if result["kind"] == "received" else result_word(result)


def reaped_of(word: str) -> Dict[str, Any]:
    return result_of(word) if word.startswith("E") else {"kind": "reaped", "task": word}


def bytes_read_of(word: str) -> Dict[str, Any]:
    return result_of(word) if word.startswith("E") else {"kind": "bytes", "bytes": HEX_OR_DASH.read(word)}


def bytes_read_word(result: Dict[str, Any]) -> str:
    return HEX_OR_DASH.write(result["bytes"]) if result["kind"] == "bytes" else result_word(result)


def verdict_of(words: str) -> Dict[str, Any]:
    """What the filters say. The word `notify` has an id in a journal, and none in an outcome."""
    kind, *rest = re.split(r" id=|=", words)
    return {"kind": kind, **({} if not rest else {"id": rest[0]} if kind == "notify" else {"errno": int(rest[0])})}


def verdict_words(verdict: Dict[str, Any]) -> str:
    return verdict["kind"] + (f" id={verdict['id']}" if "id" in verdict else f"={verdict['errno']}" if "errno" in verdict else "")


def actor_of(word: str) -> Dict[str, Any]:
    if word.startswith("t"):
        return {"kind": "task", "name": word[1:]}
    return {"kind": "worker", "number": int(word[1:])} if word.startswith("w") else {"kind": "start" if word == "-" else word}


def actor_word(actor: Dict[str, Any]) -> str:
    if actor["kind"] == "task":
        return f"t{actor['name']}"
    return f"w{actor['number']}" if actor["kind"] == "worker" else "-" if actor["kind"] == "start" else actor["kind"]


# numbers that may pass 2^53 stay texts; the others are numbers
NUMBER = Kind(int, str)
WORD = LARGE = Kind(str, str)
TEXT = Kind(text_of, quoted_of)
QUOTED_BYTES = Kind(lambda word: unescaped(word[1:-1].encode("ascii")).hex(), lambda value: quoted(bytes.fromhex(value)))
HEX = Kind(str, str)
HEX_OR_DASH = Kind(lambda word: "" if word == "-" else word, lambda value: value or "-")
ARGUMENTS = Kind(str.split, " ".join)
RESULT = Kind(result_of, result_word)
STARTED = Kind(started_of, started_words, 3)
RECEIVED = Kind(received_of, received_words, 3)
REAPED = Kind(reaped_of, lambda result: result.get("task") or result_word(result))
BYTES_READ = Kind(bytes_read_of, bytes_read_word)
SENDS = Kind(lambda word: word is None, lambda sends: "" if sends else " nosend")
VERDICT = Kind(verdict_of, verdict_words)
ACTOR = Kind(actor_of, actor_word)
TASK = Kind(lambda word: word[1:], lambda name: f"t{name}")
WORKER = Kind(lambda word: int(word[1:]), lambda number: f"w{number}")
