"""The tokens of a line, and numbers, as docs/reference/SCRIPT.md has them (Script lines and tokens)."""
from __future__ import annotations

import re
from typing import List

from tools.commands.messages.script_lines import Token

BLANKS = b" \t"
BARE = re.compile(rb"[!#-\[\]-~]+")
QUOTED = re.compile(rb'"((?:[^"\\\x00-\x1f]|\\(?:[0n\\"]|x[0-9a-fA-F]{2}))*)"')
ESCAPE = re.compile(rb"\\(?:x(..)|(.))")
ESCAPES = {b"0": b"\0", b"n": b"\n", b"\\": b"\\", b'"': b'"'}


class LineFault(Exception):
    """A line that is refused; the text is the reason."""


def unescaped(raw: bytes) -> bytes:
    return ESCAPE.sub(lambda found: bytes([int(found[1], 16)]) if found[1] else ESCAPES[found[2]], raw)


def token_at(line: bytes, at: int) -> Token:
    """The token that begins here."""
    if line[at:at + 1] == b'"':
        quoted = QUOTED.match(line, at)
        if not quoted:
            raise LineFault("bad quote")
        return Token(quoted[0].decode("latin-1"), at, quoted.end(), unescaped(quoted[1]))
    bare = BARE.match(line, at)
    if not bare:
        raise LineFault("bad byte")
    return Token(bare[0].decode("ascii"), at, bare.end())


def is_touched(token: Token, line: bytes) -> bool:
    """Whether another token begins where this one ends; a bare one ends only at a quote, or where no token begins."""
    following = line[token.end:token.end + 1]
    return following == b'"' or (token.is_quoted and BARE.match(following) is not None)


def tokens_of(line: bytes) -> List[Token]:
    """The tokens of a line without its newline; none of a comment. Raises LineFault for its leftmost fault."""
    line = line[:-1] if line.endswith(b"\r") else line
    found, at = [], 0
    if line.lstrip(BLANKS).startswith(b"#"):
        return []
    while at < len(line):
        if line[at] in BLANKS:
            at += 1
            continue
        token = token_at(line, at)
        if is_touched(token, line):
            raise LineFault("bad quote")
        found.append(token)
        at = token.end
    return found
