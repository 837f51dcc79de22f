"""Answers the requests of `step` over a simulated kernel of its own, by what the documents say alone, and plays schedules: of this project's workers, of those of another broker, and of both.

    tools/references/reference-step step POLICY SCRIPT
    tools/references/reference-step POLICY SCRIPT
    tools/references/reference-step play POLICY SCRIPT

Statuses and lines on standard error are those of the program. tools/checks/check-your-broker compares both. Where SECCOMP_BROKER_SESSION names a file, requests and answers of `step` are written there, for
tools/references/reference-judge.
"""
from __future__ import annotations

import os
import sys
from typing import BinaryIO, List, Optional, Tuple

from tools.commands.command_line.arguments import ToolParser
from tools.references.judging.sessions import session_text
from tools.references.stepping import inputs
from tools.references.stepping.plays import play
from tools.references.stepping.requests import LONGEST
from tools.references.stepping.sessions import Session

CHUNK = 65_536


class Lines:
    """The lines of a file, without their newlines. Of one that is too long no more is kept than shows that."""

    def __init__(self, source: int) -> None:
        self.source, self.begun = source, b""

    def read(self) -> Optional[List[bytes]]:
        """The lines that are whole after the next read; None at the end of the file, where what is left is the last one."""
        data = os.read(self.source, CHUNK)
        *whole, begun = (self.begun + data).split(b"\n")
        self.begun = begun[:LONGEST + 1]
        return whole if data else None


class Answerer:
    """Answers lines, and writes down what was asked and answered where that is wanted."""

    def __init__(self, session: Session, sink: BinaryIO) -> None:
        self.session, self.sink = session, sink
        path = os.environ.get("SECCOMP_BROKER_SESSION")
        self.written = open(path, "wb") if path else None

    def answer(self, line: bytes) -> None:
        told = self.session.answer(line).encode("latin-1")
        self.sink.write(told)
        if self.written is not None:
            self.written.write(session_text([(line, told)]))

    def flush(self) -> None:
        self.sink.flush()
        if self.written is not None:
            self.written.flush()


def serve(session: Session, source: int, sink: BinaryIO) -> None:
    """Answers each line; what was answered is flushed before more is read."""
    lines, answerer = Lines(source), Answerer(session, sink)
    while (whole := lines.read()) is not None:
        for line in whole:
            answerer.answer(line)
        answerer.flush()
    if lines.begun:
        answerer.answer(lines.begun)
        answerer.flush()


def asked() -> Tuple[str, List[str]]:
    """The word, and the files behind it."""
    parser = ToolParser()
    parser.add_argument("words", metavar="[step|play] POLICY SCRIPT", nargs="+")
    words = parser.parse_args().words
    word, files = (words[0], words[1:]) if words[0] in ("step", "play") else ("step", words)
    if len(files) != 2:
        parser.error("it takes a policy and a script")
    return word, files


def done(word: str, files: List[str]) -> None:
    rules, container = inputs.read_files(*files)
    try:
        if word == "play":
            sys.stdout.buffer.write(play(rules, container).encode("latin-1"))
            sys.stdout.flush()
        else:
            serve(Session(rules, container), sys.stdin.fileno(), sys.stdout.buffer)
    except OSError:
        raise inputs.Ended(inputs.WRITE_FAULT, "write fault") from None


def main() -> int:
    return inputs.status_of(done, *asked(), says_why=False)
