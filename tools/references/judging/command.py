"""The command reference-judge, and what it has in common with explore-broker: the files that are read, and how a command ends."""
from __future__ import annotations

import sys
from typing import List

from tools.commands.command_line import written
from tools.commands.command_line.arguments import Parser
from tools.commands.command_line.ending import reason
from tools.references.judging.sessions import Follower, Unlike, Unreadable, read_session
from tools.references.stepping.inputs import USAGE, WRITE_FAULT, Ended, read_files, status_of, taken

NO_SESSION, BROKEN = 9, 11
SHOWN = 300


class Words(Parser):
    """The words of a command; others end it with its usage. `behind` is what stands behind those words."""

    def __init__(self, word: str, behind: str = "") -> None:
        super().__init__(word)
        self.behind = behind

    def error(self, message):
        raise Ended(USAGE, f"{self.format_usage().rstrip()}{self.behind}\n{self.prog}: {message}")


def shown(content):
    text = content.decode("latin-1")
    return text if len(text) <= SHOWN else f"{text[:SHOWN]}.."


def followed(policy, script, exchanges):
    """What came of a session over the kernel that two files begin."""
    follower = Follower(*read_files(policy, script))
    try:
        follower.follow(exchanges)
    except Unlike as unlike:
        line, told, wanted = unlike.args
        raise Ended(NO_SESSION, f"session: line {line}: it says `{shown(told)}`, and the kernel of this policy and script answers `{shown(wanted)}`") from None
    return follower


def write(path, text):
    try:
        written.write(path, text.encode("latin-1"))
    except OSError as error:
        raise Ended(WRITE_FAULT, f"write fault: {path}: {reason(error)}") from None


def run(words):
    parser = Words("reference-judge")
    parser.add_argument("--idle", action="store_true")
    parser.add_argument("--report", metavar="FILE")
    for name in ("policy", "script", "session"):
        parser.add_argument(name, metavar=name.upper())
    asked = parser.parse_args(words)
    follower = followed(asked.policy, asked.script, taken("session", asked.session, read_session, Unreadable, NO_SESSION))
    if asked.idle:
        follower.judge.note_idle()
    if asked.report is not None:
        write(asked.report, follower.session.report())
    sys.stdout.buffer.write(follower.judge.text().encode("latin-1"))
    return BROKEN if follower.judge.fault else 0


def main(words: List[str]) -> int:
    return status_of(run, words)
