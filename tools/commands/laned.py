"""Says of each report whether its journal is laned, and which line is the first that isn't: tools/commands/laned REPORT ..

A journal is laned if the sessions of each kind of call are served one after another: a worker inside a session takes a step only where no
session of its lane goes on that was received before its own, and one outside a session only where it is the lowest worker of 0 to 15 that
has none. The lanes are mknod with mknodat, mount, setxattr, sysinfo, openat, and every other call.

Exit status: 0 where all are laned, 1 where one isn't, 2 where one can't be read.
"""
from __future__ import annotations

import sys
from typing import Any, Dict, Iterator, List, Optional, Tuple

from tools.commands.command_line.arguments import ToolParser
from tools.commands.messages.refusals import LIMITS

LANES = {name: name for name in (b"mknod", b"mount", b"setxattr", b"sysinfo", b"openat")} | {b"mknodat": b"mknod"}
SEATS = [b"w%d" % seat for seat in range(16)]


def journal(report: bytes) -> Iterator[Tuple[bytes, List[bytes], bytes]]:
    """The actors and steps of a report's journal, with their lines."""
    for line in report.split(b"\ncalls ", 1)[0].splitlines()[1:]:
        _, who, *step = line.split(b" ")
        yield who, step, line


def may_step(who: bytes, sessions: Dict[bytes, bytes]) -> bool:
    """Whether a worker may take a step: `sessions` has the lanes of the sessions that go on, in the order of their receives."""
    if who in sessions:
        return next(seat for seat, lane in sessions.items() if lane == sessions[who]) == who
    return who == next((seat for seat in SEATS if seat not in sessions), None)


def first_fault(report: bytes) -> Optional[bytes]:
    """The first line of a report's journal that isn't laned, or None."""
    calls: Dict[bytes, Any] = {}
    sessions: Dict[bytes, Any] = {}
    for who, step, line in journal(report):
        if step[0] == b"call" and step[-2] == b"notify":
            calls[step[-1]] = LANES.get(step[1], b"other")
        if not who.startswith(b"w"):
            continue
        if not may_step(who, sessions):
            return line
        if step[0] == b"let-go":
            sessions.pop(who, None)
        elif step[0] == b"recv" and step[1].startswith(b"id="):
            sessions[who] = calls[step[1]]
    return None


def bytes_of(path: str) -> bytes:
    """The bytes of a report, or so many that it is none."""
    with open(path, "rb") as file:
        return file.read(LIMITS["report"] + 1)


def main() -> int:
    parser = ToolParser()
    parser.add_argument("reports", metavar="REPORT", nargs="+")
    asked = parser.parse_args()
    found = 0
    for path in asked.reports:
        try:
            fault = first_fault(bytes_of(path))
        except (OSError, ValueError, IndexError, KeyError) as error:
            print(f"{path}: no report: {error!r}", file=sys.stderr)
            return 2
        print(f"{path}: {'laned' if fault is None else 'not laned at ' + fault.decode('latin-1')}")
        found |= fault is not None
    return int(found)
