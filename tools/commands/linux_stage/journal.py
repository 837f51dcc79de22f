"""The journal of a report, event by event."""
from __future__ import annotations

from typing import List, NamedTuple, Set


class Event(NamedTuple):
    place: int
    actor: str  # "-", "listener", "t0.1", "w3"
    what: str
    fields: list
    line: str


def event(line: str) -> Event:
    place, actor, what, *fields = line.split()
    return Event(int(place), actor, what, fields, line)


def journal(report: bytes) -> List[str]:
    """The lines of the journal of a report."""
    lines = report.decode("latin-1").split("\n")
    return lines[1:int(lines[0].split()[1]) + 1]


HANDS = 16  # behind the numbers of workers


def workers(events: List[Event]) -> Set[int]:
    """The numbers of the workers that step, and of those that make their requests for descriptors, which may have to wait."""
    steps = [(int(event.actor[1:]), event.what) for event in events if event.actor[0] == "w"]
    return {number for number, _ in steps} | {HANDS + number for number, what in steps if what == "addfd-put"}
