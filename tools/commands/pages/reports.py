"""Reads a report, line by line, as docs/reference/REPORT.md tells its form ("The report").

What is read is the form alone: whether it is the report of a legal history is what audit-check tells.
"""
from __future__ import annotations

import re
from collections import namedtuple
from typing import Any, Callable, List, Pattern, Tuple

LIMIT = 33_554_432
# what is wrong with a line that ends as lines do on Windows, and the cure
CR_LF, LF_ALONE = "this line ends with CR and LF", "`sed 's/\\r$//'` leaves LF alone"

NUMBER = r"\d{1,20}"
SIGNED = r"-?\d{1,20}"
NAME = r"\d+(?:\.\d+)*"
ERRNO = r"E[A-Z0-9]+"
RESULT = rf"ok|{ERRNO}"
COUNT = rf"{SIGNED}|{ERRNO}"
BACK = rf"{SIGNED}|{ERRNO}|continue"
CALL = rf"[a-z]+|{SIGNED}"
HEX = r"(?:[0-9a-f]{2})*"
SOME_HEX = r"-|(?:[0-9a-f]{2})+"
TEXT = r'"(?:[ !#-\[\]-~]|\\["\\]|\\x[0-9a-f]{2})*"'
NODE = rf"reg|(?:chr|blk) {NUMBER}:{NUMBER}|fifo|sock|dir|bad"
VERDICT = rf"notify id={NUMBER}|allow|log|errno={NUMBER}|nosys|kill"
REQUEST = (
    rf"mknod {TEXT} (?:{NODE})|mknodat {SIGNED} {TEXT} (?:{NODE})"
    rf"|mount {TEXT} {TEXT} {TEXT} flags={NUMBER} data={TEXT} via=\S+ shift=[01]"
    rf"|setxattr {TEXT} {TEXT} (?:{SOME_HEX}) flags={NUMBER}|{CALL}"
)

TASK, WORKER, LISTENER, START = "task", "worker", "listener", "start"
ACTORS = {"t": TASK, "w": WORKER, "l": LISTENER, "-": START}
ACTOR = re.compile(rf"t{NAME}|w\d{{1,3}}|listener|-")

# for each kind of step who takes it, and the form of what stands behind its word
STEP_FORMS = {
    "spawn": ((TASK, START), rf"({NAME}) (?:pid=({NUMBER}) (new|copy|share)|({ERRNO}))"),
    "poke": ((TASK,), rf"({NUMBER}) ({HEX})"),
    "handler": ((TASK,), rf"({NUMBER}) (default|restart|plain)"),
    "call": ((TASK,), rf"({CALL})((?: {NUMBER}){{6}}) ({VERDICT})"),
    "native": ((TASK,), rf"({COUNT})"),
    "install": ((TASK,), rf"({COUNT})"),
    "resume": ((TASK,), rf"({BACK})"),
    "kill": ((TASK,), rf"({NUMBER}) ({NUMBER}) ({RESULT})"),
    "deliver": ((TASK,), rf"({NUMBER}) (end|run|restart|eintr)"),
    "wait": ((TASK,), rf"({NAME}|{ERRNO})"),
    "exit": ((TASK,), ""),
    "recv": ((WORKER,), rf"(?:id=({NUMBER}) pid=({NUMBER})|({ERRNO}))"),
    "open-mem": ((WORKER,), rf"({NUMBER}) ({RESULT})"),
    "open-base": ((WORKER,), rf"({NUMBER}) ({SIGNED}) ({RESULT})"),
    "check": ((WORKER,), rf"({NUMBER}) ({RESULT})"),
    "read": ((WORKER,), rf"({NUMBER}) ({NUMBER}) ({SOME_HEX}|{ERRNO})"),
    "act": ((WORKER,), rf"({REQUEST}) ({RESULT})"),
    "plant": ((WORKER,), rf"({NUMBER}) ({RESULT})"),
    "addfd-put": ((WORKER,), rf"({NUMBER}) src=({NUMBER}) at=({NUMBER}|-)( nosend)? ({RESULT})"),
    "addfd-take": ((WORKER,), rf"({COUNT})"),
    "send": ((WORKER,), rf"({NUMBER}) ({BACK}) ({RESULT})"),
    "let-go": ((WORKER,), ""),
    "skip": ((TASK, WORKER), ""),
    "close": ((LISTENER,), ""),
}
STEPS = {word: (actors, re.compile(form)) for word, (actors, form) in STEP_FORMS.items()}
CALL_LINE = re.compile(rf"({NUMBER}) (t{NAME}) pid=({NUMBER}) ({CALL}) ({SIGNED}|{ERRNO}|restarted|ended|open)")
AUDIT_LINE = re.compile(
    rf"({NUMBER}) (w\d{{1,3}}) id=({NUMBER}) ({CALL}) rule=(\S+) verdict=(grant|deny|pass|inject|spent|fault|gone|open)"
    rf" answer=({BACK}|-) reply=(sent|lost|none)"
)
COUNTED = ("events", "calls", "notified", "answered", "granted", "denied", "passed", "injected", "faults", "gone", "lost")
SUMMARY = re.compile("summary " + " ".join(rf"{name}=({NUMBER})" for name in COUNTED))

Event = namedtuple("Event", "actor word fields")
Call = namedtuple("Call", "place actor pid name outcome")
Judged = namedtuple("Judged", "place actor id name rule verdict answer reply")
Report = namedtuple("Report", "lines events calls audit summary")


class NotAReport(Exception):
    """A line, counted from 1, at which the text is no report, and why."""

    def __init__(self, line: int, why: str) -> None:
        super().__init__(f"line {line}: {why}")
        self.line, self.why = line, why


def lines_of(data: bytes, most: int) -> List[str]:
    """The lines of a text, each of which ends with a newline."""
    if len(data) > most:
        raise NotAReport(1, f"a report has at most {most} bytes, and this has {len(data)}")
    try:
        text = data.decode("ascii")
    except UnicodeDecodeError as fault:
        raise NotAReport(data.count(b"\n", 0, fault.start) + 1, "a byte that no report has") from None
    if "\r\n" in text:
        raise NotAReport(text[:text.index("\r\n")].count("\n") + 1, f"{CR_LF}: {LF_ALONE}")
    lines = text.split("\n")
    if lines.pop() != "":
        raise NotAReport(len(lines) + 1, "the last line has no newline")
    return lines


def part(lines, at, name, form):
    """The fields of each line of a part that begins at this line, and the line behind it."""
    head = re.fullmatch(rf"{name} ({NUMBER})", lines[at]) if at < len(lines) else None
    if head is None:
        raise NotAReport(at + 1, f"'{name}' and a number of lines should be here")
    end = at + 1 + int(head.group(1))
    if end > len(lines):
        raise NotAReport(len(lines) + 1, f"'{name}' says {head.group(1)} lines, and there are {len(lines) - at - 1} below it")
    found = []
    for number in range(at + 1, end):
        try:
            found.append(form(lines[number], number - at - 1))
        except ValueError as fault:
            raise NotAReport(number + 1, str(fault)) from None
    return found, end


def event_of(line, place):
    """The event of a journal's line."""
    words = line.split(" ", 3)
    if len(words) < 3 or words[0] != str(place):
        raise ValueError(f"event {place} should be here")
    _, actor, word, *rest = words
    if not ACTOR.fullmatch(actor):
        raise ValueError(f"no actor has the name {actor[:40]!r}")
    actors, form = STEPS.get(word, ((), None))
    if ACTORS[actor[0]] not in actors:
        raise ValueError(f"{actor[:40]} takes no step {word[:40]!r}")
    fields = form.fullmatch(rest[0] if rest else "")
    if fields is None or (rest and rest[0] == ""):
        raise ValueError(f"'{word}' has other fields")
    return Event(actor, word, fields.groups())


def fields_of(form: Pattern[Any], what: str) -> Callable[..., Any]:
    """The fields of a line of this form."""

    def read(line: str, _: int) -> Tuple[str, ...]:
        fields = form.fullmatch(line)
        if fields is None:
            raise ValueError(f"this is no line of {what}")
        return fields.groups()

    return read


def listed_calls(lines: List[str], at: int, events: List[Event]) -> Tuple[List[Call], int]:
    """The calls, of which each has the place of one event that entered it."""
    entered = [place for place, event in enumerate(events) if event.word == "call"]
    read = fields_of(CALL_LINE, "the calls")

    def call(line: str, number: int) -> Call:
        place, actor, pid, name, outcome = read(line, number)
        if number >= len(entered) or entered[number] != int(place) or events[int(place)].actor != actor or events[int(place)].fields[0] != name:
            raise ValueError("no event of the journal entered this call")
        return Call(int(place), actor, pid, name, outcome)

    calls, end = part(lines, at, "calls", call)
    if len(calls) != len(entered):
        raise NotAReport(end + 1, f"the journal has {len(entered)} calls, and {len(calls)} are listed")
    return calls, end


def listed_audit(lines: List[str], at: int, events: List[Event]) -> Tuple[List[Judged], int]:
    """The audit, of which each line has the place of one receive."""
    received = [place for place, event in enumerate(events) if event.word == "recv" and event.fields[0] is not None]
    read = fields_of(AUDIT_LINE, "the audit")

    def judged(line: str, number: int) -> Judged:
        place, actor, notification, *rest = read(line, number)
        if number >= len(received) or received[number] != int(place) or events[int(place)].actor != actor or events[int(place)].fields[0] != notification:
            raise ValueError("no event of the journal received this notification")
        return Judged(int(place), actor, notification, *rest)

    audit, end = part(lines, at, "audit", judged)
    if len(audit) != len(received):
        raise NotAReport(end + 1, f"the journal has {len(received)} receives, and {len(audit)} are listed")
    return audit, end


def read(data: bytes, most: int = LIMIT) -> Report:
    """The report that these bytes are, which are so many at most; raises NotAReport where they are none."""
    lines = lines_of(data, most)
    events, at = part(lines, 0, "journal", event_of)
    calls, at = listed_calls(lines, at, events)
    audit, at = listed_audit(lines, at, events)
    counts = SUMMARY.fullmatch(lines[at]) if at < len(lines) else None
    if counts is None:
        raise NotAReport(at + 1, "the summary should be here")
    if at + 1 < len(lines):
        raise NotAReport(at + 2, "nothing may follow the summary")
    return Report(lines, events, calls, audit, dict(zip(COUNTED, map(int, counts.groups()))))
