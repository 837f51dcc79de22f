"""A report as a part of a document, and back."""
from __future__ import annotations

from typing import TYPE_CHECKING, Any, Dict, Iterator, Optional

from tools.commands.json_documents.requests import REQUEST
from tools.commands.json_documents.values import (
    ACTOR, ARGUMENTS, BYTES_READ, Form, HEX, LARGE, NUMBER, REAPED, RECEIVED, RESULT, SENDS, STARTED, TASK, VERDICT, WORD, WORKER, or_dash,
)
from tools.commands.pages import reports

if TYPE_CHECKING:
    from tools.commands.pages.reports import Event

EVENTS = {
    "spawn": Form("{task} {result}", task=WORD, result=STARTED),
    "poke": Form("{address} {bytes}", address=LARGE, bytes=HEX),
    "handler": Form("{signal} {mode}", signal=NUMBER, mode=WORD),
    "call": Form("{call} {arguments} {verdict}", call=WORD, arguments=ARGUMENTS, verdict=VERDICT),
    "native": Form("{result}", result=RESULT),
    "install": Form("{result}", result=RESULT),
    "resume": Form("{answer}", answer=RESULT),
    "kill": Form("{pid} {signal} {result}", pid=NUMBER, signal=NUMBER, result=RESULT),
    "deliver": Form("{signal} {effect}", signal=NUMBER, effect=WORD),
    "wait": Form("{result}", result=REAPED),
    "recv": Form("{result}", result=RECEIVED),
    "open-mem": Form("{pid} {result}", pid=NUMBER, result=RESULT),
    "open-base": Form("{pid} {directory_descriptor} {result}", pid=NUMBER, directory_descriptor=NUMBER, result=RESULT),
    "check": Form("{id} {result}", id=LARGE, result=RESULT),
    "read": Form("{address} {length} {result}", address=LARGE, length=NUMBER, result=BYTES_READ),
    "act": Form("{request} {result}", request=REQUEST, result=RESULT),
    "plant": Form("{address} {result}", address=LARGE, result=RESULT),
    "addfd-put": Form("{id} src={source_descriptor} at={wanted_descriptor}{sends} {result}", id=LARGE, source_descriptor=NUMBER,
                      wanted_descriptor=or_dash(NUMBER), sends=SENDS, result=RESULT),
    "addfd-take": Form("{result}", result=RESULT),
    "send": Form("{id} {answer} {result}", id=LARGE, answer=RESULT, result=RESULT),
}
STEP = Form("{place} {actor} {event}", place=NUMBER, actor=ACTOR, event=WORD)
CALL = Form("{place} {task} pid={pid} {call} {outcome}", place=NUMBER, task=TASK, pid=NUMBER, call=WORD, outcome=RESULT)
JUDGED = Form("{place} {worker} id={id} {call} rule={rule} verdict={verdict} answer={answer} reply={reply}", place=NUMBER, worker=WORKER, id=LARGE,
              call=WORD, rule=or_dash(WORD), verdict=WORD, answer=or_dash(RESULT), reply=WORD)


def event_of(place: int, event: Event) -> Dict[str, Any]:
    """An event. `exit`, `let-go`, `skip` and `close` say all by their word."""
    form = EVENTS.get(event.word)
    return {**STEP.read((place, event.actor, event.word)), **(form.read(event.fields) if form else {})}


def event_in(line: str, number: int) -> Any:
    """The event of a line, which begins with the event's place; `number` is the line's."""
    place = line.split(" ", 1)[0]
    try:
        return event_of(int(place), reports.event_of(line, place))
    except ValueError as fault:
        raise reports.NotAReport(number, str(fault)) from None


def event_line(event: Any) -> str:
    form = EVENTS.get(event["event"])
    return f"{STEP.write(event)} {form.write(event)}" if form else STEP.write(event)


def report_of(data: bytes) -> Dict[str, Any]:
    """The four parts of the report that these bytes are, of any length."""
    read = reports.read(data, most=len(data))
    return {"journal": [event_of(place, event) for place, event in enumerate(read.events)], "calls": [CALL.read(call) for call in read.calls],
            "audit": [JUDGED.read(judged) for judged in read.audit], "summary": read.summary}


def counts_words(counts: Dict[str, int]) -> str:
    return " ".join(f"{name}={counts[name]}" for name in reports.COUNTED)


def counts_of(words: str) -> Optional[Dict[str, int]]:
    """The counts of a line, behind its first word."""
    counts = reports.SUMMARY.fullmatch(f"summary {words}")
    return dict(zip(reports.COUNTED, map(int, counts.groups()))) if counts else None


def report_lines(report: Dict[str, Any]) -> Iterator[str]:
    for name, line in (("journal", event_line), ("calls", CALL.write), ("audit", JUDGED.write)):
        yield f"{name} {len(report[name])}"
        yield from map(line, report[name])
    yield f"summary {counts_words(report['summary'])}"
