"""What `judge` prints of the workers of a schedule, and the first line of it, which `step` answers."""
from __future__ import annotations

import re
from typing import Any, Dict, Iterator, Union

from tools.commands.json_documents.lines import Lines
from tools.commands.json_documents.report import event_in, event_line
from tools.commands.json_documents.values import Form, NUMBER, WORD
from tools.commands.pages.reports import NUMBER as DIGITS, NotAReport

MEDIATED_LINE = re.compile(rf"mediated events=({DIGITS}) calls=({DIGITS}) effects=({DIGITS}) answers=({DIGITS})")
MEDIATED = Form("mediated events={events} calls={calls} effects={effects} answers={answers}", events=NUMBER, calls=NUMBER, effects=NUMBER, answers=NUMBER)
BROKEN_LINE = re.compile(rf"broken ({DIGITS}) (harm|answer|order) ([a-z-]+)")
BROKEN = Form("broken {place} {class} {clause}", **{"place": NUMBER, "class": WORD, "clause": WORD})
EVENT_LINE, CALL_LINE, SAID_LINE = re.compile("(.*)"), re.compile("call (.*)"), re.compile("  (.*)")
NO_CALL, BEHIND_AN_EVENT = "-", ": "


def is_mediated(lines: Lines) -> bool:
    return not lines.next_is("broken ")


def verdict_of(lines: Lines) -> Dict[str, Union[int, str]]:
    """What the next line says: how much was done, or which event breaks which clause."""
    if is_mediated(lines):
        return {"kind": "mediated", **MEDIATED.read(lines.take(MEDIATED_LINE, "whether the workers mediated"))}
    return {"kind": "broken", **BROKEN.read(lines.take(BROKEN_LINE, "which event breaks which clause"))}


def verdict_line(verdict: Dict[str, Any]) -> str:
    return (MEDIATED if verdict["kind"] == "mediated" else BROKEN).write(verdict)


def shown_event(words: str, number: int) -> Any:
    """The event with which a reason begins, and what is said of it; None and all words where no event shows it."""
    for at in (it.start() for it in re.finditer(BEHIND_AN_EVENT, words)):
        try:
            return event_in(words[:at], number), words[at + len(BEHIND_AN_EVENT):]
        except NotAReport:
            # (it stands in a text of the event, or in what is said)
            continue
    return None, words


def reason_of(lines: Any) -> Any:
    words, = lines.take(SAID_LINE, "a reason")
    event, says = shown_event(words, lines.at)
    return {"event": event, "says": says}


def broken_of(lines: Lines) -> Dict[str, Any]:
    verdict = verdict_of(lines)
    words, = lines.take(EVENT_LINE, "the event")
    event = event_in(words, lines.at)
    if event["place"] != verdict["place"]:
        raise NotAReport(lines.at, f"the event at {verdict['place']} should be here")
    call, = lines.take(CALL_LINE, "the call that it is about")
    call = None if call == NO_CALL else event_in(call, lines.at)
    means, = lines.take(SAID_LINE, "what it means")
    reasons = []
    while lines.are_left:
        reasons.append(reason_of(lines))
    return {"kind": "broken", "class": verdict["class"], "clause": verdict["clause"], "event": event, "call": call, "means": means, "reasons": reasons}


def judgement_of(data: bytes) -> Dict[str, Dict[str, Any]]:
    lines = Lines(data)
    found = verdict_of(lines) if is_mediated(lines) else broken_of(lines)
    lines.end("the counts")
    return {"judgement": found}


def reason_line(reason: Dict[str, Any]) -> str:
    return f"  {event_line(reason['event'])}{BEHIND_AN_EVENT}{reason['says']}" if reason["event"] else f"  {reason['says']}"


def judgement_lines(document: Dict[str, Any]) -> Iterator[str]:
    judged = document["judgement"]
    if judged["kind"] == "mediated":
        yield verdict_line(judged)
        return
    yield verdict_line({**judged, "place": judged["event"]["place"]})
    yield event_line(judged["event"])
    yield f"call {event_line(judged['call']) if judged['call'] else NO_CALL}"
    yield f"  {judged['means']}"
    yield from map(reason_line, judged["reasons"])
