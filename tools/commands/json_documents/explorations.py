"""What `explore` prints: the counts, and the outcomes with their calls and schedules."""
from __future__ import annotations

import re
from typing import Any, Dict, Iterator, List

from tools.commands.json_documents.lines import Lines
from tools.commands.json_documents.report import EVENTS
from tools.commands.json_documents.values import ACTOR, Form, LARGE, NUMBER, RESULT, TASK, VERDICT, WORD, or_dash
from tools.commands.pages.reports import CALL, ERRNO, NAME, NUMBER as DIGITS, NotAReport, SIGNED, STEPS

# how many histories there are, and how many events they have, may have more digits than any other number
COUNT = r"\d+"
FIRST = re.compile(rf"explored (?:workers=({DIGITS}) delays=({DIGITS}|all) )?histories=({COUNT}) events=({COUNT}) longest=({DIGITS})"
                   rf" outcomes=({DIGITS}) whole=(yes|bound|no)")
OUTCOME = re.compile(rf"outcome ({DIGITS}) histories=({COUNT})")
CALL_LINE = re.compile(rf"(t{NAME}) ({DIGITS}) ({CALL}) (notify|allow|log|errno={DIGITS}|nosys|kill) ({SIGNED}|{ERRNO}|restarted|ended|open|pid)"
                       r" (rule=\S+ verdict=\S+ reply=\S+)")
AUDIT_LINE = re.compile(r"rule=(\S+) verdict=(grant|deny|pass|inject|spent|fault|gone|open) reply=(sent|lost|none)")
DID_LINE = re.compile(r" did (plant )?(.*?)(?: (covered|replaced))?")
TURN_LINE = re.compile(rf"(t {NAME}|w {DIGITS}) ({DIGITS})")

BOUNDS = Form("workers={workers} delays={delays} ", workers=NUMBER, delays=WORD)
COUNTS = Form("histories={histories} events={events} longest={longest}", histories=LARGE, events=LARGE, longest=NUMBER)
ENTERED = Form("{task} {number} {call} {verdict} {outcome}", task=TASK, number=NUMBER, call=WORD, verdict=VERDICT, outcome=RESULT)
JUDGED = Form("rule={rule} verdict={verdict} reply={reply}", rule=or_dash(WORD), verdict=WORD, reply=WORD)
NOT_RECEIVED = "rule=- verdict=- reply=-"
TOO_LONG = "schedule too long"


def did_of(lines: Lines) -> Dict[str, Any]:
    """What a session did. What is so of it at the end of the history, beside the result, stands in `afterwards`."""
    plant, words, afterwards = lines.take(DID_LINE, "what a session did")
    event = "plant" if plant else "act"
    fields = STEPS[event][1].fullmatch(words)
    if fields is None:
        raise NotAReport(lines.at, f"'{event}' has other fields")
    return {"event": event, **EVENTS[event].read(fields.groups()), "afterwards": afterwards}


def did_line(did: Dict[str, Any]) -> str:
    event = did["event"]
    return f" did {'plant ' if event == 'plant' else ''}{EVENTS[event].write(did)}{' ' + did['afterwards'] if did['afterwards'] else ''}"


def call_of(lines: Lines) -> Dict[str, Any]:
    *entered, audit = lines.take(CALL_LINE, "a call, or a schedule,")
    judged = AUDIT_LINE.fullmatch(audit)
    if judged is None and audit != NOT_RECEIVED:
        raise NotAReport(lines.at, "the audit of a call has another form")
    call: Dict[str, Any] = {**ENTERED.read(entered), "audit": judged and JUDGED.read(judged.groups()), "did": []}
    while lines.next_is(" did "):
        call["did"].append(did_of(lines))
    return call


def call_lines(call: Dict[str, Any]) -> Iterator[str]:
    yield f"{ENTERED.write(call)} {JUDGED.write(call['audit']) if call['audit'] else NOT_RECEIVED}"
    yield from map(did_line, call["did"])


def turn_of(lines: Lines) -> Dict[str, Any]:
    actor, steps = lines.take(TURN_LINE, "a line of a schedule, or its end,")
    return {"actor": ACTOR.read(actor.replace(" ", "")), "steps": int(steps)}


def turn_line(turn: Dict[str, Any]) -> str:
    word = ACTOR.write(turn["actor"])
    return f"{word[0]} {word[1:]} {turn['steps']}"


def schedule_of(lines: Any) -> Any:
    """The turns of a schedule, or None where it is too long to be printed."""
    if lines.next_is(TOO_LONG):
        return lines.skip(TOO_LONG)
    lines.skip("schedule")
    turns = []
    while not lines.next_is("end"):
        turns.append(turn_of(lines))
    lines.skip("end")
    return turns


def outcome_of(lines: Lines) -> Dict[str, Any]:
    number, histories = lines.take(OUTCOME, "an outcome")
    calls: List[Dict[str, Any]] = []
    if lines.next_is("none"):
        lines.skip("none")
    else:
        while not calls or not lines.next_is("schedule"):
            calls.append(call_of(lines))
    return {"number": int(number), "histories": histories, "calls": calls, "schedule": schedule_of(lines)}


def outcome_lines(outcome: Dict[str, Any]) -> Iterator[str]:
    yield f"outcome {outcome['number']} histories={outcome['histories']}"
    for call in outcome["calls"]:
        yield from call_lines(call)
    if not outcome["calls"]:
        yield "none"
    if outcome["schedule"] is None:
        yield TOO_LONG
    else:
        yield from ["schedule", *map(turn_line, outcome["schedule"]), "end"]


def exploration_of(data: bytes) -> Dict[str, Any]:
    lines = Lines(data)
    workers, delays, *counts, outcomes, whole = lines.take(FIRST, "the counts of what was explored")
    found = []
    while lines.are_left:
        found.append(outcome_of(lines))
    if len(found) != int(outcomes):
        raise NotAReport(1, f"{outcomes} outcomes are counted, and {len(found)} stand below")
    return {**(BOUNDS.read((workers, delays)) if workers else {}), **COUNTS.read(counts), "whole": whole, "outcomes": found}


def exploration_lines(document: Dict[str, Any]) -> Iterator[str]:
    bounds = BOUNDS.write(document) if "workers" in document else ""
    yield f"explored {bounds}{COUNTS.write(document)} outcomes={len(document['outcomes'])} whole={document['whole']}"
    for outcome in document["outcomes"]:
        yield from outcome_lines(outcome)
