"""What `audit-check` prints of a report that it accepts."""
from __future__ import annotations

import re
from typing import Any, Dict, Iterator

from tools.commands.json_documents.lines import Lines
from tools.commands.json_documents.values import Form, Kind, NUMBER, WORD, or_dash
from tools.commands.pages.reports import NUMBER as DIGITS

PLACE = rf"({DIGITS}|-)"
FIRST_LINE = re.compile(rf"yes events=({DIGITS}) finished=(yes|no)")
TRAIL_LINE = re.compile(rf"trail ({DIGITS}) recv={PLACE} valid={PLACE} effect={PLACE} answer={PLACE} rule=(\S+)")
FIRST = Form("yes events={events} finished={finished}", events=NUMBER, finished=Kind(lambda word: word == "yes", lambda value: "yes" if value else "no"))
TRAIL = Form("trail {call} recv={receive} valid={valid} effect={effect} answer={answer} rule={rule}", call=NUMBER, receive=or_dash(NUMBER),
             valid=or_dash(NUMBER), effect=or_dash(NUMBER), answer=or_dash(NUMBER), rule=or_dash(WORD))


def trail_of(data: bytes) -> Dict[str, Any]:
    lines = Lines(data)
    first, trail = FIRST.read(lines.take(FIRST_LINE, "'yes' and the number of events")), []
    while lines.are_left:
        trail.append(TRAIL.read(lines.take(TRAIL_LINE, "the trail of a call")))
    return {**first, "trail": trail}


def trail_lines(document: Dict[str, Any]) -> Iterator[str]:
    yield FIRST.write(document)
    yield from map(TRAIL.write, document["trail"])
