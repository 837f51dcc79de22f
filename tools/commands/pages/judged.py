"""What the judge of brokers has found in a history, for its picture: the first event that breaks a clause, and the events that this rests on (docs/YOUR_BROKER.md, Judge a session)."""
from __future__ import annotations

import re
from typing import Any, Dict, Optional, Tuple

from tools.commands.pages.reports import NotAReport, Report, lines_of

HEAD = re.compile(r"broken (\d{1,9}) (harm|answer|order) ([a-z-]{1,40})")
REASON = re.compile(r"  (\d{1,9}) (.*)")
SAID = "  "


class NotJudged(NotAReport):
    """A line at which the judge's text isn't one, or is another history's."""


def quoted_place(line: str, report: Report) -> Optional[Tuple[int, str]]:
    """The place of the event whose line begins a line, as the journal has it, and what is said of it; None where none does."""
    found = REASON.fullmatch(line)
    if found is None or int(found[1]) >= len(report.events):
        return None
    place = int(found[1])
    # (of what was written as an answer the judge tells more than the journal)
    event = report.lines[place + 1]
    if not line[len(SAID):].startswith(f"{event}: "):
        return None
    return place, line[len(SAID) + len(event) + 2:]


def judged_of(text: bytes, report: Report) -> Optional[Dict[str, Any]]:
    """What is drawn of the judge's text on this history, or None where nothing is broken. NotJudged says at which line it is no such text."""
    try:
        lines = lines_of(text, len(text))
    except NotAReport as fault:
        raise NotJudged(fault.line, fault.why) from None
    if lines and lines[0].startswith("mediated "):
        return None
    head = HEAD.fullmatch(lines[0]) if lines else None
    if head is None or int(head[1]) >= len(report.events) or len(lines) < 4 or lines[1] != report.lines[int(head[1]) + 1]:
        raise NotJudged(1, "this isn't what the judge says of that history")
    reasons = [quoted_place(line, report) or (None, line[len(SAID):]) for line in lines[4:] if line.startswith(SAID)]
    return {"place": int(head[1]), "class": head[2], "clause": head[3], "means": lines[3][len(SAID):], "reasons": [list(reason) for reason in reasons]}


def marked(scene: Any, judged: Any) -> Any:
    """The scene with the clause at its event, and with what that rests on."""
    place, call = judged["place"], scene["call"][judged["place"]]
    rests = [[at, "rests", text, None] for at, text in judged["reasons"] if at is not None]
    causes = [[at, call] for at, *_ in rests if call >= 0 and scene["call"][at] != call]
    return {
        **scene, "broken": judged, "causes": scene["causes"] + causes, "notes": [["broken", place], *scene["notes"]],
        "tags": [*scene["tags"], [place, "broken", f"{judged['class']}: {judged['clause']}", None], *rests],
    }
