"""What `handover` prints behind its report, and a run in which workers are replaced: the ledgers from which they were."""
from __future__ import annotations

import json
import re
from typing import Any, Dict, Iterator, Union

from tools.commands.json_documents.report import report_lines, report_of
from tools.commands.json_documents.values import Form, NUMBER, WORKER
from tools.commands.pages.reports import NotAReport

TITLE = b"\nhandovers "
LEDGER = re.compile(r"ledger (\d+) (w\d+) (\{.*\})")
PLACE = Form("ledger {place} {worker}", place=NUMBER, worker=WORKER)
# what a worker was told: its kind in a document, under its key in a ledger
KINDS = {"notif": "notification", "bytes": "bytes", "number": "descriptor", "fault": "error_number"}
KEYS = {kind: key for key, kind in KINDS.items()}


def answer_of(value: Any) -> Dict[str, Any]:
    if value == "ok":
        return {"kind": "ok"}
    (key, told), = value.items()
    return {"kind": KINDS[key], "bytes" if key == "notif" else KINDS[key]: told}


def answer_value(answer: Dict[str, str]) -> Union[Dict[str, str], str]:
    kind = answer["kind"]
    return kind if kind == "ok" else {KEYS[kind]: answer["bytes" if kind == "notification" else kind]}


def ledger_of(line: str) -> Dict[str, Any]:
    found = LEDGER.fullmatch(line)
    if found is None:
        raise ValueError(line)
    place, worker, text = found.groups()
    values = json.loads(text)
    if list(values) != ["count", "own", "worker"] or f"w{values['worker']}" != worker:
        raise ValueError(text)
    return {**PLACE.read((place, worker)), "count": str(values["count"]), "answers": [answer_of(value) for value in values["own"]]}


def ledger_line(ledger: Dict[str, Any]) -> str:
    values = {"count": int(ledger["count"]), "own": [answer_value(answer) for answer in ledger["answers"]], "worker": ledger["worker"]}
    return f"{PLACE.write(ledger)} {json.dumps(values, separators=(',', ':'))}"


def handover_of(data: bytes) -> Dict[str, Any]:
    report, title, behind = data.partition(TITLE)
    found, first = report_of(report + b"\n"), data.count(b"\n", 0, len(report) + 1) + 1
    count, *lines = behind.decode("ascii").split("\n")
    if not title or lines[-1:] != [""] or count != str(len(lines) - 1):
        raise NotAReport(first, "'handovers' and as many lines of ledgers should be here")
    ledgers = []
    for at, line in enumerate(lines[:-1], first + 1):
        try:
            ledgers.append(ledger_of(line))
        except (AttributeError, KeyError, TypeError, ValueError):
            raise NotAReport(at, "a ledger should be here") from None
    return {**found, "ledgers": ledgers}


def handover_lines(document: Dict[str, Any]) -> Iterator[str]:
    yield from report_lines(document)
    yield f"handovers {len(document['ledgers'])}"
    yield from map(ledger_line, document["ledgers"])


def served_of(data: bytes) -> Dict[str, Any]:
    """The document of what threads have served: with ledgers, where workers were replaced."""
    return handover_of(data) if TITLE in data else report_of(data)


def served_lines(document: Dict[str, Any]) -> Iterator[Any]:
    return handover_lines(document) if "ledgers" in document else report_lines(document)
