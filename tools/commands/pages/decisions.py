"""Which rule decides a call of a report, and what the call misses of each rule before it: the program explains the call by the policy that stands in the page."""
from __future__ import annotations

from typing import Any, Dict, List

from tools.commands.json_documents.explanations import MISSES, VERDICTS, explanation_of, written
from tools.commands.real_workloads.script_text import CALLS, PIECE
from tools.commands.pages.reports import Event, NotAReport, event_of, lines_of
from tools.commands.pages.runs import LIMITS, Program, told_of
from tools.references.stepping.explaining import asked_text
from tools.references.stepping.facts import Fail
from tools.references.stepping.rules import EFAULT, Copy, Mknod, request_of
from tools.commands.pages.words import is_error

EXPLAIN = "explain"
CALLS_REFUSED = 5
# what ends a worker's session
ENDS = ("recv", "let-go")
NOT_SAID = "No line of calls can say this call, so it can't be explained."


class NotExplained(Exception):
    """A call can't be explained; the text says why."""


def events_of(trail: bytes) -> List[Event]:
    """The events of a trail: the lines of a journal that tell of one call, from where it was entered on."""
    try:
        return [event_of(line, line.partition(" ")[0]) for line in lines_of(trail, LIMITS["trail"])]
    except (NotAReport, ValueError) as fault:
        raise NotExplained(f"This is no trail of a call: {fault}") from None


def call_line(trail):
    """The call of a trail, as `explain` takes it."""
    events = [*events_of(trail), None, None]
    entered, received = events[:2]
    if entered is None or received is None or (entered.word, received.word) != ("call", "recv") or entered.fields[2] != f"notify id={received.fields[0]}":
        raise NotExplained("This is no trail of a call: the call and its receive should come first.")
    name, numbers, _ = entered.fields
    request = request_read(events[2:-2], received.actor, CALLS.get(name) or int(name), tuple(map(int, numbers.split())))
    if isinstance(request, Mknod) and request.device >= 2**32:
        raise NotExplained(NOT_SAID)
    return asked_text(request)


def request_read(events, worker, number, arguments):
    """What a call asks for, by what the worker reads for it."""
    copy = Copy(number, arguments)
    for event in events:
        if event.actor == worker and event.word in ENDS:
            break
        if event.actor == worker and event.word == "read":
            _, length, data = event.fields
            # (a journal leaves out the zero bytes at the end of what was read)
            copy.hear(Fail(EFAULT) if is_error(data) else bytes.fromhex("" if data == "-" else data).ljust(min(int(length), PIECE), b"\0"))
    if not copy.is_whole:
        raise NotExplained("The call's arguments weren't read to their end, so no rule was asked.")
    return request_of(number, arguments, copy.texts)


def shown(call: Dict[str, Any]) -> Dict[str, Any]:
    """What a page shows of an explanation: of each rule before the deciding one what the call misses, and whether that is only that the rule is for other calls."""
    verdict = call["verdict"]
    before = [[it["rule"], written(MISSES, it["misses"]), it["misses"]["kind"] == "call"] for it in call["before"]]
    return {"rule": call["rule"], "verdict": verdict["kind"], "words": written(VERDICTS, verdict).partition(" reason=")[0], "reason": verdict.get("reason"), "before": before}


def explained(program: Program, texts: Dict[str, bytes]) -> Dict[str, Any]:
    """What the program explains of the call of a trail."""
    try:
        line = call_line(texts["trail"])
    except NotExplained as fault:
        return {"status": None, "line": str(fault), "marked": None}
    ended = program.run(EXPLAIN, {"policy": texts["policy"], "calls": f"{line}\n".encode("ascii")}, [])
    told = told_of(program, ended)
    if ended.status == CALLS_REFUSED:
        return {**told, "line": NOT_SAID}
    return told if ended.status else {**told, "call": line, "explained": shown(explanation_of(ended.output)["calls"][0])}
