"""What `step` prints: an answer to each request."""
from __future__ import annotations

import re
from typing import Any, Callable, Dict, Iterator, List, Pattern, Tuple

from tools.commands.json_documents.judgements import verdict_line, verdict_of
from tools.commands.json_documents.lines import Lines
from tools.commands.json_documents.looks import look_line, look_of
from tools.commands.json_documents.report import event_in, event_line, report_lines, report_of
from tools.commands.json_documents.values import ARGUMENTS, Form, HEX_OR_DASH, Kind, LARGE, NUMBER, bytes_of, text_of_bytes
from tools.commands.pages.reports import ERRNO, NAME, NUMBER as DIGITS, SIGNED, SOME_HEX, NotAReport

NOTIFICATION = re.compile(rf"flags=({DIGITS}) nr=({SIGNED}) arch=({DIGITS}) ip=({DIGITS}) args=((?:{DIGITS},){{5}}{DIGITS})")
LISTED = Kind(lambda words: ARGUMENTS.read(words.replace(",", " ")), ",".join)
OF_NOTIFICATION = Form("flags={flags} nr={call_number} arch={architecture} ip={instruction_pointer} args={arguments}", flags=NUMBER, call_number=NUMBER, architecture=NUMBER,
                       instruction_pointer=LARGE, arguments=LISTED)
# an event with what a worker is told beside it: of a notification that it receives, and of bytes that it reads
RECEIVED, READ = re.compile(rf"({DIGITS} w\d+ recv id={DIGITS} pid={DIGITS}) (.*)"), re.compile(rf"({DIGITS} w\d+ read {DIGITS} {DIGITS} \S+) bytes=({SOME_HEX})")
REPORT, SCRIPT, JUDGED = re.compile(rf"report ({DIGITS})"), re.compile(rf"script {DIGITS}"), re.compile(rf"judge ({DIGITS})")
# a line behind which so many bytes stand
SIZED = re.compile(rb"(report|script) (\d+)\n")
# the other answers, each with what it is
PLAIN: Tuple[Tuple[Pattern[str], Callable[..., Dict[str, Any]]], ...] = (
    (re.compile(rf"able((?: {NAME})*)( recv)?"), lambda tasks, receive: {"kind": "able", "tasks": tasks.split(), "can_receive": receive is not None}),
    (re.compile("skip"), lambda: {"kind": "skip"}),
    (re.compile(rf"error ({ERRNO})"), lambda error: {"kind": "error", "error": error}),
    (re.compile("refused (.+)"), lambda reason: {"kind": "refused", "reason": reason}),
)


def without_scripts(data: bytes) -> Tuple[bytes, List[bytes]]:
    """The bytes of all answers with empty lines in the place of each script's, and the scripts. A script may have any bytes in its comments."""
    kept, scripts, at = [], [], 0
    while at < len(data):
        end = data.find(b"\n", at) + 1 or len(data)
        sized = SIZED.fullmatch(data, at, end)
        behind = end + int(sized[2]) if sized else end
        content = data[end:behind]
        kept.append(data[at:end])
        if sized and sized[1] == b"script":
            if len(content) < int(sized[2]) or not content.endswith(b"\n"):
                raise NotAReport(data.count(b"\n", 0, at) + 1, f"{int(sized[2])} bytes of a script should stand below")
            scripts.append(content)
            content = b"\n" * content.count(b"\n")
        kept.append(content)
        at = behind
    return b"".join(kept), scripts


def answer_of(lines: Lines, scripts: Iterator[bytes]) -> Dict[str, Any]:
    """The next answer, which is a line, of `report` with the lines of a report, of `judge` with that of a judgement, and of `script` with those in whose place a script stood, which is taken from `scripts`."""
    line = lines.next
    lines.at += 1
    for form, read in PLAIN:
        found = form.fullmatch(line)
        if found:
            return read(*found.groups())
    seen = look_of(line)
    if seen is not None:
        return {"kind": "looked", "seen": seen}
    if SCRIPT.fullmatch(line):
        script = next(scripts)
        lines.at += script.count(b"\n")
        return {"kind": "script", "script": text_of_bytes(script)}
    judged = JUDGED.fullmatch(line)
    if judged:
        return judgement_at(lines, int(judged[1]))
    told = REPORT.fullmatch(line)
    return report_at(lines, int(told[1])) if told else step_of(line, lines.at)


def judgement_at(lines: Lines, length: int) -> Dict[str, Any]:
    """The judgement whose bytes are counted in the line in front of it."""
    if lines.are_left and len(lines.next) + 1 != length:
        raise NotAReport(lines.at, f"{length} bytes of a judgement should stand below")
    return {"kind": "judged", "judgement": verdict_of(lines)}


def report_at(lines: Lines, length: int) -> Dict[str, Any]:
    """The report whose bytes are counted in the line in front of it."""
    first, size = lines.at, 0
    while size < length and lines.are_left:
        size += len(lines.next) + 1
        lines.at += 1
    if size != length:
        raise NotAReport(first, f"{length} bytes of a report should stand below")
    try:
        return {"kind": "report", "report": report_of("".join(f"{line}\n" for line in lines.lines[first:lines.at]).encode("ascii"))}
    except NotAReport as fault:
        raise NotAReport(first + fault.line, fault.why) from None


def step_of(line: str, number: int) -> Dict[str, Any]:
    """A step, with what a worker is told of it beside the event; `number` is the line's."""
    received, read = RECEIVED.fullmatch(line), READ.fullmatch(line)
    fields = received and NOTIFICATION.fullmatch(received[2])
    event = event_in((received or read or [line, line])[1], number)
    if received and not fields or event.get("result", {}).get("kind") in ("received", "bytes") and not (received or read):
        raise NotAReport(number, "the fields of a notification, or the bytes that were read, should stand behind the event")
    if fields:
        return {"kind": "received", "event": event, "notification": OF_NOTIFICATION.read(fields.groups())}
    return {"kind": "read", "event": event, "bytes": HEX_OR_DASH.read(read[2])} if read else {"kind": "event", "event": event}


def answers_of(data: bytes) -> Dict[str, Any]:
    kept, stored = without_scripts(data)
    lines, scripts, answers = Lines(kept), iter(stored), []
    while lines.are_left:
        answers.append(answer_of(lines, scripts))
    return {"answers": answers}


def answer_lines(document: Dict[str, Any]) -> Iterator[str]:
    for answer in document["answers"]:
        yield from WRITTEN[answer["kind"]](answer)


def judgement_text(answer: Dict[str, Any]) -> Iterator[str]:
    verdict = verdict_line(answer["judgement"])
    yield f"judge {len(verdict) + 1}"
    yield verdict


def report_text(answer: Dict[str, Any]) -> Iterator[str]:
    report = list(report_lines(answer["report"]))
    yield f"report {sum(len(line) + 1 for line in report)}"
    yield from report


def script_text(answer: Dict[str, Any]) -> Iterator[str]:
    script = bytes_of(answer["script"])
    yield f"script {len(script)}"
    yield from script.decode("latin-1").split("\n")[:-1]


WRITTEN = {
    "able": lambda it: [" ".join(["able", *it["tasks"], *["recv"] * it["can_receive"]])],
    "skip": lambda _: ["skip"],
    "error": lambda it: [f"error {it['error']}"],
    "refused": lambda it: [f"refused {it['reason']}"],
    "looked": lambda it: [look_line(it["seen"])],
    "event": lambda it: [event_line(it["event"])],
    "received": lambda it: [f"{event_line(it['event'])} {OF_NOTIFICATION.write(it['notification'])}"],
    "read": lambda it: [f"{event_line(it['event'])} bytes={HEX_OR_DASH.write(it['bytes'])}"],
    "judged": judgement_text,
    "report": report_text,
    "script": script_text,
}
