"""Explains why the program refuses a report: what the line is, and what a legal history has there, as far as a play of the same steps shows it."""
from __future__ import annotations

import re
from dataclasses import dataclass
from typing import Dict, List, Optional, Tuple

from tools.commands.explored import MOST_STEPS, Broker, NotPlayed, lines_of
from tools.commands.messages.findings import Finding, Text, advice, message, whole_file
from tools.commands.messages.refusals import data_of
from tools.commands.pages.reports import event_of

HEAD = {"journal": re.compile(r"journal (\d{1,8})"), "calls": re.compile(r"calls (\d{1,8})"), "audit": re.compile(r"audit (\d{1,8})")}
EVENT = re.compile(r"\d+ (t0(?:\.\d+)*|w\d{1,2}|listener|-) (.*)")
# no schedule has a worker above this one, which a run with sixteen threads has
MOST_WORKER, MOST_OF_A_RUN = 15, 16
# beginnings of files that aren't the text of one report
OTHERS = (
    ("container ", "this is the output of `pod`", "give the report of one container, which follows its line `container N`, with that container's policy and script"),
    ("explored ", "this is the output of `explore`, and no report", "play one of its schedules, and check its report"),
    ("{", "this looks like JSON", "give the text that the command prints without `json`"),
    ("yes ", "this is the output of `audit-check`", "give the report that it has checked"),
    ("trail ", "this is the output of `audit-check`", "give the report that it has checked"),
)
# steps of a worker that depend on what the policy decides
DECIDED = {"act", "plant", "addfd-put", "send"}


@dataclass(frozen=True)
class Where:
    """What a line of a report is: its part, its number in the part from 0 on, or -1 for the line that begins the part, and a name for it."""

    part: str
    number: int
    name: str


def where(lines: List[str], line: int) -> Where:
    """What the line with this number is, by the counts that the lines above state."""
    at = 1
    for part, form in HEAD.items():
        head = form.fullmatch(lines[at - 1]) if at <= len(lines) else None
        if line == at:
            return Where(part, -1, f"the line that begins the {part}")
        count = int(head[1]) if head else 0
        if line <= at + count:
            number = line - at - 1
            return Where(part, number, f"event {number} of the journal" if part == "journal" else f"line {number + 1} of the {part}")
        at += count + 1
    return Where("summary", 0, "the summary") if line == at else Where("behind", 0, "a line after the summary")


def actor_of(line):
    """Who steps in a line of the journal, or None."""
    found = EVENT.fullmatch(line)
    return found[1] if found else None


def actors(lines: List[str], last: int) -> List[str]:
    """Who steps in the events from 1 to this one, without the close."""
    found = [actor_of(line) for line in lines[2:last + 2]]
    return found[:-1] if found and found[-1] == "listener" else found


def can_be_scheduled(names: List[str]) -> bool:
    return len(names) <= MOST_STEPS and all(name and name[0] in "tw" and not (name[0] == "w" and int(name[1:]) > MOST_WORKER) for name in names)


def expected(program, files, lines, line, place):
    """The line that a play of the same steps has there; None where there is no such play, or where it isn't like the lines above."""
    last = place.number if place.part == "journal" else len(lines)
    if place.part == "journal" and place.number < 1:
        return None
    if place.part != "journal":
        last = int(HEAD["journal"].fullmatch(lines[0])[1]) - 1
    steps = actors(lines, last)
    if not can_be_scheduled(steps):
        return None
    try:
        played = Broker(program, files["policy"], files["script"]).played(lines_of(steps)).split("\n")
    except (NotPlayed, OSError):
        return None
    # (of a journal that goes on the first line counts more events than are played)
    first = 1 if place.part == "journal" else 0
    return played[line - 1] if line <= len(played) and played[first:line - 1] == lines[first:line - 1] else None


def suspicion(place: Where, line: str, wanted: str) -> str:
    """What may be another one than that of the report, by a line and the one that a legal history has there."""
    if place.part == "audit":
        return "is the policy that of the report? " if re.findall("rule=\\S+", line) != re.findall("rule=\\S+", wanted) else ""
    event, due = EVENT.fullmatch(line), EVENT.fullmatch(wanted)
    if place.part != "journal" or not event or not due:
        return ""
    if event[1].startswith("t"):
        return "is the script that of the report? " if event[2].split()[:1] != due[2].split()[:1] or due[2].startswith(("poke", "call")) else ""
    word, other = event[2].split(" ")[0], due[2].split(" ")[0]
    return "is the policy that of the report? " if {word, other} <= DECIDED and (word != other or word == "send") else ""


def differs_at(line: str, wanted: str) -> Tuple[int, int]:
    """From where to where a line differs from another one, by whole words."""
    same = next((at for at, (one, other) in enumerate(zip(line, wanted)) if one != other), min(len(line), len(wanted)))
    start = line.rfind(" ", 0, same) + 1
    end = line.find(" ", same)
    return start, max(len(line) if end < 0 else end, start + 1)


def other_file(text: Text, line: int) -> Optional[Finding]:
    """What a file is that isn't a report, where its first line tells; and ledgers behind a report. None of another one."""
    content = text.line(line)
    if content.startswith("handovers "):
        return Finding("ledgers", line, 0, len(content), "here begin the ledgers of `handover`, which are no part of the report", "check the lines before this one: `sed '/^handovers /,$d'`")
    told = next(((words, cure) for begin, words, cure in OTHERS if content.startswith(begin)), None) if line == 1 else None
    return told and Finding("another-file", line, 0, len(content), *told)


def closes_early(lines, place, content):
    """Whether a line of the journal is a close, and isn't the last one."""
    return place.part == "journal" and actor_of(content) == "listener" and place.number + 1 < int(HEAD["journal"].fullmatch(lines[0])[1])


def fault_of_form(lines: List[str], place: Where, content: str) -> str:
    """What is wrong with a line whatever the history; empty where nothing is."""
    if place.part == "behind":
        return "nothing may follow the summary"
    if place.number < 0:
        return "" if HEAD[place.part].fullmatch(content) else f"`{place.part}` and a number of lines should be here"
    if place.part != "journal":
        return ""
    if closes_early(lines, place, content):
        return f"the close is the last event, and line 1 says `{lines[0]}`"
    actor = actor_of(content) or ""
    if actor.startswith("w") and int(actor[1:]) > MOST_OF_A_RUN:
        return f"workers have the numbers 0 to {MOST_OF_A_RUN}"
    try:
        event_of(content, place.number)
    except ValueError as fault:
        return str(fault).replace("'", "`")
    return ""


def ends_early(text: Text, line: int) -> Optional[Finding]:
    """What is said where the file ends before its report does, or its last line has no newline."""
    if line == len(text.lines) and text.lines[-1] == "":
        return whole_file("cut", "the file ends here, and its report goes on: all lines are the beginning of one", "look whether the file was cut as it was copied")
    if line == len(text.lines):
        return Finding("no-newline", line, 0, len(text.line(line)), "the file's last line has no newline", "a report ends with one")
    return None


def has_other_line_ends(text, line):
    """What is said of a line that ends as lines do on Windows."""
    content = text.line(line)
    if not content.endswith("\r"):
        return None
    return Finding("line-ends", line, len(content) - 1, 1, "this line ends with CR and LF", "a report's lines end with LF alone: `sed 's/\\r$//'`")


def finding_of(program: str, files: Dict[str, str], data: bytes, line: int) -> Finding:
    """What is known of the line that the program named."""
    text = Text(data)
    known = has_other_line_ends(text, line) or other_file(text, line) or ends_early(text, line)
    if known:
        return known
    lines, content = text.lines[:-1], text.line(line)
    place = where(lines, line)
    words = f"{place.name} can't be right, " + (f"and the {line - 1} lines above it can" if line > 1 else "so the file isn't a report")
    fault = fault_of_form(lines, place, content)
    wanted = None if place.part == "behind" or closes_early(lines, place, content) else expected(program, files, lines, line, place)
    if wanted is None or wanted == content:
        return Finding("refused", line, 0, len(content), words, fault)
    start, end = differs_at(content, wanted)
    step = f" in which {actor_of(content)} steps here" if place.part == "journal" else ""
    return Finding("refused", line, start, end - start, words, advice(suspicion(place, content, wanted), f"after these lines a legal history{step} has `{wanted}`"))


def explained_report(program: str, files: Dict[str, str], number: int) -> List[str]:
    """The message of a refused report; none where the file can't be read again."""
    data = data_of(files["report"])
    if data is None:
        return []
    return message(finding_of(program, files, data, number), files["report"], Text(data))
