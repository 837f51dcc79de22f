"""Reads scripts that were made of traces, and reports of their plays, and pairs the calls of the one with the answers of the other."""
from __future__ import annotations

import errno
import re
from dataclasses import dataclass, field
from typing import Any, Dict, List, Optional, Tuple

from tools.commands.real_workloads import finds
from tools.commands.real_workloads.script_text import tokens
from tools.commands.real_workloads.strace_text import split
from tools.commands.real_workloads.tasks import CONSOLES
from tools.commands.real_workloads.tree import place

TRACED = re.compile(r"# line (\d+): (\w+)\((.*)\) = (\S+)(; left out: .*)?$")
ENTERED = re.compile(r"(\d+) t(\S+) call (\S+) .*?(notify id=\d+|allow|log|errno=\d+|nosys|kill)$")
OUTCOME = re.compile(r"(\d+) t(\S+) pid=(\d+) (\S+) (\S+)$")
STEP = re.compile(r"(\d+) t(\S+) (spawn|call|native|resume|install) (.*)$")
JUDGED = re.compile(r"(\d+) w\d+ id=(\d+) \S+ rule=(\S+) verdict=(\S+) answer=(\S+) reply=(\S+)$")


OF_PATH = {"mknod": 0, "mknodat": 1, "openat": 1, "mount": 1, "setxattr": 0}
UNMOUNTS = ("umount", "umount2")


@dataclass
class Made:
    """A call of the script that stands for one of the trace."""

    line: int
    name: str
    shown: str  # its arguments, as strace printed them
    real: str  # what it was answered
    texts: dict = field(default_factory=dict)  # stored for it, by their addresses
    numbers: list = field(default_factory=list)  # its arguments in the script
    task: str = ""
    program: str = ""
    play: str = ""  # what the play answered, or nothing where it wasn't entered
    by: str = ""  # the filters' verdict, or the policy's rule and verdict
    verdict: str = ""
    sent: str = ""  # what the broker answered, and what came of that
    reply: str = ""
    is_last: bool = False  # the report has no later call of its task
    is_open: bool | None = None  # whether its first argument was an open descriptor in the play
    finds: dict = field(default_factory=dict)  # what it finds in the script's tree otherwise than in the trace, with the name for it
    difference: str = ""


class Script:
    """What a script says of its calls: for each program their names, and which of the trace each stands for, or None for one that was added."""

    def __init__(self, text):
        self.calls, self.starts, self.last, self.left_out, self.unmounted = {}, {}, None, 0, []
        traced, texts, found_otherwise = None, {}, {}
        for line in text.splitlines():
            if found := TRACED.match(line):
                self.left_out += found[5] is not None
                traced = traced if found[5] else Made(int(found[1]), found[2], found[3], found[4], finds=found_otherwise.get(int(found[1]), {}))
                if found[2] in UNMOUNTS and found[4] == "0":
                    self.unmounted.append((int(found[1]), place((), tokens(found[3])[0])))
                continue
            if found := finds.read(line):
                found_otherwise.setdefault(found[0], {})[found[1]] = found[2]
            words = tokens(line) if line and not line.startswith("#") else [""]
            if words[0] == "prog":
                self.last = words[1]
                self.calls[self.last], self.starts[self.last] = [], []
            elif words[0] in ("spawn", "thread"):
                self.starts[self.last].append(words[1])
            elif words[0] == "poke":
                texts[int(words[1], 0)] = words[2].split(b"\0")[0]
            elif words[0] == "call":
                self.calls[self.last].append((words[1], self.made(traced, texts, words)))
                traced, texts = None, {}

    def made(self, traced: Any, texts: Any, words: Any) -> Any:
        if traced:
            traced.texts, traced.numbers, traced.program = texts, [int(it, 0) for it in words[2:]], self.last
        return traced

    def tasks(self) -> Any:
        """The programs by the tasks that run them."""
        found, waiting = {}, [("0", self.last)] if self.last else []
        while waiting:
            name, program = waiting.pop()
            found[name] = program
            waiting += [(f"{name}.{at}", it) for at, it in enumerate(self.starts[program], 1)]
        return found


class Report:
    """The calls of a report, by their tasks, each with its verdict and its outcome."""

    def __init__(self, text):
        lines = text.splitlines()
        journal, calls = part(lines, "journal"), part(lines, "calls")
        judged = {it[2]: it.groups() for it in map(JUDGED.match, part(lines, "audit")) if it}
        verdicts = {it[1]: it[4] for it in map(ENTERED.match, journal) if it}
        self.of_task, open_there = {}, open_at_calls(journal)
        for found in filter(None, map(OUTCOME.match, calls)):
            if found[5] != "restarted":
                verdict = verdicts[found[1]]
                judgement = judged.get(verdict.partition("notify id=")[2] or verdict)
                self.of_task.setdefault(found[2], []).append((found[4], found[5], verdict, judgement, open_there.get(int(found[1]))))


def open_at_calls(journal: List[str]) -> Dict[int, bool]:
    """Whether the first argument of each call is an open descriptor of its task, by the places of the calls."""
    tables, calls, found = {"0": set(CONSOLES)}, {}, {}
    for place_of_step, task, what, rest in (it.groups() for it in map(STEP.match, journal) if it):
        words = rest.split()
        if what == "spawn":
            if words[-1] in ("copy", "share"):
                tables[words[0]] = tables[task] if words[-1] == "share" else set(tables[task])
        elif what == "call":
            calls[task] = words
            found[int(place_of_step)] = int(words[1]) in tables[task]
        elif words[0].isdigit() and (what == "install" or what == "native" and calls[task][0] == "openat"):
            tables[task].add(int(words[0]))
        elif words[0] == "0" and what == "native" and calls[task][0] == "close":
            tables[task].discard(int(calls[task][1]))
    return found


def part(lines: List[str], name: str) -> List[str]:
    """The lines of a part of a report. Raises ValueError where it has none."""
    at = next((at for at, line in enumerate(lines) if re.fullmatch(rf"{name} \d+", line)), None)
    if at is None:
        raise ValueError(f"it has no part {name!r}")
    return lines[at + 1:at + 1 + int(lines[at].split()[1])]


def paired(script: Script, report: Report) -> List[Made]:
    """The calls of the script that stand for traced ones, with what the play made of them, in the order of the trace."""
    found = []
    for task, program in script.tasks().items():
        answers = report.of_task.pop(task, [])
        if [name for name, *_ in answers] != [name for name, _ in script.calls[program]][:len(answers)]:
            raise ValueError(f"task {task} makes other calls there")
        for at, (_, made) in enumerate(script.calls[program]):
            if made is not None:
                made.task = task
                if at < len(answers):
                    take(made, *answers[at][1:])
                    made.is_last = at == len(answers) - 1
                found.append(made)
    if report.of_task:
        raise ValueError(f"it has no task {min(report.of_task)}")
    return sorted(found, key=lambda it: it.line)


def take(made: Made, outcome: str, verdict: str, judged: Optional[Tuple[str, str, str, str, str, str]], is_open: bool) -> None:
    made.play, made.is_open = outcome, is_open
    if judged:
        _, _, rule, made.verdict, made.sent, made.reply = judged
        made.by = made.verdict if rule == "-" else f"{rule} {made.verdict}"
    else:
        made.by = made.verdict = "notified" if verdict.startswith("notify") else verdict


def number_of(answer: str) -> Optional[int]:
    """An answer as a number: a name of an error as a negative one."""
    if answer.lstrip("-").isdigit():
        return int(answer)
    found = re.fullmatch(r"E(\d+)", answer)
    value = int(found[1]) if found else getattr(errno, answer, None)
    return None if value is None else -value


def is_same(made: Made) -> bool:
    """Whether both say the same. Numbers of descriptors and processes are others in the play."""
    real, play = number_of(made.real), number_of(made.play)
    if real is None or play is None:
        return made.real == "?" and made.play in ("", "open", "ended")
    return real == play or made.name in ("openat", "getpid") and real >= 0 and play >= 0


def text_at(made: Any, at: int, otherwise: Optional[bytes] = b"") -> bytes:
    """The text that an argument of the call leads to, where the trace tells it."""
    return made.texts.get(made.numbers[at], otherwise) if at < len(made.numbers) else otherwise


def text_of(made: Made) -> bytes:
    """The path of the call, or nothing."""
    return text_at(made, OF_PATH[made.name]) if made.name in OF_PATH else b""


def base_of(made: Made) -> Optional[int]:
    """The descriptor of the directory from which the path of the call begins, or None."""
    is_relative = made.name in ("openat", "mknodat") and not text_of(made).startswith(b"/")
    return made.numbers[0] if is_relative and made.numbers[0] >= 0 else None


def shown_arguments(made: Made) -> str:
    """The arguments with the path alone readable: strace's own text, without the structures."""
    parts = split(made.shown)
    return ", ".join(it if not it.startswith("{") else "{..}" for it in parts)
