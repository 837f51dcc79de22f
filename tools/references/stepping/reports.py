"""The report of a list of events (docs/reference/REPORT.md, The report): its journal, its calls, its audit and its summary."""
from __future__ import annotations

from dataclasses import dataclass, field
from typing import Any, List, Optional, Tuple, Union

from tools.references.stepping.facts import CONTINUE, SEND, SETFD, Addfd, Event, Fail, call_text, error_text, escaped, hex_or_dash, major_of, minor_of, number_text, quoted, result_text
from tools.references.stepping.rules import Copy, Mknod, Mount, Rule, SetXattr, decide, kind_of, request_of

EINTR, ENOENT, ESRCH, EDQUOT, ENOSYS = 4, 2, 3, 122, 38
VERDICTS = {"deny": "denied", "grant": "granted", "pass": "passed", "inject": "injected"}


# ---- the journal


def name_text(name: Tuple[int, ...]) -> str:
    return ".".join(map(str, name))


def node_text(mode: int, device: int) -> str:
    kind, low = kind_of(mode), device % 2**32
    return f"{kind} {major_of(low)}:{minor_of(low)}" if kind in ("chr", "blk") else kind


def request_text(request: Union[Mknod, Mount, SetXattr]) -> str:
    """What a worker asks to be done."""
    if isinstance(request, Mknod):
        maker = "mknod" if request.dirfd is None else f"mknodat {request.dirfd}"
        return f"{maker} {quoted(request.path)} {node_text(request.mode, request.device)}"
    if isinstance(request, Mount):
        via = "\\x2d" if request.via == b"-" else escaped(request.via) or "-"
        texts = " ".join(map(quoted, (request.source, request.target, request.fstype)))
        return f"mount {texts} flags={request.flags} data={quoted(request.options)} via={via} shift={int(request.shift)}"
    return f"setxattr {quoted(request.path)} {quoted(request.name)} {hex_or_dash(request.value)} flags={request.flags}"


def verdict_text(verdict: Tuple[Any, ...]) -> str:
    return {"notify": "notify id={}", "errno": "errno={}"}.get(verdict[0], verdict[0]).format(*verdict[1:])


def back_text(back: Any) -> str:
    return back if back == CONTINUE else number_text(back)


def spawn_text(name: Tuple[int, ...], answer: Union[Fail, Tuple[int, str]]) -> str:
    return f"spawn {name_text(name)} " + (error_text(answer.number) if isinstance(answer, Fail) else "pid={} {}".format(*answer))


def read_text(address: int, length: int, answer: Union[Fail, bytes]) -> str:
    return f"read {address} {length} " + (error_text(answer.number) if isinstance(answer, Fail) else hex_or_dash(answer.rstrip(b"\0")))


def asked_text(asked: Addfd) -> str:
    """A request for a descriptor."""
    place, sending = asked.newfd if asked.flags & SETFD else "-", "" if asked.flags & SEND else " nosend"
    return f"{asked.id} src={asked.srcfd} at={place}{sending}"


WORDS = {
    "spawn": spawn_text,
    "poke": lambda address, content: f"poke {address} {content.hex()}",
    "handler": lambda signal, mode: f"handler {signal} {mode}",
    "call": lambda number, args, verdict: f"call {call_text(number)} {' '.join(map(str, args))} {verdict_text(verdict)}",
    "native": lambda answer: f"native {number_text(answer)}",
    "install": lambda answer: f"install {number_text(answer)}",
    "resume": lambda back: f"resume {back_text(back)}",
    "kill": lambda pid, signal, answer: f"kill {pid} {signal} {result_text(answer)}",
    "deliver": lambda signal, effect: f"deliver {signal} {effect}",
    "wait": lambda answer: "wait " + (error_text(answer.number) if isinstance(answer, Fail) else name_text(answer)),
    "exit": lambda: "exit",
    "recv": lambda answer: "recv " + (error_text(answer.number) if isinstance(answer, Fail) else f"id={answer.id} pid={answer.pid}"),
    "open-mem": lambda pid, answer: f"open-mem {pid} {result_text(answer)}",
    "open-base": lambda pid, dirfd, answer: f"open-base {pid} {dirfd} {result_text(answer)}",
    "check": lambda identifier, answer: f"check {identifier} {result_text(answer)}",
    "read": read_text,
    "act": lambda request, answer: f"act {request_text(request)} {result_text(answer)}",
    "plant": lambda address, _, answer: f"plant {address} {result_text(answer)}",
    "addfd-put": lambda asked, answer: f"addfd-put {asked_text(asked)} {result_text(answer)}",
    "addfd-take": lambda answer: f"addfd-take {number_text(answer)}",
    "send": lambda identifier, back, answer: f"send {identifier} {back_text(back)} {result_text(answer)}",
    "let-go": lambda: "let-go",
    "close": lambda: "close",
    "skip": lambda: "skip",
}


def line_of(place, event):
    """The journal's line of an event."""
    return f"{place} {event.actor} {WORDS[event.kind](*event.facts)}"


# ---- the calls and the sessions


@dataclass
class CallEntry:
    """A call that a task entered, and what came of it. An empty outcome is open."""

    place: int
    actor: str
    pid: int
    number: int
    id: Optional[int]
    outcome: str = ""
    installed: Optional[int] = None
    requests: list = field(default_factory=list)

    def line(self) -> str:
        return f"{self.place} {self.actor} pid={self.pid} {call_text(self.number)} {self.outcome or 'open'}"


@dataclass
class Session:
    """What one worker does for one notification."""

    place: int
    actor: str
    notif: object
    call: CallEntry
    copy: Copy
    is_gone: bool = False
    good_checks: int = 0
    is_spent: bool = False
    back: object = None
    has_sent: bool = False
    is_lost: bool = False

    def take(self, kind: str, facts: Tuple[Any, ...]) -> None:
        """Notes one step of the session."""
        answer = facts[-1] if facts else None
        error = answer.number if isinstance(answer, Fail) else None
        if (kind in ("open-mem", "open-base") and error == ESRCH) or (kind == "check" and error == ENOENT):
            self.is_gone = True
        elif kind == "check" and error is None:
            self.good_checks += 1
        elif kind == "read" and self.good_checks < 2:
            self.copy.hear(answer)
        elif kind in ("act", "plant") and error == EDQUOT:
            self.is_spent = True
        elif kind in ("addfd-put", "addfd-take", "send"):
            self.is_lost |= error == ENOENT
        if kind == "send":
            self.back = facts[1]
            self.has_sent |= error is None

    def judged(self, rules):
        """The rule that decided, or `-`, and the verdict."""
        if self.is_gone:
            return "-", "gone"
        if self.good_checks < 2 or (self.copy.fault is None and not self.copy.is_whole):
            return "-", "open"
        if self.copy.fault:
            return "-", "fault"
        rule = decide(rules, request_of(self.notif.number, self.notif.args, self.copy.texts))
        return rule.name, "spent" if self.is_spent else rule.verdict

    @property
    def answer(self) -> str:
        """What was sent, or the number that was installed."""
        if self.back is not None:
            return back_text(self.back)
        return "-" if self.call.installed is None else str(self.call.installed)

    @property
    def reply(self) -> str:
        return "sent" if self.has_sent or self.call.installed is not None else "lost" if self.is_lost else "none"

    def line(self, rules):
        rule, verdict = self.judged(rules)
        return f"{self.place} {self.actor} id={self.notif.id} {call_text(self.notif.number)} rule={rule} verdict={verdict} answer={self.answer} reply={self.reply}"


def outcome_at_entry(verdict: Tuple[Any, ...]) -> str:
    kind = verdict[0]
    if kind == "errno":
        return error_text(verdict[1]) if verdict[1] else "0"
    return {"nosys": error_text(ENOSYS), "kill": "ended"}.get(kind, "")


def outcome_by(kind: str, facts: Tuple[Any, ...]) -> str:
    """What a task's step makes of a call of which nothing came yet."""
    if kind == "native":
        return number_text(facts[0])
    if kind == "resume":
        return "" if facts[0] == CONTINUE else back_text(facts[0])
    if kind == "deliver":
        return {"end": "ended", "restart": "restarted", "eintr": error_text(EINTR)}.get(facts[1], "")
    return ""


class Tables:
    """What one pass over the events finds."""

    def __init__(self, events):
        self.calls, self.sessions, self.answered = [], [], 0
        self.pids, self.newest, self.with_id, self.open = {}, {}, {}, {}
        for place, event in enumerate(events):
            self.take(place, event)

    def take(self, place: int, event: Event) -> None:
        if event.actor[0] == "w":
            self.take_of_worker(place, event)
        elif event.kind == "call":
            self.enter(place, event)
        elif event.actor in self.newest:
            self.take_in_call(self.newest[event.actor], event)
        if event.kind == "spawn" and not isinstance(event.facts[1], Fail):
            self.pids["t" + name_text(event.facts[0])] = event.facts[1][0]

    def enter(self, place: int, event: Event) -> None:
        number, _, verdict = event.facts
        entry = CallEntry(place, event.actor, self.pids[event.actor], number, verdict[1] if verdict[0] == "notify" else None, outcome_at_entry(verdict))
        self.calls.append(entry)
        self.newest[event.actor] = entry
        if entry.id is not None:
            self.with_id[entry.id] = entry

    def take_in_call(self, entry: CallEntry, event: Event) -> None:
        if entry.outcome:
            return
        if event.kind == "install":
            number = event.facts[0]
            sends = entry.requests.pop(0)
            if not isinstance(number, Fail):
                entry.installed = number
                self.answered += sends
        entry.outcome = outcome_by(event.kind, event.facts)

    def take_of_worker(self, place: int, event: Event) -> None:
        if event.kind == "recv" and not isinstance(event.facts[0], Fail):
            notif = event.facts[0]
            self.open[event.actor] = Session(place, event.actor, notif, self.with_id[notif.id], Copy(notif.number, notif.args))
            self.sessions.append(self.open[event.actor])
        elif event.kind == "let-go":
            self.open.pop(event.actor, None)
        elif event.actor in self.open:
            self.open[event.actor].take(event.kind, event.facts)
        if event.kind == "send" and event.facts[2] is None:
            self.answered += 1
        if event.kind == "addfd-put" and event.facts[1] is None:
            asked = event.facts[0]
            self.with_id[asked.id].requests.append(bool(asked.flags & SEND))

    def summary(self, events: List[Event], rules: List[Rule]) -> str:
        counts = dict.fromkeys(("granted", "denied", "passed", "injected", "faults", "gone"), 0)
        for session in self.sessions:
            verdict = session.judged(rules)[1]
            name = {"spent": "denied", "fault": "faults"}.get(verdict, VERDICTS.get(verdict, verdict))
            if name in counts:
                counts[name] += 1
        told = {
            "events": len(events), "calls": len(self.calls), "notified": sum(entry.id is not None for entry in self.calls), "answered": self.answered, **counts,
            "lost": sum(session.reply == "lost" for session in self.sessions),
        }
        return "summary " + " ".join(f"{name}={count}" for name, count in told.items())


def report(events: List[Event], rules: List[Rule]) -> str:
    """The report of events under these rules."""
    tables = Tables(events)
    lines = [
        f"journal {len(events)}", *(line_of(place, event) for place, event in enumerate(events)),
        f"calls {len(tables.calls)}", *(entry.line() for entry in tables.calls),
        f"audit {len(tables.sessions)}", *(session.line(rules) for session in tables.sessions),
        tables.summary(events, rules),
    ]
    return "".join(line + "\n" for line in lines)
