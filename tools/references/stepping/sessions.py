"""A session of `step`: one answer for each line that is read."""
from __future__ import annotations

import struct
from typing import Any, Callable

from tools.references.judging.judge import Judge
from tools.references.stepping.facts import CONTINUE, O_CLOEXEC, SEND, SETFD, Addfd, Fail
from tools.references.stepping.kernel import Kernel
from tools.references.stepping.lexing import LineFault
from tools.references.stepping.looks import look
from tools.references.stepping.reports import line_of, report
from tools.references.stepping.requests import LONGEST, MOST_WORKER, read_request
from tools.references.stepping.turns import MOST_BYTES, MOST_EVENTS, script_text

ADDFD, RESPONSE = struct.Struct("<QIIII"), struct.Struct("<QqiI")
CONTINUE_FLAG, LOWEST_ERROR = 1, -4095
SKIP, INVALID = "skip", "error EINVAL"


class Refused(Exception):
    """A request that can't be done; the text is the reason."""


class Session:
    def __init__(self, rules: Any, container: Any, decided: Any = None) -> None:
        """`decided` is the judge's."""
        self.rules, self.kernel = rules, Kernel(container)
        self.judge = Judge(self.kernel, rules, decided)

    def answer(self, line):
        """What is written for a line, whose newline is dropped; the bytes of a report, a script or a judgement with it."""
        try:
            return self.answered(line) + "\n" if len(line) <= LONGEST else "refused long line\n"
        except LineFault as fault:
            return f"refused line: {fault}\n"
        except Refused as refused:
            return f"refused {refused}\n"

    def answered(self, line):
        asked = read_request(line)
        if asked is None:
            raise Refused("empty line")
        if asked.worker > MOST_WORKER:
            raise Refused("worker")
        if asked.word in TEXTS:
            text = TEXTS[asked.word](self, *asked.operands)
            return f"{asked.word} {len(text)}\n{text[:-1]}"
        if self.kernel.is_closed:
            raise Refused("closed")
        told = self.done(asked) if asked.worker >= 0 else ALONE[asked.word](self, *asked.operands)
        self.judge.hear()
        return told

    def done(self, asked):
        """What comes of a worker's request. Raises Refused."""
        return OF_WORKERS[asked.word](self, asked.worker, *asked.operands)

    def told(self, event: Any) -> str:
        """The line of the newest event; `skip` where there is none."""
        return SKIP if event is None else line_of(len(self.kernel.events) - 1, event)

    # ---- texts of many lines

    def report(self) -> str:
        return report(self.kernel.events, self.rules)

    def script(self) -> str:
        """The script that plays these events again."""
        text = script_text(self.kernel.container.front, self.kernel.events)
        if len(self.kernel.events) > MOST_EVENTS + self.kernel.is_closed or len(text) > MOST_BYTES:
            raise Refused("full")
        return text

    def judged(self, is_idle: bool) -> str:
        """The first line of what a judge prints of the broker."""
        return self.judge.head(is_idle)

    # ---- tasks and the listener

    def able(self) -> str:
        names = [task.actor[1:] for task in self.kernel.able()]
        # a receive that finds no call, since that was interrupted, answers ENOENT and doesn't wait
        receives = ["recv"] if self.kernel.received < self.kernel.entered_calls else []
        return " ".join(["able", *names, *receives])

    def step(self, name: Any) -> str:
        if name not in self.kernel.tasks:
            raise Refused("no task")
        return self.told(self.kernel.step(self.kernel.tasks[name]))

    def look(self, *operands):
        return look(self.kernel, *operands)

    def close(self) -> str:
        return self.told(self.kernel.close())

    # ---- workers

    def receive(self, number: int) -> str:
        event = self.kernel.receive(number)
        if event is None or isinstance(event.facts[0], Fail):
            return self.told(event)
        notif = event.facts[0]
        args = ",".join(map(str, notif.args))
        return f"{self.told(event)} flags={notif.flags} nr={notif.number} arch={notif.arch} ip={notif.ip} args={args}"

    def receive_into(self, number: int, buffer: bytes) -> str:
        return INVALID if any(buffer) else self.receive(number)

    def read(self, number: int, address: int, length: int) -> str:
        event = self.kernel.read(number, address, length)
        found = event.facts[2]
        return self.told(event) if isinstance(found, Fail) else f"{self.told(event)} bytes={found.hex() or '-'}"

    def plant(self, number: int, address: int, content: bytes) -> str:
        if self.kernel.worker(number).memory is None:
            raise Refused("no memory is open")
        return self.told(self.kernel.plant(number, address, content))

    def put(self, number: int, *fields: int) -> str:
        if self.kernel.worker(number).request is not None:
            raise Refused("request is put")
        asked = Addfd(*fields)
        return self.told(self.kernel.put(number, asked)) if may_be_put(asked) else INVALID

    def take(self, number: int) -> str:
        if self.kernel.worker(number).request is None:
            raise Refused("no request")
        return self.told(self.kernel.take(number))

    def send(self, number: int, identifier: int, value: int, error: int, flags: int) -> str:
        if not may_be_sent(value, error, flags):
            return INVALID
        back = CONTINUE if flags else Fail(-error) if error else value
        return self.told(self.kernel.send(number, identifier, back))


def may_be_put(asked: Addfd) -> bool:
    """Whether the listener takes a request for a descriptor."""
    known = asked.flags & ~(SETFD | SEND) == 0 and asked.newfd_flags in (0, O_CLOEXEC)
    return known and (asked.newfd == 0 or asked.flags & SETFD != 0)


def may_be_sent(value: int, error: int, flags: int) -> bool:
    """Whether the listener takes an answer."""
    return (value, error) == (0, 0) if flags == CONTINUE_FLAG else flags == 0 and LOWEST_ERROR <= error <= 0


def told_by(deed: Callable[..., Any]) -> Callable[..., Any]:
    """A request that comes to an event each time."""
    return lambda session, number, *operands: session.told(deed(session.kernel, number, *operands))


TEXTS = {"report": Session.report, "script": Session.script, "judge": Session.judged}
ALONE = {"able": Session.able, "t": Session.step, "look": Session.look, "close": Session.close}
OF_WORKERS = {
    "recv": Session.receive, "recv-raw": Session.receive_into, "open-mem": told_by(Kernel.open_memory), "open-base": told_by(Kernel.open_base), "check": told_by(Kernel.check),
    "read": Session.read, "act": told_by(Kernel.act), "plant": Session.plant, "addfd": Session.put, "addfd-result": Session.take, "send": Session.send, "let-go": told_by(Kernel.let_go),
    "addfd-raw": lambda session, number, raw: session.put(number, *ADDFD.unpack(raw)),
    "send-raw": lambda session, number, raw: session.send(number, *RESPONSE.unpack(raw)),
}
