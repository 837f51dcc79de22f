"""What a worker of another broker asks for, as a line of a schedule: its forms, and what is wrong with what no other line has."""
from __future__ import annotations

import re
from dataclasses import dataclass
from typing import Any, Optional, Tuple

from tools.commands.messages.findings import advice, listed, meant
from tools.commands.messages.script_lines import Line, Token, number_of
from tools.commands.messages.script_words import SCHEDULE, Form, Operand

WORKER = Operand("N", most=15)
WORD, HALF = 2**32 - 1, 2**16 - 1
ID, ADDR, PID, DEV, FLAGS = Operand("ID"), Operand("ADDR"), Operand("PID", most=WORD), Operand("DEV"), Operand("FLAGS")
DIRFD, MODE, SMALL_FLAGS = Operand("DIRFD", least=-(2**31), most=2**31 - 1), Operand("MODE", most=WORD), Operand("FLAGS", most=WORD)
ACT = "act"


def text(name: str, zeros: bool = False) -> Operand:
    return Operand(name, "text", 0, 2**64, zeros)


def structure(size: int) -> Operand:
    """The bytes of a structure in hexadecimal."""
    return Operand("HEX", "hex", most=size)


@dataclass(frozen=True)
class Request(Form):
    """A line with what a worker asks for: the words that say what that is, and what the line has behind them."""

    words: str = ""
    behind: str = ""

    @property
    def usage(self) -> str:
        return " ".join(["w N", self.words, *([self.behind] if self.behind else [])])


def request(words: str, operands: Tuple[Operand, ...], rest: str = "", behind: Optional[str] = None) -> Request:
    """The form of a request: its words, its operands, what stands for these in its example, and what is told of them."""
    literals = tuple(Operand(word, "literal") for word in words.split(" "))
    told = " ".join(it.name for it in operands) if behind is None else behind
    return Request("w", SCHEDULE, (WORKER, *literals, *operands), f"w 0 {words} {rest}".rstrip(), words=words, behind=told)


MOUNT = (text("SOURCE"), text("TARGET"), text("TYPE"), FLAGS, text("DATA"))
VIA, PROGRAM, SHIFT = Operand("via", "via"), text("PROGRAM"), Operand("shift", "shift")
# what stands behind a mount's data, by the number of these tokens
BEHIND_MOUNT = {1: (SHIFT,), 2: (VIA, PROGRAM), 3: (VIA, PROGRAM, SHIFT)}


def mount(operands: Tuple[Operand, ...]) -> Request:
    return request("act mount", operands, '"/dev/sda1" "/mnt" "ext4" 1 ""', "SOURCE TARGET TYPE FLAGS DATA [via PROGRAM] [shift]")


OF_WORKERS = {
    "recv": request("recv", ()), "open-mem": request("open-mem", (PID,), "301"), "open-base": request("open-base", (PID, DIRFD), "301 -100"), "check": request("check", (ID,), "1"),
    "read": request("read", (ADDR, Operand("LEN", most=HALF)), "0x10000 256"), "plant": request("plant", (ADDR, structure(112)), "0x10000 HEX"),
    "addfd": request("addfd", (ID, SMALL_FLAGS, *(Operand(name, most=WORD) for name in ("SRCFD", "NEWFD", "NEWFDFLAGS"))), "1 2 5 0 0"), "addfd-result": request("addfd-result", ()),
    "send": request("send", (ID, Operand("VAL", least=-(2**63), most=2**63 - 1), Operand("ERROR", least=-(2**31), most=2**31 - 1), SMALL_FLAGS), "1 0 -1 0"), "let-go": request("let-go", ()),
    "recv-raw": request("recv-raw", (structure(80),), "HEX"), "addfd-raw": request("addfd-raw", (structure(24),), "HEX"), "send-raw": request("send-raw", (structure(24),), "HEX"),
}
NODE = (text("P"), MODE, DEV)
ACTS = {
    "mknod": request("act mknod", NODE, '"/dev/null" 0o020666 259'), "mknodat": request("act mknodat", (DIRFD, *NODE), '-100 "null" 0o020666 259'), "mount": mount(MOUNT),
    "setxattr": request("act setxattr", (text("P"), text("NAME"), text("VALUE", True), FLAGS), '"/d" "user.a" "1" 0'),
}
# requests of `step` that are no steps
OF_SESSIONS = {
    "able": "it says who can step, and plays nothing", "look": "it changes nothing, and plays nothing", "report": "`play` prints the report", "script": "this is such a script already",
    "close": "the listener is closed at the end of the schedule",
}
# the words of a journal, and of the manuals, for what a worker asks
OTHER_WORDS = {
    "receive": "recv", "open_mem": "open-mem", "open_base": "open-base", "open-dir": "open-base", "open_dir": "open-base", "id-valid": "check", "id_valid": "check", "pread": "read", "pwrite": "plant",
    "write-sysinfo": "plant", "addfd-put": "addfd", "addfd-take": "addfd-result", "addfd_result": "addfd-result", "letgo": "let-go", "let_go": "let-go",
    **{call: f"act {call}" for call in ACTS},
}
A_REQUEST = f"after the worker's number comes a count of steps, or the worker's request: {listed([*OF_WORKERS, 'act'], 'or')}"
A_KIND = "the lines of one worker are counts of a built-in one's steps, as `w 0 9`, or requests of another broker's, as `w 0 recv`: give one of the two another number"
# a line of a session as the clients write it, and one of a journal
OF_SESSION, OF_JOURNAL = re.compile(r"[<>]"), re.compile(r"\d+ ([tw])(\d[\d.]*) ")


def word_of(token: Token) -> str:
    return "" if token.is_quoted else token.text


def is_request(line: Line) -> bool:
    """Whether the line of a schedule says what a worker asks for, by its third token."""
    return line.word == "w" and len(line.operands) > 1 and word_of(line.operands[1]) in (ACT, *OF_WORKERS)


def form_of(line):
    """The form of a request; None where behind `act` stands no call that a worker makes."""
    word, behind = word_of(line.operands[1]), line.operands[2:]
    if word != ACT:
        return OF_WORKERS[word]
    call = word_of(behind[0]) if behind else ""
    if call == "mount":
        return mount(MOUNT + BEHIND_MOUNT.get(len(behind) - 1 - len(MOUNT), ()))
    return ACTS.get(call)


# ---- what is wrong. Each answers the words and the cure


def unknown_call(token):
    """A word behind `act` that is no call."""
    return f"{token.text} is no call that a worker makes", advice(meant(token.text.strip('"'), ACTS), f"after `act` comes {listed(ACTS, 'or')}")


def no_call() -> Tuple[str, str]:
    """`act` without anything behind it."""
    return "no call follows `act`", f"after `act` comes {listed(ACTS, 'or')}, as in `{ACTS['mknod'].example}`"


def no_count(line: Line) -> Optional[Tuple[str, str]]:
    """What a word is that stands in the place of a worker's count, and is no number; None where nothing is known."""
    text = word_of(line.operands[1]) if line.word == "w" and len(line.operands) > 1 else ""
    if is_request(line):
        return None
    if text in OF_SESSIONS:
        return f"{text} is no request of a worker", f"leave the line out: {OF_SESSIONS[text]}"
    other = OTHER_WORDS.get(text)
    hint = f"did you mean `{other}`? " if other else meant(text, (*OF_WORKERS, ACT))
    return (f"{text} is no count of steps, and no request of a worker", advice(hint, A_REQUEST)) if hint or text.isalpha() else None


def worker_of(line):
    """The worker's number in a line of a schedule; None where none stands there."""
    return number_of(word_of(line.operands[0])) if line.word == "w" and line.operands else None


def mixed(line: Any, others: Any) -> Any:
    """A count of steps of a worker that has requests, or a request of one that has counts: the line of the other kind among those above it."""
    number = worker_of(line)
    above = next((other for other in others if worker_of(other) == number and is_request(other) != is_request(line)), None)
    if above is None:
        return None
    if is_request(line):
        return f"line {above.number} counts steps of worker {number}, and this line is its request", A_KIND
    return f"line {above.number} is a request of worker {number}, and this line counts its steps", A_KIND


def hex_out_of_range(token: Token, operand: Operand) -> Tuple[str, str]:
    """Digits that aren't as many as the bytes of a structure need."""
    count = f"{len(token.text)} {'digit' if len(token.text) == 1 else 'digits'}"
    hint = ", without `0x`" if token.text[:2] in ("0x", "0X") else ""
    return f"the structure has {count} here", f"write {2 * operand.most} digits, two for each of its {operand.most} bytes{hint}"
