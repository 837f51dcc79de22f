"""Which calls of a trace a line of a test file names: the one at a line of the trace, those of a name with the operands that are stated, or all."""
from __future__ import annotations

import re
from dataclasses import dataclass
from typing import TYPE_CHECKING, List, Optional

from tools.commands.messages.findings import advice, joined, listed, meant
from tools.commands.testing import words
from tools.commands.testing.calls import Reader, name_of
from tools.commands.testing.lines import missing

if TYPE_CHECKING:
    from tools.commands.testing.traces import TracedCall

# so many things of a trace are named in a message
MOST_NAMED = 6


def some(named: List[str], last: str = "and") -> str:
    """Words as a text, of many the first ones."""
    named = list(named)
    return listed(named, last) if len(named) <= MOST_NAMED else f"{', '.join(f'`{it}`' for it in named[:MOST_NAMED])} and {len(named) - MOST_NAMED} more"


def counted(calls: List[TracedCall]) -> str:
    """How many calls a line names, or where the only one stands."""
    return f"line {calls[0].line}" if len(calls) == 1 else f"{len(calls)} calls"


@dataclass(frozen=True)
class AtLine:
    """The call at a line of the trace."""

    word: object
    number: int

    def counted(self, _: List[TracedCall]) -> str:
        return ""

    def of(self, calls, omitted):
        found = [it for it in calls if it.line == self.number]
        if not found:
            why = next((why for call, why in omitted if call.first == self.number), None)
            near = sorted(sorted({it.line for it in calls}, key=lambda it: abs(it - self.number))[:MOST_NAMED])
            if why is not None:
                raise self.word.fault(f"line {self.number} of the trace is no call of the script, which leaves it out: {why}", "the script that `--show` prints has a comment in its place")
            raise self.word.fault(f"no call of the script is at line {self.number} of the trace", f"calls near it are at lines {joined(map(str, near))}" if near else "no call is taken of the trace")
        return found


@dataclass(frozen=True)
class Every:
    """All calls of the trace."""

    word: object

    def counted(self, calls: List[TracedCall]) -> str:
        return counted(calls)

    def of(self, calls, _):
        if not calls:
            raise self.word.fault("the script has no call of the trace", "take others of its calls, lines or processes")
        return calls


@dataclass(frozen=True)
class Stated:
    """Calls by their name and the operands that are stated, and of one process where that is."""

    process: Optional[object]
    name: object
    operands: dict
    places: dict

    def counted(self, calls: List[TracedCall]) -> str:
        return counted(calls)

    def of(self, calls, omitted):
        left = calls
        if self.process is not None:
            programs = list(dict.fromkeys(it.program for it in calls))
            left = [it for it in left if it.program == self.process.text]
            if not left:
                raise self.process.fault(f"no process of the trace that makes a call is {self.process.text}", advice(meant(self.process.text, programs), f"they are {some(programs)}" if programs else "none makes one"))
        named = [it for it in left if it.name == self.name.text]
        if not named:
            raise self.of_no_name(left, omitted)
        for operand, value in self.operands.items():
            fitting = [it for it in named if it.has(operand, value)]
            if not fitting:
                raise self.of_no_value(operand, named)
            named = fitting
        return named

    def of_no_name(self, calls, omitted):
        left_out = [(call, why) for call, why in omitted if call.name == self.name.text]
        if left_out:
            call, why = left_out[0]
            return self.name.fault(f"the script has no {self.name.text} of the trace: that of line {call.first} is left out: {why}", "the script that `--show` prints has a comment in its place")
        names = dict.fromkeys(it.name for it in calls)
        whose = f"{self.process.text} makes" if self.process is not None else "the trace has"
        return self.name.fault(f"{whose} no call {self.name.text}", advice(meant(self.name.text, names), f"the calls that it has are {listed(names)}" if names else "none of its calls is taken"))

    def of_no_value(self, operand, calls):
        word, values = self.places[operand], sorted({it.shown_value(operand) for it in calls})
        return word.fault(f"no `{self.name.text}` of the trace has this {operand}: {word.text}", advice(meant(word.text, values), f"they have {some(values)}"))


def selection_of(line, given):
    """Which calls these words name."""
    word = given[0]
    if word.text == words.LINE_OF_TRACE and not word.is_quoted:
        if len(given) < 2:
            raise missing(line, "the number of a line of the trace", "line 26 -> granted")
        if len(given) > 2 or not re.fullmatch(r"[1-9]\d{0,8}", given[1].text):
            wrong = given[2] if len(given) > 2 else given[1]
            raise wrong.fault(f"{wrong.text} isn't the number of a line", "it is written `line N`, as `line 26 -> granted`")
        return AtLine(given[1], int(given[1].text))
    if word.text == words.EVERY and not word.is_quoted:
        if [it.text for it in given[1:]] != [words.CALL]:
            raise word.fault("all calls of the trace are `every call`", "write `every call`; those of one name are that name alone, as `mount`")
        return Every(word)
    process = word if words.PROCESS_OF_TRACE.fullmatch(word.text) and not word.is_quoted else None
    named = given[1:] if process else given
    if not named:
        raise missing(line, "the call", f"{word.text} mknod -> granted")
    reader = Reader(line, name_of(named[0]), named[1:])
    return Stated(process, named[0], reader.read(is_whole=False), reader.places)
