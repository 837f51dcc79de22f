"""A broken clause: at which event, of which call, and which events show why."""
from typing import List, NamedTuple, Optional

from tools.references.judging.clauses import Clause, Gravity
from tools.references.stepping.kernel import Call
from tools.references.stepping.reports import line_of


class Reason(NamedTuple):
    """A part of why a clause is broken, with the place of the event that shows it, if one does."""

    text: str
    place: Optional[int] = None


class Fault(NamedTuple):
    """The first clause that is broken at an event, and what it is about."""

    place: int
    clause: Clause
    gravity: Gravity
    call: Optional[Call]
    entered_at: Optional[int]
    reasons: List[Reason]

    def text(self, events):
        """What is printed of it, given the events of the history."""
        about = f"call {line_of(self.entered_at, events[self.entered_at])}" if self.entered_at is not None else "call -"
        lines = [f"broken {self.place} {self.gravity.value} {self.clause.name}", line_of(self.place, events[self.place]), about, f"  {self.clause.broken}"]
        for reason in self.reasons:
            lines.append(f"  {reason.text}" if reason.place is None else f"  {line_of(reason.place, events[reason.place])}: {reason.text}")
        return "".join(line + "\n" for line in lines)
