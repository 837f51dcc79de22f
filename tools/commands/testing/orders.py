"""What the calls of a script come to in orders of steps, as the program tells it: in those that it explored, or in the one that it played."""
from __future__ import annotations

from dataclasses import dataclass
from functools import cached_property
from typing import TYPE_CHECKING, Any, Dict, Tuple

from tools.commands.explored import Report, outcome_of as outcome_of_report
from tools.commands.json_documents.explorations import TOO_LONG, exploration_of, outcome_of, turn_line
from tools.commands.json_documents.lines import Lines
from tools.commands.pages.reports import NotAReport
from tools.commands.testing.asking import NotAsked
from tools.commands.testing.found import Deed, Found, MISSING

if TYPE_CHECKING:
    from tools.commands.testing.files import Step
    from tools.commands.testing.scripts import Script
    from tools.commands.testing.traces import TracedScript

ONLY_OUTCOME = "outcome 1 histories=1"


@dataclass(frozen=True)
class Made:
    """A call that was made: by which task, which call of the file it is, the step, and what came of it."""

    task: str
    place: str
    step: object
    found: Found

    @property
    def call(self):
        return self.step.call


@dataclass(frozen=True)
class Outcome:
    """What the calls come to in some orders of steps: how many orders, the calls, and the lines of a schedule that shows it."""

    histories: int
    made: tuple
    schedule: tuple

    @cached_property
    def last(self) -> Dict[Tuple[str, int], Found]:
        """What came of each step the last time that it was made."""
        return {(it.place, id(it.step)): it.found for it in self.made}

    def found(self, place: str, step: Step) -> Found:
        """What came of a step of a task; that it was never made where that is so. A call that was interrupted and not entered again counts as that."""
        last = self.last.get((place, id(step)), MISSING)
        return MISSING if last.outcome == "restarted" else last


@dataclass(frozen=True)
class Explored:
    """All outcomes, how many orders there are, and whether these are all."""

    outcomes: tuple
    histories: int
    whole: str


def deed_of(did: Dict[str, Any]) -> Deed:
    request = did.get("request", {"kind": "plant"})
    return Deed(request["kind"], request.get("program") or "", did["result"]["kind"] == "ok", did["afterwards"] or "")


def found_of(call: Dict[str, Any]) -> Found:
    """What an exploration tells of a call."""
    outcome = call["outcome"]
    text = outcome.get("value") or outcome.get("error") or outcome["kind"]
    audit = call["audit"] or {"rule": None, "verdict": "-", "reply": "-"}
    return Found(call["verdict"]["kind"], text, audit["rule"] or "-", audit["verdict"], audit["reply"], tuple(map(deed_of, call["did"])))


def made_of(instances, calls):
    """The calls of an outcome with the steps that made them. A call that is entered again after a signal is of the same step."""
    named, at = {it.place: it for it in instances}, {}
    steps = {it.place: [step for step in it.task.steps if step.call is not None] for it in instances}
    for call in calls:
        instance = named[call["task"]]
        found = found_of(call)
        yield Made(instance.task.name, instance.place, steps[instance.place][at.get(instance.place, 0)], found)
        at[instance.place] = at.get(instance.place, 0) + (found.outcome != "restarted")


def schedule_lines(schedule):
    return tuple(["schedule", *map(turn_line, schedule), "end"] if schedule is not None else ["schedule too long"])


def explored_of(script: Script, output: bytes) -> Explored:
    """What an exploration of a script came to."""
    document = exploration_of(output)
    outcomes = tuple(Outcome(int(it["histories"]), tuple(made_of(script.instances, it["calls"])), schedule_lines(it["schedule"])) for it in document["outcomes"])
    return Explored(outcomes, int(document["histories"]), document["whole"])


def played_of(script: TracedScript, report: bytes) -> Explored:
    """The outcome of the one order of steps that a report tells, as an exploration prints it."""
    lines = outcome_of_report(Report(report.decode("latin-1")), script.data)
    document = outcome_of(Lines("\n".join([ONLY_OUTCOME, *(lines or ["none"]), TOO_LONG, ""]).encode()))
    return Explored((Outcome(1, tuple(made_of(script.instances, document["calls"])), ()),), 1, "yes")


def understood(read, script, output):
    """What the program printed of a script, by one of the two above."""
    try:
        return read(script, output)
    except NotAReport as fault:
        raise NotAsked(f"what the program printed isn't understood: {fault}") from None
