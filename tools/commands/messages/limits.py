"""Which limit of a script a line exceeds, as docs/reference/SCRIPT.md has them (Limits)."""
from __future__ import annotations

from dataclasses import dataclass
from typing import Any

from tools.commands.messages.requests import is_request
from tools.commands.messages.script_lines import START, number_of
from tools.commands.messages.script_words import MOST_BROKER, MOST_PROGRAMS, MOST_TREE_LINES, TREE
from tools.commands.real_workloads.script_text import MOST_CALLS, MOST_DEPTH, MOST_FILTERS, MOST_INSTRUCTIONS, MOST_PAGES, MOST_STEPS, MOST_TASKS

MOST_STORED = 67_108_864


@dataclass(frozen=True)
class Totals:
    """What a program and all that it starts come to."""

    instructions: int = 0
    calls: int = 0
    tasks: int = 0
    stored: int = 0
    depth: int = 0

    def plus(self, other: Totals) -> Totals:
        return Totals(self.instructions + other.instructions, self.calls + other.calls, self.tasks + other.tasks, self.stored + other.stored, max(self.depth, other.depth))


def own(line, known):
    """What one instruction comes to."""
    if line.word in START:
        started = known[line.operands[0].text]
        return Totals(1 + started.instructions, started.calls, 1 + started.tasks, started.stored, 1 + started.depth)
    stored = len(line.operands[1].content) if line.word == "poke" else number_of(line.operands[1].text) if line.word == "fill" else 0
    return Totals(1, line.word == "call", 0, stored, 0)


def totals_of(programs):
    """What each program comes to, by its name."""
    known = {}
    for program in programs:
        found = Totals(instructions=not any(line.word == "exit" for line in program.lines))
        for line in program.lines:
            found = found.plus(own(line, known))
        known[program.name] = found
    return known


def program_exceeds(script: Any) -> Any:
    found = totals_of(script.programs)[script.open.name]
    for what, count, most in (("executes {} instructions", found.instructions, MOST_INSTRUCTIONS), ("makes {} calls", found.calls, MOST_CALLS), ("starts {} tasks", found.tasks, MOST_TASKS),
                              ("stores {} bytes", found.stored, MOST_STORED), ("nests {} deep", found.depth, MOST_DEPTH)):
        if count > most:
            return f"this program, with all that it starts, {what.format(count)}", f"at most {most} are allowed"
    return None


def exceeded(script, line):
    """What is too much with this line, and what is allowed; None where that can't be told."""
    if line.word == "end":
        return program_exceeds(script)
    if line.word in TREE:
        return f"the tree has {len(script.named(*TREE)) + 1} lines", f"a tree has at most {MOST_TREE_LINES}"
    if line.word == "broker":
        return f"the broker has {len(script.named('broker')) + 1} descriptors", f"it has at most {MOST_BROKER}"
    if line.word == "map":
        pages = sum(number_of(it.operands[1].text) for it in [*script.named("map"), line])
        return f"{pages} pages are mapped", f"at most {MOST_PAGES} are allowed in all"
    if line.word in ("filter", "notify"):
        return f"this is filter number {MOST_FILTERS + 1}", f"a script has at most {MOST_FILTERS}"
    if line.word == "prog":
        return f"this is program number {MOST_PROGRAMS + 1}", f"a script has at most {MOST_PROGRAMS}"
    if line.word in ("t", "w"):
        steps = sum(1 if is_request(it) or len(it.operands) == 1 else number_of(it.operands[1].text) for it in [*script.open.lines, line])
        return f"the schedule has {steps} steps up to here", f"a schedule has at most {MOST_STEPS}"
    return None
