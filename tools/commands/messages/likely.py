"""What the program takes of a script and is likely a mistake."""
from __future__ import annotations

import re
from typing import Any, Iterator, List

from tools.commands.messages.findings import Finding, Text, listed
from tools.commands.messages.operands import form_of, is_like_octal
from tools.commands.messages.script_lines import Block, Line, number_of, program_of, script_of, starts

# how many tasks are looked at that never step
MOST_TASKS = 4_000
# up to how many tasks are named
FEW = 12
OCTAL_ESCAPE = re.compile(r"\\0[0-7]{2}")


# what a script is for: it is played, or its tasks step as `step` is asked, or as `explore-broker` tries it
PLAY, STEP, EXPLORE_BROKER = USES = ("play", "step", "explore-broker")


class Likely:
    """Looks through a script that the program takes."""

    def __init__(self, text: Text) -> None:
        self.text, self.script = text, script_of(text)

    def finding(self, name: str, line: Any, token: Any, words: str, cure: str) -> Any:
        start = self.text.starts[line.number - 1]
        return self.text.finding(name, start + token.start, start + token.end, words, cure)

    def on_word(self, name: str, line: Line, words: str, cure: str) -> Finding:
        return self.finding(name, line, line.tokens[0], words, cure)

    def statements(self) -> Iterator[Line]:
        """All lines of the script."""
        yield from self.script.settings
        for block in self.script.blocks:
            yield block.opening
            yield from block.lines

    @property
    def main(self) -> Block:
        """The program that task 0 runs."""
        return self.script.programs[-1]

    # ---- numbers and texts

    def octal_numbers(self) -> Iterator[Finding]:
        for line in self.statements():
            for place, token in enumerate(line.operands):
                if not token.is_quoted and form_of(line).operand(place).kind not in ("program", "task", "hex") and is_like_octal(token.text):
                    octal = f"0o{token.text}"
                    yield self.finding("leading-zero", line, token, f"{token.text} is the decimal number {number_of(token.text)} here; in C it would be octal, {number_of(octal)}",
                                       f"write `{octal}` for the octal number, or `{number_of(token.text)}` for the decimal one")

    def octal_escapes(self) -> Iterator[Finding]:
        for line in self.statements():
            for token in (it for it in line.operands if it.is_quoted):
                found = OCTAL_ESCAPE.search(token.text.replace("\\\\", "__"))
                if found:
                    right = f"\\x{int(found[0][1:], 8):02x}"
                    start = self.text.starts[line.number - 1] + token.start + found.start()
                    yield self.text.finding("octal-escape", start, start + len(found[0]), f"`{found[0]}` is a zero byte and the digits {found[0][2:]} here; in C it would be one byte",
                                            f"write `{right}` for that byte, or `\\x00{found[0][2:]}` for the bytes that are read")

    # ---- who is asked, and who steps

    def listener(self) -> Iterator[Finding]:
        openings = [block.opening for block in self.script.blocks]
        if not self.script.named("notify") and not any(line.word == "filter" and line.operands for line in openings):
            filters = [line for line in openings if line.word == "filter"]
            cure = "write `filter listener`, and answer 0x7fc00000 (USER_NOTIF) for the calls that the broker is asked about"
            yield self.on_word("no-listener", filters[0] if filters else self.main.opening, "no filter has the listener, so no call is notified, and no policy is asked",
                               cure if filters else "name calls among the settings, as `notify mknod mount`")

    def programs(self) -> Iterator[Finding]:
        started = {line.operands[0].text for program in self.script.programs for line in starts(program)}
        for program in self.script.programs[:-1]:
            if program.name not in started:
                yield self.finding("never-started", program.opening, program.opening.operands[0], f"no program starts {program.name}, so it never runs",
                                   f"task 0 runs the last program, {self.main.name}: put {program.name} last, or start it by `spawn {program.name}`")

    def tasks(self):
        """The tasks that come if every start succeeds, each with the line that starts it."""
        named = {program.name: program for program in self.script.programs}
        pending, found = [("0", self.main, self.main.opening)], []
        while pending and len(found) < MOST_TASKS:
            name, program, line = pending.pop(0)
            found.append((name, line))
            pending += [(f"{name}.{number}", named[child.operands[0].text], child) for number, child in enumerate(starts(program), 1)]
        return found

    def names_of_tasks(self) -> str:
        """A sentence with the tasks of the script, or how to find them where they are many."""
        names = [name for name, _ in self.tasks()]
        return f"the tasks of this script are {listed(names)}" if len(names) <= FEW else "count the lines `spawn` and `thread` of its program"

    def schedule(self) -> Iterator[Finding]:
        schedule = self.script.schedule
        if schedule is None:
            yield self.on_word("no-schedule", self.main.opening, "there is no schedule, so `play`, `handover` and `judge` let nobody step",
                               "add `schedule`, lines as `t 0 2` and `w 0 9`, and `end`; `run`, `lanes`, `pod` and `explore` need none")
            return
        if not schedule.lines:
            yield self.on_word("no-schedule", schedule.opening, "the schedule has no lines, so `play`, `handover` and `judge` let nobody step", "add lines as `t 0 2` and `w 0 9`")
            return
        yield from self.scheduled_tasks(schedule)
        yield from self.scheduled_workers(schedule)

    def unused_schedule(self, use: str) -> Iterator[Finding]:
        """A schedule where nobody goes by it."""
        schedule = self.script.schedule
        if schedule is not None:
            yield self.on_word("schedule-not-used", schedule.opening, f"`{use}` doesn't go by the schedule, which says who steps in a play",
                               "leave it out, or `play` the script" if use == STEP else "leave it out: tasks step in each order within the bound")

    def scheduled_tasks(self, schedule):
        """Scheduled tasks that never come, and tasks that come and aren't scheduled."""
        seen = set()
        for line in schedule.lines:
            token = line.operands[0]
            if line.word == "t" and token.text not in seen:
                seen.add(token.text)
                found, known = program_of(self.script, token.text)
                if found is None:
                    parent, _ = program_of(self.script, known)
                    count = len(starts(parent))
                    told = f"starts {count} {'task' if count == 1 else 'tasks'}" if count else "starts none"
                    yield self.finding("task-never-comes", line, token, f"task {token.text} never comes: task {known}, which runs {parent.name}, {told}, so each of its steps is a `skip`",
                                       self.names_of_tasks())
        told = set()
        for name, line in self.tasks():
            if name not in seen and line.number not in told:
                told.add(line.number)
                yield self.on_word("task-never-steps", line, f"task {name} isn't in the schedule, so it never steps", f"add `t {name} COUNT` to the schedule")

    def scheduled_workers(self, schedule: Block) -> Iterator[Finding]:
        notifies = self.script.named("notify") or any(block.opening.operands for block in self.script.blocks if block.opening.word == "filter")
        if notifies and not any(line.word == "w" for line in schedule.lines):
            yield self.on_word("no-worker-steps", schedule.opening, "no worker is in the schedule, so a call that is notified waits for ever", "add `w 0 COUNT`: nine steps grant a mknod")


def numbers_and_texts(text: Text) -> List[Finding]:
    """Numbers and texts that C reads otherwise."""
    found = Likely(text)
    return [*found.octal_numbers(), *found.octal_escapes()]


def findings(text: Text, use: str = PLAY) -> List[Finding]:
    """All that is likely a mistake in a script that is used so, in the order of its place."""
    found = Likely(text)
    of_schedule = found.schedule() if use == PLAY else found.unused_schedule(use)
    every = [*numbers_and_texts(text), *found.listener(), *found.programs(), *of_schedule]
    return sorted(every, key=lambda it: (it.line, it.start))
