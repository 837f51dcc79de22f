"""Containers that do what a trace of strace shows: the scripts that are made of the trace, as `script-of-strace` makes them, with the calls of each."""
from __future__ import annotations

import io
import struct
from dataclasses import dataclass
from functools import lru_cache
from typing import TYPE_CHECKING, List, Optional

from tools.commands.messages.script_words import begins_as_script
from tools.commands.real_workloads import answers, bpf, findings, strace_text, workload
from tools.commands.real_workloads.script_lines import shown
from tools.commands.real_workloads.script_text import CALLS, MOST_BYTES
from tools.commands.testing import words
from tools.commands.testing.files import Step, Task
from tools.commands.testing.found import NOT_MADE
from tools.commands.testing.instances import Instance
from tools.commands.testing.scripts import Script, default_listener, descriptor_lines, setting
from tools.commands.testing.selections import some

if TYPE_CHECKING:
    from tools.commands.real_workloads.strace_text import Trace
    from tools.commands.real_workloads.workload import Workload
    from tools.commands.testing.lines import Line

RECORDING = "`record -o trace.txt -- COMMAND` records one, and so does `strace -f -X raw -xx -o trace.txt COMMAND`"
LESS = "take less of the trace with `calls=`, `process=`, `lines=` or `most=`, or have fewer calls notified by a setting, as `notify mknod mount`"
MAGIC, OF_MAGIC = 0xC0ED0000, 0xFFFF0000
KIND_OF_NODE, REGULAR, PERMISSIONS = 0o170000, 0o100000, 0o7777
# the number of a process, which an exploration doesn't tell, and what stands for a call that isn't made
AS_ANSWERS = {"pid": "1", NOT_MADE: ""}
# where the operands of a call stand among its arguments
PLACES = {
    "mknod": {"PATH": 0, "KIND": 1, "MAJOR:MINOR": 2, "MODE": 1}, "mknodat": {"DIRFD": 0, "PATH": 1, "KIND": 2, "MAJOR:MINOR": 3, "MODE": 2},
    "mount": {"SOURCE": 0, "TARGET": 1, "TYPE": 2, "FLAGS": 3, "data=TEXT": 4}, "setxattr": {"PATH": 0, "NAME": 1, "VALUE": 2, "FLAGS": 4},
    "openat": {"DIRFD": 0, "PATH": 1, "FLAGS": 2, "MODE": 3}, "close": {"NUMBER": 0},
}
OF_TEXTS = ("PATH", "SOURCE", "TARGET", "TYPE", "NAME", "VALUE", "data=TEXT")


# ---- calls of a trace


@dataclass(eq=False)
class TracedCall:
    """A call of the script: its arguments, and the call of the trace that it stands for; None where it was added."""

    made: object
    traced: Optional[object]
    program: str

    @property
    def name(self):
        return self.made.name

    @property
    def texts(self):
        return [it.content for it in self.made.texts.values()]

    @property
    def line(self):
        return self.traced.first

    @property
    def text(self):
        return shown(self.traced)

    def is_answered(self, outcome):
        """Whether a result is the one of the trace; numbers of descriptors and processes are others in a play."""
        return answers.is_same(answers.Made(self.line, self.name, "", str(self.traced.answer), play=AS_ANSWERS.get(outcome, outcome)))

    def value(self, operand):
        """What the call has for an operand: bytes of a text, or a number."""
        at = PLACES[self.name][operand]
        if operand in OF_TEXTS:
            text = self.made.texts.get(at)
            return text.content if text else b""
        number = self.made.number_of(at)
        if operand == "KIND":
            return number & KIND_OF_NODE or REGULAR
        if operand == "MODE":
            return number & PERMISSIONS
        return number & ~OF_MAGIC if self.name == "mount" and number & OF_MAGIC == MAGIC else number

    def has(self, operand, value):
        """Whether the call has this value of an operand; of a text that strace cut, whether it begins as that does."""
        at = PLACES[self.name][operand]
        if operand in OF_TEXTS and at in self.made.texts and self.made.texts[at].is_cut:
            return value.startswith(self.value(operand))
        return self.value(operand) == (words.KINDS[value] if operand == "KIND" else value)

    def shown_value(self, operand):
        """What the call has for an operand, as a test file has it."""
        value = self.value(operand)
        if operand in OF_TEXTS:
            return value.decode("utf-8", "backslashreplace")
        if operand == "KIND":
            return next((name for name, kind in words.KINDS.items() if kind == value), f"0o{value:o}")
        if operand == "MAJOR:MINOR":
            return f"{value >> 8 & 0xFFF}:{value & 0xFF | value >> 12 & 0xFFF00}"
        if operand == "FLAGS":
            names = [name for name, flag in words.FLAGS_OF[self.name].items() if "_" not in name and flag and flag & value == flag]
            return ",".join(names) or "0"
        return f"0{value:03o}" if operand == "MODE" else str(value)


# ---- the script


@lru_cache(maxsize=4)
def parsed(data: bytes) -> Trace:
    return strace_text.read(io.BytesIO(data), workload.WANTED)


def trace_of(word, data):
    """The trace of a file with these bytes, which a word names."""
    trace = parsed(data)
    if trace.read and (trace.items or trace.other_calls):
        return trace
    text = data.decode("utf-8", "replace")
    if begins_as_script(text):
        raise word.fault(f"{word.text} is a script, and no trace", f"`play` plays it; {RECORDING}")
    raise word.fault(f"no line of {word.text} is a call as strace prints it", RECORDING)


def filters_of(lines, notified):
    """The filters that stand in these lines, and the one that a line `notify` stands for."""
    found = bpf.read_blocks("\n".join(lines))
    return found + [bpf.Filter(bpf.notify_filter([CALLS[it] for it in notified]), True)] if notified else found


def workload_of(traced, trace, filters):
    """What is taken of a trace, under these filters."""
    options = traced.options

    def made(under):
        return workload.Workload(trace, workload.Options(set(options.get("calls", CALLS)), under, options.get("process", set()), options.get("lines", (1, 2**63)), options.get("most", 2**63)))

    try:
        found = made(filters)
    except (IndexError, KeyError, struct.error):
        # (the program refuses such a filter, and says why)
        found = made([])
    check_workload(traced, found)
    return found


def check_workload(traced, made):
    """Raises what is wrong with what is taken of a trace."""
    if not made.all:
        known = list(dict.fromkeys(str(it.pid) for it in made.processes.all))
        word = traced.word_of("process") if "process" in traced.options else traced.file
        raise word.fault("the trace has no process of this number", f"its processes are {some(known)}")
    if made.cut_at is not None and made.calls < traced.options.get("most", 2**63):
        raise traced.file.fault(f"a script would have more than {made.cut_by} with line {made.cut_at} of the trace", LESS)


def instances_of(line: Line, made: Workload) -> List[Instance]:
    """The tasks of a script that was made of a trace, with their calls."""
    found = []
    for task in made.all:
        calls = [TracedCall(call_made, call, task.program) for call, call_made in made.entered.get(task, [])]
        found.append(Instance(Task(line, task.program, [Step(line, it.name, call=it) for it in calls]), task.name, task.program, None, [], 0))
    return found


@dataclass(frozen=True)
class TracedScript(Script):
    """The script of a trace; `omitted` are the calls of the trace that it leaves out, each with the reason."""

    omitted: tuple = ()

    def chosen(self, selection):
        """The calls that a line names, each with its task and its step."""
        found = {it.call: (instance, it) for instance in self.instances for it in instance.task.steps if it.call.traced is not None}
        return [found[it] for it in sorted(selection.of(list(found), self.omitted), key=lambda it: it.line)]


def script_of(container, data, filters, descriptors):
    """The script of a container that does what a trace with these bytes shows. `filters` are lines with their sources, or None for the one that notifies each call
    with a name."""
    traced = container.traced
    notified = [it.text for line in container.settings if line.first.text == "notify" for it in line.rest if it.text in CALLS]
    if filters is None:
        filters = default_listener(container)
        notified = notified or list(words.CALL_NAMES)
        given = []
    else:
        given = [it for it, _ in filters]
    made = workload_of(traced, trace_of(traced.file, data), filters_of(given, notified))
    own = [*filters, *descriptor_lines(container, descriptors), *((setting(line), line) for line in container.settings)]
    lines = [*((it, traced.line) for it in findings.settings(made)), *own, *((it, traced.line) for it in findings.programs(made))]
    if sum(len(it) + 1 for it, _ in lines) > MOST_BYTES:
        raise traced.file.fault(f"the script would have more than {MOST_BYTES} bytes", LESS)
    return TracedScript(tuple(lines), tuple(instances_of(traced.line, made)), tuple(made.omitted))
