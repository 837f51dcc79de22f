"""The scripts that are made of a test file."""
from __future__ import annotations

from dataclasses import dataclass
from typing import TYPE_CHECKING, List, Tuple

from tools.commands.messages.script_words import FORMS, TREE
from tools.commands.real_workloads.script_text import FIRST_ADDRESS, FIRST_PAGES, PAGE, quoted
from tools.commands.real_workloads.tree import place
from tools.commands.testing import words
from tools.commands.testing.calls import Stored
from tools.commands.testing.files import Container, Step, Task
from tools.commands.testing.instances import Instances
from tools.commands.testing.lines import Word
from tools.commands.testing.trees import Tree

if TYPE_CHECKING:
    from tools.commands.testing.calls import Call
    from tools.commands.testing.lines import Line

# where a task's texts are: its paths in the first page of its part of the memory, and all others in the second
PAGES_OF_A_TASK = 2
# calls of one script: some starts of the program side by side take less time than one with all
MOST_TOGETHER = 25


@dataclass(frozen=True)
class Script:
    """A script: its lines, each with the line of the test file that it stands for, and the tasks that it has."""

    lines: tuple
    instances: tuple

    @property
    def data(self) -> bytes:
        """The bytes of the script's file."""
        return "".join(f"{line}\n" for line, _ in self.lines).encode("utf-8", "surrogateescape")

    def source_of(self, number):
        """The line of the test file from which a line of the script comes; None where there is none."""
        return self.lines[number - 1][1] if 0 < number <= len(self.lines) else None


def setting(line: Line) -> str:
    """A setting as a script has it."""
    form = FORMS[line.first.text]
    parts = [line.first.text]
    for at, word in enumerate(line.rest):
        is_text = bool(form.operands) and form.operand(at).is_quoted
        parts.append(quoted(word.content) if is_text else word.text.replace(":", " ") if line.first.text in words.DEVICES and at == 1 else word.text)
    return " ".join(parts)


def settings_of(container, instances, filters, descriptors):
    """The settings of a container's script; `filters` are lines, or None for the one that notifies each call with a name."""
    tree, others = Tree(), []
    for line in container.settings:
        if line.first.text in TREE or line.first.text == "root":
            tree.state(line, setting(line))
        else:
            others.append((setting(line), line))
    for instance in instances:
        for step in instance.task.steps:
            if step.call is not None:
                tree.need(step.call)
    pages = PAGES_OF_A_TASK * max(it.area + 1 for it in instances)
    memory = [(f"map 0x{FIRST_ADDRESS:x} {pages}", None)] if pages > FIRST_PAGES else []
    filters = default_listener(container) if filters is None else filters
    return [*tree.lines, *filters, *memory, *descriptor_lines(container, descriptors), *others]


def states(container: Container, word: str) -> bool:
    """Whether a setting of the container begins with this word."""
    return any(line.first.text == word for line in container.settings)


def default_listener(container: Container) -> List[Tuple[str, None]]:
    """The line that notifies each call with a name, unless the container says which are notified."""
    return [] if states(container, "notify") else [(f"notify {' '.join(words.CALL_NAMES)}", None)]


def descriptor_lines(container: Container, descriptors: List[int]) -> List[Tuple[str, None]]:
    """The lines that open the broker's descriptors, unless the container says which it has open."""
    return [] if states(container, "broker") else [(f"broker {it}", None) for it in descriptors]


def written(name: str, at: int, value: int) -> str:
    """A number of a call as a script has it: the modes of nodes in base 8."""
    is_mode = name in ("mknod", "mknodat") and at == len(("path", "mode")) - (name == "mknod") or name == "openat" and at == 3 and value
    return f"0o{value:06o}" if is_mode else str(value)


def call_lines(call: Call, area: int) -> List[str]:
    """The lines that store the texts of a call and make it."""
    path_at = FIRST_ADDRESS + area * PAGES_OF_A_TASK * PAGE
    rest_at, rest, operands, lines = path_at + PAGE, b"", [], []
    for at, argument in enumerate(call.arguments):
        if not isinstance(argument, Stored):
            operands.append(written(call.name, at, argument))
        elif argument.is_path:
            lines.append(f"poke 0x{path_at:x} {quoted(argument.content)}")
            operands.append(f"0x{path_at:x}")
        else:
            operands.append(f"0x{rest_at + len(rest):x}")
            rest += argument.content
    if rest:
        lines.append(f"poke 0x{rest_at:x} {quoted(rest)}")
    if call.name == "sysinfo":
        operands.append(f"0x{rest_at:x}")
    return [*lines, " ".join(["call", call.name, *operands])]


def step_lines(made, instance, step, started):
    """The lines of a script for one line of a task."""
    if step.call is not None:
        return call_lines(step.call, instance.area)
    if step.word in ("spawn", "thread"):
        return [f"{step.word} {next(started)[1].program}"]
    if step.word == "kill":
        return [f"kill {made.target(instance, step)} {words.SIGNALS[step.operands[1].text]}"]
    if step.word == "overwrite":
        return [f"poke 0x{FIRST_ADDRESS + made.overwritten(instance, step).area * PAGES_OF_A_TASK * PAGE:x} {quoted(step.operands[1].content + bytes(1))}"]
    if step.word == "handler":
        return [f"handler {words.SIGNALS[step.operands[0].text]} {step.operands[1].text}"]
    return [step.word]


def program(made, instance):
    lines, started = [(f"prog {instance.program}", instance.task.line)], iter(instance.children)
    for step in instance.task.steps:
        if step.call is not None:
            lines.append((f"# line {step.line.number}: {step.line.text}", None))
        lines += [(it, step.line) for it in step_lines(made, instance, step, started)]
    return [*lines, ("end", instance.task.line)]


def script_of(container, filters=None, descriptors=()):
    """The script of a container. `descriptors` are those of the broker that its policy puts into callers."""
    made = Instances(container)
    # (a program can start only those above it, and each of these has a longer name or comes later)
    programs = [line for instance in reversed(made.all) for line in program(made, instance)]
    return Script(tuple([*settings_of(container, made.all, filters, descriptors), *programs]), tuple(made.all))


def container_of(singles):
    """A container that makes calls one after another, each in a task of its own."""
    line = singles[0].line
    first = Task(line, "main")
    tasks = [first]
    for number, single in enumerate(singles, 1):
        name = f"call-{number}"
        word = Word(name, single.line.number, single.line.first.start, single.line.first.end)
        tasks.append(Task(single.line, name, [Step(single.line, single.call.name, call=single.call, expected=single.expected)]))
        first.steps += [Step(single.line, "spawn", (word,)), Step(single.line, "wait")]
    return Container(line, tasks=tasks)


# ---- which calls share a script


def disturbs(one: Call, other: Call) -> bool:
    """Whether what one call does may change what another one finds: the path of one lies on the path of the other."""
    if one.path is None or other.path is None:
        return False
    first, second = place((), one.path), place((), other.path)
    shorter = min(len(first), len(second))
    return first[:shorter] == second[:shorter]


def parted(singles):
    """Lists of calls that are made in one container without one changing what another finds."""
    lists = []
    for single in singles:
        there = next((it for it in lists if len(it) < MOST_TOGETHER and not any(disturbs(single.call, other.call) for other in it)), None)
        if there is None:
            lists.append([single])
        else:
            there.append(single)
    return lists


def batches(singles, is_counted):
    """The calls by scripts. Where a rule counts how often it granted, each has one of its own; else those share one of which the decision alone is asked, as no
    decision depends on the tree."""
    if is_counted:
        return [[it] for it in singles]
    decided = [it for it in singles if not it.expected.asks_tree]
    return [decided[at:at + MOST_TOGETHER] for at in range(0, len(decided), MOST_TOGETHER)] + parted([it for it in singles if it.expected.asks_tree])
