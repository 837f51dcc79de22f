"""A script's bytes, read whole: what the container is, what its tasks do and who steps, or the first line that is refused and why (docs/reference/SCRIPT.md, Script)."""
from __future__ import annotations

from collections import namedtuple
from dataclasses import dataclass, field
from typing import Any, Callable, Iterator, Optional, Set, Type, Union

from tools.commands.messages import operands
from tools.commands.messages import script_words as words
from tools.commands.messages.limits import MOST_STORED, Totals, own
from tools.commands.messages.script_lines import FILTER, PROGRAM, SCHEDULE, SETTINGS, Block, Line, Script, number_of
from tools.commands.real_workloads.script_text import CALLS, FIRST_ADDRESS, FIRST_PAGES, MOST_CALLS, MOST_DEPTH, MOST_FILTERS, MOST_INSTRUCTIONS, MOST_PAGES, MOST_STEPS, MOST_TASKS
from tools.references.stepping import filters, lexing
from tools.references.stepping.lexing import LineFault
from tools.references.stepping.requests import Asked, is_asking, read_tokens, seat_reason

REASONS = (
    "bad byte", "bad quote", "unknown word", "out of place", "wrong count", "wrong form", "bad number", "out of range", "bad path", "unknown name", "duplicate", "unmapped",
    "second listener", "no listener", "bad filter", "too large",
)
ONCE = ("pidmax", "pidbase", "firstid", "rlimit", "root", "figures", "killable")
MOST_TREE_LINES, MOST_BROKER, MOST_PROGRAMS = words.MOST_TREE_LINES, words.MOST_BROKER, words.MOST_PROGRAMS
PAGE, WIDE = 4096, 2**64
DEFAULT_PIDS, DEFAULT_DESCRIPTORS = 32_768, 1024

Node = namedtuple("Node", "directory name kind device target")
Instruction = namedtuple("Instruction", "word operands")
# how often a task steps, and a worker of this project's
TaskSteps = namedtuple("TaskSteps", "name count")
WorkerSteps = namedtuple("WorkerSteps", "number count")


class Refused(Exception):
    """A script that isn't taken; the text is what stands behind `script: `."""

    def __init__(self, line: int, reason: str) -> None:
        super().__init__(f"line {line}: {reason}")


@dataclass
class Container:
    """What a script states. `front` are its lines before the schedule, and `schedule` the lines of that: TaskSteps, WorkerSteps and Asked."""

    nodes: list = field(default_factory=lambda: [Node(0, b"", "dir", None, None)])
    attributes: dict = field(default_factory=dict)
    root: int = 0
    pidmax: int = DEFAULT_PIDS
    pidbase: int = 0
    firstid: int = 1
    rlimit: int = DEFAULT_DESCRIPTORS
    broker: set = field(default_factory=set)
    ranges: list = field(default_factory=list)
    limits: list = field(default_factory=list)
    figures: tuple = (0, 0, 0, 0, 0, 0)
    filters: list = field(default_factory=list)
    killable: bool = False
    programs: list = field(default_factory=list)
    front: bytes = b""
    schedule: list = field(default_factory=list)

    @property
    def pages(self) -> Set[int]:
        """The numbers of the mapped pages."""
        stated = self.ranges or [(FIRST_ADDRESS, FIRST_PAGES)]
        return {start // PAGE + at for start, count in stated for at in range(count)}


class Reader:
    """Reads a script line by line."""

    def __init__(self):
        self.script, self.container = Script(), Container()
        self.paths = {b"/": 0}
        self.program_places, self.totals = {}, {}
        self.tree_lines, self.steps = 0, 0
        # what the lines of each worker of the schedule are
        self.workers = {}

    # ---- which reasons a line shows

    def reasons(self, line: Line) -> Iterator[str]:
        """The reasons for which a line is refused, each by the first test that shows it."""
        if line.tokens[0].is_quoted or line.word not in words.FORMS:
            yield "unknown word"
            return
        if self.is_request(line):
            yield from self.request_reasons(line)
            return
        if self.is_misplaced(line):
            yield "out of place"
            return
        if not operands.is_counted(line):
            yield "wrong count"
            return
        alone = list(operand_reasons(line))
        yield from alone
        if not alone:
            yield from self.reasons_above(line)

    def is_misplaced(self, line: Line) -> bool:
        word, block = line.word, self.script.open
        if block is not None:
            ended = block.kind == PROGRAM and block.lines and block.lines[-1].word == "exit"
            return word != "end" and bool(ended or word in words.BLOCKS or words.FORMS[word].part != block.kind)
        if word == "end" or self.script.schedule is not None:
            return True
        if self.script.part == SETTINGS:
            late = word == "pidmax" and self.script.named("pidbase")
            return bool(late) or (words.FORMS[word].part != SETTINGS)
        return word not in ("prog", "schedule")

    # ---- what workers of another broker ask for

    def is_request(self, line: Line) -> bool:
        return self.script.open is not None and self.script.open.kind == SCHEDULE and is_asking(line.tokens)

    def request_reasons(self, line):
        """Why a worker's request is refused in a schedule."""
        fault = fault_of(line)
        alone = list(filter(None, (fault, None if fault == "unknown word" else seat_reason(line.operands[0]))))
        yield from alone or self.step_reasons(line)

    def reasons_above(self, line: Line) -> Iterator[str]:
        """What a line shows beside those above it, all its operands being right by themselves."""
        word = line.word
        if word in TESTS:
            yield from TESTS[word](self, line)
        if word in ONCE and self.script.named(word):
            yield "duplicate"

    # ---- the settings

    def node_reasons(self, line: Any) -> Iterator[Any]:
        path = line.operands[0].content
        parent = path.rpartition(b"/")[0] or b"/"
        if path in self.paths or parent not in self.paths or self.container.nodes[self.paths[parent]].kind != "dir":
            yield "bad path"
        yield from self.tree_limit()

    def tree_limit(self) -> Iterator[Any]:
        if self.tree_lines >= MOST_TREE_LINES:
            yield "too large"

    def attr_reasons(self, line: Line) -> Iterator[Any]:
        if line.operands[0].content not in self.paths:
            yield "bad path"
        yield from self.tree_limit()

    def root_reasons(self, line: Line) -> Iterator[Any]:
        path = line.operands[0].content
        if path not in self.paths or self.container.nodes[self.paths[path]].kind != "dir":
            yield "bad path"

    def pidbase_reasons(self, line: Line) -> Iterator[Any]:
        if number(line, 0) + self.container.pidmax > words.GREATEST_PID:
            yield "out of range"

    def broker_reasons(self, line: Line) -> Iterator[Any]:
        if number(line, 0) in self.container.broker:
            yield "duplicate"
        if len(self.container.broker) >= MOST_BROKER:
            yield "too large"

    def map_reasons(self, line: Line) -> Iterator[Any]:
        start, count = number(line, 0), number(line, 1)
        end = start + count * PAGE
        if end > operands.END_OF_ADDRESSES or any(start < other + pages * PAGE and other < end for other, pages in self.container.ranges):
            yield "out of range"
        if sum(pages for _, pages in self.container.ranges) + count > MOST_PAGES:
            yield "too large"

    def filter_reasons(self, line: Line) -> Iterator[str]:
        if (line.word == "notify" or line.operands) and self.has_listener():
            yield "second listener"
        if len(self.container.filters) >= MOST_FILTERS:
            yield "too large"

    def has_listener(self) -> bool:
        return any(listener for _, listener in self.container.filters)

    def killable_reasons(self, line: Line) -> Iterator[str]:
        if not self.has_listener():
            yield "no listener"

    # ---- the programs and the schedule

    def prog_reasons(self, line: Line) -> Iterator[Any]:
        if line.operands[0].text in self.program_places:
            yield "duplicate"
        if len(self.container.programs) >= MOST_PROGRAMS:
            yield "too large"

    def start_reasons(self, line: Line) -> Iterator[Any]:
        if line.operands[0].text not in self.program_places:
            yield "unknown name"

    def store_reasons(self, line: Any) -> Iterator[Any]:
        start = number(line, 0)
        length = len(line.operands[1].content) if line.word == "poke" else number(line, 1)
        pages = self.container.pages
        if any(page not in pages for page in range(start // PAGE, (start + length - 1) // PAGE + 1)):
            yield "unmapped"

    def step_reasons(self, line: Line) -> Iterator[Any]:
        if line.word == "w" and self.workers.get(number(line, 0), kind_of(line)) is not kind_of(line):
            yield "out of place"
        if self.steps + count_of(line) > MOST_STEPS:
            yield "too large"

    def end_reasons(self, line: Line) -> Iterator[Any]:
        block = self.script.open
        if block.kind == FILTER and filters.fault_of([instruction_of(it) for it in block.lines]):
            yield "bad filter"
        if block.kind == PROGRAM:
            sums = self.totals_of(block)
            if sums.instructions > MOST_INSTRUCTIONS or sums.calls > MOST_CALLS or sums.tasks > MOST_TASKS or sums.stored > MOST_STORED or sums.depth > MOST_DEPTH:
                yield "too large"

    def totals_of(self, program: Block) -> Totals:
        """What a program and all that it starts come to."""
        found = Totals(instructions=not any(line.word == "exit" for line in program.lines))
        for line in program.lines:
            found = found.plus(own(line, self.totals))
        return found

    # ---- what a line states

    def take(self, line: Line) -> None:
        """Notes what a line states that shows no reason."""
        block = self.script.open
        if line.word in SETTERS:
            SETTERS[line.word](self, line)
        if line.word == "end" and block.kind == FILTER:
            self.container.filters.append(([instruction_of(it) for it in block.lines], bool(block.opening.operands)))
        elif line.word == "end" and block.kind == PROGRAM:
            self.totals[block.name] = self.totals_of(block)
            self.program_places[block.name] = len(self.container.programs)
            self.container.programs.append([self.instruction(it) for it in block.lines])
        self.script.take(line)

    def take_node(self, line: Any) -> None:
        path = line.operands[0].content
        parent, _, name = path.rpartition(b"/")
        device = (number(line, 1), number(line, 2)) if line.word in ("chr", "blk") else None
        target = line.operands[1].content if line.word == "link" else None
        self.tree_lines += 1
        self.paths[path] = len(self.container.nodes)
        self.container.nodes.append(Node(self.paths[parent or b"/"], name, line.word, device, target))

    def take_attr(self, line: Line) -> None:
        path, name, value = (it.content for it in line.operands)
        self.tree_lines += 1
        self.container.attributes[self.paths[path], name] = value

    def take_notify(self, line: Line) -> None:
        self.container.filters.append((filters.notifying([CALLS[it.text] for it in line.operands]), True))

    def take_step(self, line: Line) -> None:
        """Notes a line of the schedule."""
        self.steps += count_of(line)
        self.container.schedule.append(scheduled_by(line))
        if line.word == "w":
            self.workers[number(line, 0)] = kind_of(line)

    def instruction(self, line):
        """An instruction of a program."""
        word, values = line.word, line.operands
        if word == "poke":
            return Instruction(word, (number(line, 0), values[1].content))
        if word == "fill":
            return Instruction("poke", (number(line, 0), bytes([number(line, 2)]) * number(line, 1)))
        if word == "call":
            named = values[0].text
            args = [number_of(it.text) % WIDE for it in values[1:]]
            return Instruction(word, (number_of(named) if operands.begins_number(named) else CALLS[named], tuple(args + [0] * (6 - len(args)))))
        if word in ("spawn", "thread"):
            return Instruction(word, (self.program_places[values[0].text],))
        if word == "kill":
            return Instruction(word, (values[0].text, number(line, 1) if len(values) == 3 else None, number_of(values[-1].text)))
        if word == "handler":
            return Instruction(word, (number(line, 0), values[1].text))
        return Instruction(word, ())


def operand_reasons(line: Line) -> Iterator[str]:
    """The reasons that the operands of a line show by themselves."""
    unknown_whom = line.word == "kill" and operands.form_of(line) is words.FORMS["kill"] and len(line.operands) == 3
    for place, token in enumerate(line.operands):
        operand = operands.form_of(line).operand(place)
        # behind a word that isn't known stands any number, and then the signal
        if unknown_whom and place == 1:
            operand = words.Operand("N", least=-(2**100), most=2**100)
        reason = operands.reason_of(operand, token)
        if reason:
            yield reason


def number(line, place):
    return number_of(line.operands[place].text)


def count_of(line: Line) -> int:
    """How many steps a line of the schedule has; a request is one."""
    return 1 if is_asking(line.tokens) or len(line.operands) == 1 else number(line, 1)


def kind_of(line: Line) -> Union[Type[Asked], Type[WorkerSteps]]:
    """What a worker's line is: a count of steps, or a request."""
    return Asked if is_asking(line.tokens) else WorkerSteps


def scheduled_by(line: Any) -> Any:
    """What a line of the schedule states."""
    if is_asking(line.tokens):
        return read_tokens(line.tokens)
    if line.word == "t":
        return TaskSteps(tuple(map(int, line.operands[0].text.split("."))), count_of(line))
    return WorkerSteps(number(line, 0), count_of(line))


def fault_of(line):
    """The reason that a worker's request shows by itself, or None."""
    try:
        read_tokens(line.tokens)
    except LineFault as fault:
        return str(fault)
    return None


def instruction_of(line: Any) -> Any:
    """An instruction of a filter: its word, K, JT and JF."""
    values = [number_of(it.text) for it in line.operands]
    return (line.word, *values, *[0] * (3 - len(values)))


def setter(name: str) -> Callable[..., Any]:
    return lambda reader, line: setattr(reader.container, name, number(line, 0))


TESTS = {
    **{word: Reader.node_reasons for word in words.NODES}, "attr": Reader.attr_reasons, "root": Reader.root_reasons, "pidbase": Reader.pidbase_reasons,
    "broker": Reader.broker_reasons, "map": Reader.map_reasons, "filter": Reader.filter_reasons, "notify": Reader.filter_reasons, "killable": Reader.killable_reasons,
    "prog": Reader.prog_reasons, "spawn": Reader.start_reasons, "thread": Reader.start_reasons, "poke": Reader.store_reasons, "fill": Reader.store_reasons,
    "t": Reader.step_reasons, "w": Reader.step_reasons, "end": Reader.end_reasons,
}
SETTERS = {
    **{word: Reader.take_node for word in words.NODES}, "attr": Reader.take_attr, "notify": Reader.take_notify,
    **{name: setter(name) for name in ("pidmax", "pidbase", "firstid", "rlimit")},
    "root": lambda reader, line: setattr(reader.container, "root", reader.paths[line.operands[0].content]),
    "broker": lambda reader, line: reader.container.broker.add(number(line, 0)),
    "map": lambda reader, line: reader.container.ranges.append((number(line, 0), number(line, 1))),
    "cgroup": lambda reader, line: reader.container.limits.append((number(line, 0), number(line, 1))),
    "figures": lambda reader, line: setattr(reader.container, "figures", tuple(number(line, place) for place in range(6))),
    "killable": lambda reader, line: setattr(reader.container, "killable", True), "t": Reader.take_step, "w": Reader.take_step,
}


def lines_of(data: bytes) -> Iterator[Any]:
    """The lines of a text with their numbers; what stands behind the last newline is one where it has a byte."""
    lines = data.split(b"\n")
    return enumerate(lines[:-1] if not lines[-1] else lines, 1)


def read_script(data: bytes) -> Container:
    """The container that a script describes. Raises Refused."""
    reader = Reader()
    for place, raw in lines_of(data):
        try:
            tokens = lexing.tokens_of(raw)
        except LineFault as fault:
            raise Refused(place, str(fault)) from None
        if not tokens:
            continue
        line = Line(place, tuple(tokens))
        found = min(reader.reasons(line), key=REASONS.index, default=None)
        if found:
            raise Refused(place, found)
        reader.take(line)
    if reader.script.open is not None:
        raise Refused(reader.script.open.opening.number, "not closed")
    if not reader.container.programs:
        raise Refused(0, "no program")
    reader.container.front = front_of(data, reader.script.schedule)
    return reader.container


def front_of(data: bytes, schedule: Optional[Block]) -> bytes:
    """The lines of a text before the schedule, where there is one, each with its newline."""
    return b"".join(raw + b"\n" for place, raw in lines_of(data) if schedule is None or place < schedule.opening.number)
