"""A test file: its policies, and the calls and containers that are tried under each."""
import re
from dataclasses import dataclass, field
from typing import Optional

from tools.commands.messages.findings import advice, listed, meant, whole_file
from tools.commands.messages.script_words import begins_as_script
from tools.commands.testing import all_calls, options, words
from tools.commands.testing.calls import call_of, text_of
from tools.commands.testing.conditions import OPERATORS, PREDICATES, condition_of
from tools.commands.testing.expectations import expected_of
from tools.commands.testing.instances import Instances
from tools.commands.testing.lines import ARROW, OTHER_ARROWS, NotUnderstood, line_of, missing
from tools.commands.testing.selections import selection_of

POLICY_LINE = re.compile(r"^[ \t]*policy\b", re.M)
NAME = re.compile(r"[A-Za-z][A-Za-z0-9_.-]{0,63}")
MODES = ("restart", "plain", "default")


@dataclass
class Step:
    """A line of a task: a call with what is expected of it, or another word with its operands."""

    line: object
    word: str
    operands: tuple = ()
    call: Optional[object] = None
    expected: Optional[object] = None


@dataclass
class Task:
    line: object
    name: str
    steps: list = field(default_factory=list)

    def started(self):
        """The steps that start other tasks, in their order."""
        return [it for it in self.steps if it.word in ("spawn", "thread")]


@dataclass(frozen=True)
class Claim:
    line: object
    kind: str
    condition: object


@dataclass
class Exploring:
    """An `explore` line: its bounds, as the program takes them, and the claims below it."""

    line: object
    workers: int
    delays: str
    claims: list = field(default_factory=list)


@dataclass(frozen=True)
class OfTrace:
    """What is expected of calls of a trace: the line, the words that name them, which calls these are, and what is expected."""

    line: object
    text: str
    selection: object
    expected: object


@dataclass
class NamesFile:
    """A line that names a file: the word with its name, and the options behind it by their names."""

    line: object
    file: object
    options: dict

    def word_of(self, option):
        """The word that an option stands in."""
        return next(it for it in self.line.rest[1:] if options.split(it)[0] == option)


@dataclass
class Traced(NamesFile):
    """A `traced` line, which stands in place of a container's tasks, with what is expected of the calls of the trace. Claims on these are read once the trace is
    known: each is a function that does so."""

    expectations: list = field(default_factory=list)
    claims: list = field(default_factory=list)


@dataclass
class Container:
    line: object
    settings: list = field(default_factory=list)
    traced: Optional[Traced] = None
    tasks: list = field(default_factory=list)
    explorings: list = field(default_factory=list)

    def task(self, name):
        return next((it for it in self.tasks if it.name == name), None)

    @property
    def names(self):
        return [it.name for it in self.tasks]


@dataclass(frozen=True)
class Single:
    """A `call` line."""

    line: object
    call: object
    expected: object


@dataclass
class Group:
    """What is tried under one policy, which is the word with the name of its file, and under the filters of one line or none."""

    policy: object
    filters: Optional[NamesFile]
    singles: list = field(default_factory=list)
    of_all_calls: list = field(default_factory=list)
    containers: list = field(default_factory=list)

    @property
    def has_tests(self):
        return bool(self.singles or self.of_all_calls or self.containers)

    @property
    def files(self):
        """The words that name files."""
        traces = [it.traced.file for it in self.containers if it.traced is not None]
        return [self.policy, *([self.filters.file] if self.filters is not None else []), *traces]


@dataclass
class TestFile:
    path: str
    text: object
    groups: list = field(default_factory=list)
    faults: list = field(default_factory=list)


def split_at_arrow(given):
    """The words in front of the arrow and those behind it; None where there is no arrow."""
    at = next((at for at, it in enumerate(given) if it.text == ARROW and not it.is_quoted), None)
    other = next((it for it in given if it.text in OTHER_ARROWS and not it.is_quoted), None)
    if at is None and other is not None:
        raise other.fault(f"{other.text} is in place of the arrow", f"write `{ARROW}`")
    return (given, None) if at is None else (given[:at], given[at + 1:])


def text_between(line, given):
    """The part of a line from the first of some words to the last, as it stands there."""
    base = line.first.start
    return line.text[given[0].start - base:given[-1].end - base] if given else ""


def of_another_kind(text):
    """What is said of a file that is a policy or a script; None of any other."""
    if text.lstrip().startswith("{"):
        return whole_file("", "this is JSON, and no test file", "a test file names a policy by a line, as `policy policy.json`")
    if begins_as_script(text) and not POLICY_LINE.search(text):
        return whole_file("", "this is a script, and no test file", "`play POLICY SCRIPT` plays it; a test file has lines as `call mknod /dev/null c 1:3 -> granted`")
    return None


class Reader:
    """Reads a test file line by line."""

    def __init__(self, path, text):
        self.file = TestFile(path, text)
        self.policy = self.filters = self.group = self.container = self.task = self.exploring = None
        # claims are read at the end of their container, where all its tasks are known
        self.pending = []

    def read(self):
        other = of_another_kind(self.file.text.whole)
        if other is not None:
            self.file.faults.append(other)
            return self.file
        for number, text in enumerate(self.file.text.lines, 1):
            self.trying(lambda: self.take(line_of(number, text)))
        self.leave()
        if not self.file.faults and not any(it.has_tests for it in self.file.groups):
            self.file.faults.append(self.empty())
        self.file.faults.sort(key=lambda it: (it.line, it.start))
        return self.file

    def trying(self, read):
        try:
            return read()
        except NotUnderstood as fault:
            self.file.faults.append(fault.found)
            return None

    def empty(self):
        return whole_file("", "there is no test in the file", "add a line, as `call mknod /dev/null c 1:3 -> granted`")

    def take(self, line):
        if line is None:
            return
        word = "" if line.first.is_quoted else line.first.text
        if word in words.LINES:
            self.leave()
            {words.POLICY: self.policy_line, words.FILTER: self.filter_line, words.CALL: self.call_line, words.CONTAINER: self.container_line}[word](line)
        elif all_calls.is_one(line):
            self.leave()
            self.current(line).of_all_calls.append(all_calls.read(line))
        elif word == words.TASK:
            self.task_line(line)
        elif word == words.TRACED:
            self.traced_line(line)
        elif word == words.EXPLORE:
            self.explore_line(line)
        elif word in words.CLAIMS:
            self.claim_line(line)
        elif self.traced is not None and self.names_calls(line, word):
            self.of_trace(line)
        elif self.task is not None and (word in words.STEPS or word in words.CALL_NAMES):
            self.step(line, word)
        elif self.container is not None and self.is_setting(line, word):
            self.setting(line)
        else:
            raise self.unknown_line(line)

    # ---- lines outside of a container

    @property
    def traced(self):
        """The trace of the container, if it has one."""
        return self.container.traced if self.container is not None else None

    def leave(self):
        """Ends the container."""
        if self.traced is not None:
            self.traced.claims.extend(self.pending)
        else:
            for claim in self.pending:
                self.trying(claim)
        if self.container is not None and not self.file.faults:
            self.trying(lambda: self.check(self.container))
        self.pending, self.container, self.task, self.exploring = [], None, None, None

    @staticmethod
    def check(container):
        """Raises what is wrong with a container as a whole."""
        if container.traced is not None:
            if not container.traced.expectations and not container.traced.claims:
                raise container.line.first.fault("nothing is expected of the container", f"add a line that names calls of the trace, as `mknod {ARROW} granted`, or `explore` and a claim")
            return
        if not container.tasks:
            raise container.line.first.fault("the container has no task", "add `task main`, and its calls below it")
        if not any(step.expected for task in container.tasks for step in task.steps) and not any(it.claims for it in container.explorings):
            raise container.line.first.fault("nothing is expected of the container", f"add `{ARROW}` and the expected result to a call of a task, or `explore` and a claim")
        Instances(container)

    def file_of(self, line, known=None):
        """The name of the file that a line names. Options may stand behind it where some are known."""
        if not line.rest:
            raise missing(line, "the name of a file", f"{line.first.text} {words.EXAMPLES_OF_FILES[line.first.text]}")
        if options.is_option(line.rest[0]) and known and options.split(line.rest[0])[0] in known:
            raise line.rest[0].fault("an option comes before the file's name", f"write `{line.first.text} {words.EXAMPLES_OF_FILES[line.first.text]} {line.rest[0].text}`")
        other = next((it for it in line.rest[1:] if not (known and options.is_option(it))), None)
        if other is not None:
            raise other.fault(f"one file follows `{line.first.text}`", "put its name in quotes if it has a blank")
        text_of(line.rest[0])
        return line.rest[0]

    def policy_line(self, line):
        # (the lines below are read, whatever the file's name)
        self.policy, self.filters, self.group = line.first, None, None
        self.policy = self.file_of(line)

    def filter_line(self, line):
        # (the lines below are read, whatever the options)
        self.filters, self.group = NamesFile(line, self.file_of(line, options.OF_PROFILES), {}), None
        self.check_policy(line)
        self.filters.options.update(options.read(line, line.rest[1:], options.OF_PROFILES))

    def check_policy(self, line):
        if self.policy is None:
            # (it is told once)
            self.policy = line.first
            raise line.first.fault("no policy is above", "begin with a line that names the file of one, as `policy policy.json`")

    def current(self, line):
        """The group of what is tried here."""
        self.check_policy(line)
        if self.group is None:
            self.group = Group(self.policy, self.filters)
            self.file.groups.append(self.group)
        return self.group

    def call_line(self, line):
        made, behind = split_at_arrow(line.rest)
        call = call_of(line, made, text_between(line, made))
        if behind is None:
            raise missing(line, "the expected result", f"{line.text} {ARROW} granted")
        expected = expected_of(line, behind, text_between(line, behind))
        self.current(line).singles.append(Single(line, call, expected))

    def container_line(self, line):
        self.container = Container(line)
        if line.rest:
            raise line.rest[0].fault("nothing follows `container`", "its settings and its tasks are on the lines below")
        self.current(line).containers.append(self.container)

    # ---- lines of a container

    def within(self, line):
        if self.container is None:
            # (the lines below are read as those of one)
            self.container = Container(line)
            raise line.first.fault(f"`{line.first.text}` is outside of a container", "begin one by a line `container`; the lines `policy`, `filter` and `call` end it")
        return self.container

    def is_setting(self, line, word):
        return self.task is None and self.traced is None and word in words.SETTINGS_OF_CONTAINERS

    def setting(self, line):
        self.container.settings.append(line)

    def traced_line(self, line):
        if self.traced is not None:
            raise line.first.fault("the container has a second trace", "begin another one by `container`")
        try:
            container = self.within(line)
            if container.tasks:
                raise line.first.fault("a trace follows a task", "it replaces a container's tasks: begin another one by `container`")
        finally:
            # (the lines below are read as those on its calls, wherever it stands and whatever its file)
            self.container.traced, self.task = Traced(line, line.first, {}), None
        container.traced.file = self.file_of(line, options.OF_TRACES)
        container.traced.options.update(options.read(line, line.rest[1:], options.OF_TRACES))

    @staticmethod
    def names_calls(line, word):
        """Whether a line says something of calls of the trace."""
        return word in (*words.CALL_NAMES, words.LINE_OF_TRACE, words.EVERY) or words.PROCESS_OF_TRACE.fullmatch(word) is not None

    def of_trace(self, line):
        if self.exploring is not None:
            raise line.first.fault(f"`{line.first.text}` is below `explore`", f"below it are {listed(words.CLAIMS)}; put expectations of calls before it")
        named, behind = split_at_arrow(line.words)
        selection = selection_of(line, named)
        if behind is None:
            raise missing(line, "the expected result", f"{line.text} {ARROW} granted")
        self.traced.expectations.append(OfTrace(line, text_between(line, named), selection, expected_of(line, behind, text_between(line, behind), of_trace=True)))

    def task_line(self, line):
        if self.traced is not None:
            raise line.first.fault("a task follows `traced`, which replaces all tasks", "begin another container for it by `container`")
        # (the lines below are read as its steps, whatever its name)
        self.task = Task(line, "")
        container = self.within(line)
        if not line.rest:
            raise missing(line, "the name of the task", "task main")
        word = line.rest[0]
        self.task.name = word.text
        if len(line.rest) > 1:
            raise line.rest[1].fault("one name follows `task`", "a name has no blanks: write `-` in their place")
        if not NAME.fullmatch(word.text) or word.is_quoted:
            raise word.fault(f"{word.text} is no name of a task", "a name begins with a letter and has letters, digits, `-`, `_` and `.`")
        if word.text in (*words.CALL_NAMES, *PREDICATES, *OPERATORS, "self", "parent", "pid"):
            raise word.fault(f"a task can't be called {word.text}, which has a meaning of its own", f"take another name, as `{word.text}-task`")
        if container.task(word.text):
            raise word.fault(f"there is a task {word.text} above, at line {container.task(word.text).line.number}", "take another name")
        if container.explorings:
            raise line.first.fault("a task follows `explore`", "put all tasks of a container before its first `explore`")
        container.tasks.append(self.task)

    def step(self, line, word):
        if self.exploring is not None:
            raise line.first.fault(f"`{word}` is below `explore`", f"below it are {listed(words.CLAIMS)}; put the steps of tasks before it")
        if word in words.CALL_NAMES:
            made, behind = split_at_arrow(line.words)
            call = call_of(line, made, text_between(line, made))
            expected = None if behind is None else expected_of(line, behind, text_between(line, behind))
            self.task.steps.append(Step(line, word, call=call, expected=expected))
        else:
            self.task.steps.append(Step(line, word, self.operands_of(line, word)))
        if any(it.word == "exit" for it in self.task.steps[:-1]):
            raise line.first.fault("a step follows `exit`, which ends the task", "remove it, or put `exit` after it")

    def operands_of(self, line, word):
        """The words behind one that isn't a call's."""
        wanted, example = words.STEPS[word]
        given = line.rest
        if len(given) < len(wanted):
            raise missing(line, f"{wanted[len(given)]} of `{word}`", example)
        if len(given) > len(wanted):
            raise given[len(wanted)].fault(f"`{word}` takes no {given[len(wanted)].text} here", f"it is written `{' '.join((word, *wanted))}`")
        for what, it in zip(wanted, given):
            if what == "SIGNAL" and it.text not in words.SIGNALS:
                known = "the signals are `9` or `KILL`, `10` or `USR1`, `12` or `USR2`, `15` or `TERM`"
                raise it.fault(f"{it.text} is no signal that a test sends", advice(meant(it.text, words.SIGNALS), known))
            if what == "PATH":
                text_of(it)
            if what == "MODE" and it.text not in MODES:
                raise it.fault(f"{it.text} is no mode of a handler", advice(meant(it.text, MODES), f"the modes are {listed(MODES)}"))
        if word == "handler" and words.SIGNALS[given[0].text] == 9:
            raise given[0].fault("no handler is run for SIGKILL", "it is for `USR1`, `USR2` and `TERM`")
        return given

    # ---- explorations

    def explore_line(self, line):
        container = self.within(line)
        if not container.tasks and container.traced is None:
            raise line.first.fault("`explore` comes before the container's tasks", "put it after them")
        # (the lines below are read as its claims, whatever its bounds)
        self.exploring = Exploring(line, 0, "0")
        found = {name: self.bound(name, usual) for name, (usual, _, _) in words.BOUNDS.items()}
        for word in line.rest:
            name, equals, value = word.text.partition("=")
            if name not in found or not equals or word.is_quoted:
                raise word.fault(f"{word.text} is no bound of an exploration", advice(meant(name, found), "it is `explore`, and after it `workers=N`, `delays=N` or both"))
            found[name] = self.bound(name, value, word)
        self.exploring.workers, self.exploring.delays = int(found["workers"]) - 1, found["delays"]
        container.explorings.append(self.exploring)

    @staticmethod
    def bound(name, value, word=None):
        _, least, most = words.BOUNDS[name]
        if name == "delays" and value == words.ALL:
            return value
        if not re.fullmatch(r"\d{1,9}", value, re.ASCII) or not least <= int(value) <= most:
            raise word.fault(f"{name} can't be {value or 'empty'}", f"it is {least} to {most}" + (", or `all` for no bound" if name == "delays" else ""))
        return value

    def claim_line(self, line):
        if self.exploring is None:
            raise line.first.fault(f"`{line.first.text}` is in no exploration", "put a line `explore` before it, after the tasks of a container")
        exploring, tasks = self.exploring, self.container.tasks
        if len(line.words) == 1:
            raise missing(line, "a condition", f"{line.first.text} mount done and reply=lost")
        self.pending.append(lambda: exploring.claims.append(Claim(line, line.first.text, condition_of(line, line.rest, tasks))))

    # ---- what is no line

    def unknown_line(self, line):
        word = line.first
        if word.is_quoted:
            is_known = word.text in (*words.LINES, *words.CALL_NAMES)
            return word.fault("a line begins with a text in quotes", f"write `{word.text}` without them" if is_known else "a line begins with a bare word, as `call`")
        if self.exploring is not None:
            known, what = (*words.CLAIMS, words.EXPLORE, *words.LINES), "line after `explore`"
        elif self.task is not None:
            known, what = (*words.CALL_NAMES, *words.STEPS, words.TASK, words.EXPLORE, *words.LINES), "line of a task"
            if word.text in words.SETTINGS_OF_CONTAINERS:
                return word.fault(f"`{word.text}` is a setting, and follows a task", "put it before the container's first task")
        elif self.traced is not None:
            known, what = (*words.CALL_NAMES, words.LINE_OF_TRACE, words.EVERY, words.EXPLORE, *words.LINES), "line after `traced`"
            if word.text in words.SETTINGS_OF_CONTAINERS:
                return word.fault(f"`{word.text}` is a setting, and follows `traced`", "put it before that line")
            if word.text in words.STEPS:
                return word.fault(f"`{word.text}` is a step of a task, and a traced container takes those of the trace", "name calls of the trace, as `mknod /dev/null -> granted`")
        elif self.container is not None:
            known, what = (*words.SETTINGS_OF_CONTAINERS, words.TASK, words.TRACED, *words.LINES), "line of a container"
            if word.text in (*words.CALL_NAMES, *words.STEPS):
                return word.fault(f"`{word.text}` is in no task", "begin one by `task main`")
        else:
            known, what = (*words.LINES, *all_calls.SENSES), "line of a test file"
            if word.text in words.CALL_NAMES:
                return word.fault(f"`{word.text}` is in no task", f"write `call {word.text} ..` for a call by itself")
            if word.text in all_calls.SENSES:
                return word.fault(f"a line `{word.text}` about calls has a colon", f"as in `{all_calls.EXAMPLE}`")
        other = words.OTHER_LINES.get(word.text) or words.OTHER_CALLS.get(word.text)
        hint = f"did you mean `{other}`? " if other in known else meant(word.text, known)
        return word.fault(f"{word.text} begins no {what}", advice(hint, f"it begins with {listed(known, 'or')}"))


def read(path, text):
    """The test file of this text. What can't be understood stands in its `faults`."""
    return Reader(path, text).read()
