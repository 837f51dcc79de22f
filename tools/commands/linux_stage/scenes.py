"""The facts of a script's steps by which a difference gets its name.

The written kernel in Python (tools/references/stepping) plays the script, and each step is noted with these facts. So they need no Linux, and don't come from the
journal that is compared.
"""
from __future__ import annotations

from dataclasses import dataclass, field, replace
from typing import TYPE_CHECKING, Any, List, Optional, Set, Tuple

from tools.commands.linux_stage.attributes import MOST_OF_A_VALUE
from tools.references.stepping import policies, scripts
from tools.references.stepping.facts import CALL_NAMES, Addfd, Event, Fail, error_text
from tools.references.stepping.kernel import SYSINFO_SIZE, Kernel, Task
from tools.references.stepping.plays import played
from tools.references.stepping.reports import line_of
from tools.references.stepping.rules import Mknod, Mount, SetXattr, base_of, plan
from tools.references.stepping.sessions import Session
from tools.references.stepping.trees import MOST_LINKS, Tree, Walk, parts_of

if TYPE_CHECKING:
    from tools.references.stepping.memory import Group

READ_ONLY = 1  # of the flags of a mount
PATHS = {"mknod": 0, "mknodat": 0, "openat": 0, "mount": 1, "setxattr": 0}  # which text of a call is its path
CREATING = ("mknod", "mknodat")


@dataclass
class Walked:
    """The walk of a path: the node's kind and the error are empty where there is none."""

    slash: bool = False  # the path, or the text of the link at its end, ends with a slash
    onto_mount: bool = False  # a `..` led onto a directory on which something is mounted, or a part of it was made or opened so
    read_only: bool = False  # it ends in a file system that is mounted read-only
    kind: str = ""
    error: str = ""


@dataclass
class Put:
    """A request for a descriptor: its fields, whether a number was free when it was installed, and why it never was."""

    asked: Addfd
    is_full: bool = False
    has_others: bool = False  # others were queued with it then
    is_beyond: bool = False  # the number that it asks for is above the task's limit
    lost_by: str = ""  # `answer` or `signal`


@dataclass
class Step:
    """A step as the journal has to tell it, and what was so before it."""

    line: str = ""
    call: Optional[tuple] = None  # number and arguments
    filters: list = field(default_factory=list)  # those that see it
    request: Any = None  # of an effect
    texts: list = field(default_factory=list)  # of a native call: bytes, or the error
    is_cut: bool = False  # of setxattr: memory ends within the value
    walked: Walked = field(default_factory=Walked)
    put: Any = None  # a Put, or None
    is_full: bool = False  # the task has no free number for a descriptor
    is_other_node: bool = False  # the directory descriptor is open, and no directory
    is_torn: bool = False  # it looks at bytes that only Linux has written
    has_ended: bool = False  # so have all tasks that it is about
    length: int = 0  # of a worker's read
    written: bytes = b""  # by a worker, or by a native sysinfo
    fitting: int = 0  # how many bytes there are mapped where it writes
    pending: frozenset = frozenset()  # signals
    fatal: frozenset = frozenset()  # those of them that end the task
    is_held: bool = False  # the task waits in a killable call that was received
    is_installed: bool = False  # a descriptor has answered the call, which hasn't returned
    is_queued: bool = False  # a request for a descriptor waits for the task
    last_pid: int = 0  # the one that was given last
    whom: int = 0  # the PID to which a signal is sent

    @property
    def number(self) -> int:
        """The number of the call, or -1."""
        return self.call[0] if self.call else -1

    @property
    def arguments(self) -> Tuple[int, ...]:
        return self.call[1] if self.call else ()

    @property
    def attribute(self) -> Optional[bytes]:
        """The name of the attribute that is set; None if it can't be read."""
        if isinstance(self.request, SetXattr):
            return self.request.name
        return None if self.error_of(1) else self.texts[1]

    @property
    def done(self) -> str:
        """The answer of an attribute that was set."""
        return "0" if self.request is None else "ok"

    @property
    def size(self) -> int:
        """The size of the attribute's value."""
        return len(self.request.value) if isinstance(self.request, SetXattr) else self.arguments[3]

    @property
    def caught(self) -> frozenset:
        """The pending signals that have a handler."""
        return self.pending - self.fatal

    def error_of(self, place: int) -> str:
        """The error of a text, or nothing."""
        text = self.texts[place]
        return error_text(text.number) if isinstance(text, Fail) else ""

    @property
    def errors(self) -> Set[str]:
        """All errors of the texts."""
        return {self.error_of(place) for place in range(len(self.texts))} - {""}


def slash_at_the_end(path: bytes) -> bool:
    return path.endswith(b"/") and path.strip(b"/") != b""


class WatchedTree(Tree):
    """A tree that notes how a path is walked.

    `made_below` are the names of nodes that were made behind a `..` onto a directory on which something is mounted: in that directory here, and in the mount on
    Linux. `opened_below` are such directories that were opened.
    """

    def __init__(self, container):
        super().__init__(container)
        self.walked, self.read_only, self.made_below, self.opened_below = Walked(), set(), set(), set()

    def up(self, node: int) -> int:
        found = super().up(node)
        self.walked.onto_mount |= found in self.mounted
        return found

    def walk(self, path: bytes, base: Optional[int], creates: bool) -> Any:
        self.walked.onto_mount |= base in self.opened_below and not path.startswith(b"/")
        return super().walk(path, base, creates)

    def test_component(self, at: int, part: bytes) -> None:
        self.walked.onto_mount |= (at, part) in self.made_below
        super().test_component(at, part)

    def add(self, directory: int, name: bytes, *rest: Any) -> None:
        if self.walked.onto_mount:
            self.made_below |= {(directory, name), (self.top(directory), name)}
        super().add(directory, name, *rest)

    def looked_at(self, path: bytes, base: Optional[int], creates: bool) -> Walked:
        """How a walk goes, which changes nothing."""
        slash = self.ends_with_slash(path, base, creates)
        self.walked = Walked(slash)
        try:
            found = self.walk(path, base, creates)
            node = found[0] if creates else found
            self.walked.read_only = self.file_system(node) in self.read_only
            self.walked.kind = "" if creates else self.nodes[found].kind
        except Walk as error:
            self.walked.error = error_text(error.fail.number)
        return self.walked

    def ends_with_slash(self, path: bytes, base: Optional[int], creates: bool) -> bool:
        for _ in range(MOST_LINKS + 1):
            if slash_at_the_end(path):
                return True
            if creates or not parts_of(path):
                return False
            try:
                place = self.walk(path, base, creates=True)
            except Walk:
                return False
            node = self.nodes[self.entries[place]] if place in self.entries else None
            if node is None or node.kind != "link":
                return False
            path, base = node.target, place[0]
        return False

    def file_system(self, node: int) -> int:
        """The root of the mount in which a node is."""
        while node and self.nodes[node].directory is not None:
            node = self.nodes[node].directory
        return node

    def mount(self, request: Mount, base: Optional[int]) -> Optional[Fail]:
        answer = super().mount(request, base)
        if answer is None and request.flags & READ_ONLY:
            self.read_only.add(len(self.nodes) - 1)
        return answer

    def done(self, request: Any, base: Optional[int]) -> Optional[Fail]:
        path = request.target if isinstance(request, Mount) else request.path
        self.latest = self.looked_at(path, base, isinstance(request, Mknod))
        return super().done(request, base)


class WatchedKernel(Kernel):
    """A kernel that notes each step with its facts."""

    def __init__(self, container):
        self.found, self.facts, self.puts, self.torn, self.installed = [], Step(), {}, {}, set()
        super().__init__(container)
        self.tree = WatchedTree(container)

    def note(self, actor: str, kind: str, *facts: Any) -> Event:
        event = super().note(actor, kind, *facts)
        look = getattr(self, f"note_{kind.replace('-', '_')}", None)
        if look:
            look(actor, *facts)
        self.facts.line = line_of(len(self.events) - 1, event)
        self.found.append(self.facts)
        self.facts = Step()
        return event

    # ---- before a step

    def next_pid(self) -> Optional[int]:
        self.facts.last_pid = self.last_pid
        return super().next_pid()

    def make_task(self, name: Tuple[int, ...], pid: int, parent: Optional[Task], group: Group, *rest: Any) -> Task:
        if parent and group is not parent.group:
            self.torn[group] = list(self.torn.get(parent.group, []))
        return super().make_task(name, pid, parent, group, *rest)

    def native(self, task: Task, number: int, args: Tuple[int, ...]) -> Any:
        step, group, name = self.facts, task.group, CALL_NAMES.get(number)
        step.call, step.filters, parts = (number, args), self.container.filters, plan(number, args)
        step.texts = [group.copy(part) for part in parts]
        step.is_torn = any(self.is_torn(group, part.address, part.limit) for part in parts)
        step.is_full = group.lowest_free(self.container.rlimit) is None
        step.is_cut = name == "setxattr" and 0 < args[3] <= MOST_OF_A_VALUE and not group.is_mapped(args[2], args[3])
        if name == "sysinfo":
            step.written = self.host_sysinfo()
            self.tear(group, args[0])
        if name in PATHS:
            self.look_at_path(task, name, base_of(number, args), step.texts[PATHS[name]])
        return super().native(task, number, args)

    def open_natively(self, group: Group, request: Any, base: Optional[int]) -> Any:
        answer = super().open_natively(group, request, base)
        if self.tree.walked.onto_mount and not isinstance(answer, Fail):
            self.tree.opened_below.add(group.slots[answer][1])
        return answer

    def look_at_path(self, task: Task, name: str, dirfd: Any, path: Any) -> None:
        base = self.directory(task.group, dirfd)
        self.facts.is_other_node = base is None and dirfd in task.group.slots
        if not isinstance(path, Fail):
            self.facts.walked = replace(self.tree.looked_at(path, base, name in CREATING))

    def tear(self, group: Group, address: int) -> None:
        """Linux writes the bytes of sysinfo up to the first that isn't mapped."""
        if not group.is_mapped(address, SYSINFO_SIZE) and group.is_mapped(address):
            self.torn.setdefault(group, []).append((address, address + SYSINFO_SIZE))

    def is_torn(self, group: Group, address: int, length: int) -> bool:
        return any(begin < address + length and address < end for begin, end in self.torn.get(group, []))

    def install(self, task: Task) -> Event:
        call: Any = task.call
        put = self.facts.put = next(put for put in self.puts.values() if put.asked is call.queue[0].asked)
        put.is_full, put.has_others = task.group.lowest_free(self.container.rlimit) is None, len(call.queue) > 1
        event = super().install(task)
        self.installed |= {call} if call.back is not None else set()
        return event

    def put_answer(self, number: int, asked: Addfd) -> Optional[Fail]:
        answer = super().put_answer(number, asked)
        self.facts.put = Put(asked)
        self.facts.is_installed = self.is_installed(asked.id)
        if answer is None:
            self.puts[number] = self.facts.put
        return answer

    def resume(self, task: Task) -> Event:
        self.look_at_signals(task)
        self.lose(task, "answer")
        return super().resume(task)

    def deliver(self, task: Task, signal: int) -> Event:
        self.look_at_signals(task)
        self.lose(task, "signal")
        return super().deliver(task, signal)

    def look_at_signals(self, task: Task) -> None:
        step, call = self.facts, task.call
        step.pending = frozenset(task.pending)
        step.fatal = frozenset(filter(task.is_fatal, task.pending))
        step.is_held = self.container.killable and call is not None and call.is_fetched
        step.is_queued = call is not None and bool(call.queue)

    def lose(self, task: Task, by: str) -> None:
        """Notes that the requests for a task's call are lost by an answer or a signal."""
        limit, queue = self.container.rlimit, task.call.queue if task.call else []
        for put in self.puts.values():
            if any(request.asked is put.asked for request in queue):
                put.is_full, put.is_beyond = task.group.lowest_free(limit) is None, put.asked.newfd >= limit
                put.lost_by = by

    # ---- behind a step that leaves the facts as they were

    def note_skip(self, actor: str) -> None:
        self.facts.has_ended = all(task.has_ended for task in self.tasks.values())

    def note_call(self, actor: str, number: int, args: Tuple[int, ...], verdict: Tuple[Any, ...]) -> None:
        self.facts.call, self.facts.filters = (number, args), self.container.filters

    def note_act(self, actor: str, request: Any, answer: Any) -> None:
        self.facts.request, self.facts.walked = request, replace(self.tree.walked)

    def note_kill(self, actor: str, pid: int, signal: int, answer: Any) -> None:
        self.facts.whom = pid

    def note_read(self, actor: str, address: int, length: int, answer: Any) -> None:
        memory: Any = self.worker(int(actor[1:])).memory
        self.facts.has_ended = memory is not None and self.has_ended(memory)
        self.facts.is_torn, self.facts.length = self.is_torn(memory, address, length), length

    def note_plant(self, actor: str, address: int, content: bytes, answer: Any) -> None:
        memory: Any = self.worker(int(actor[1:])).memory
        self.facts.has_ended, self.facts.written = self.has_ended(memory), content
        self.facts.fitting = sum(memory.is_mapped(address + at) for at in range(len(content)))

    def note_addfd_take(self, actor: str, answer: Any) -> None:
        self.facts.put = self.puts[int(actor[1:])]

    def note_send(self, actor: str, identifier: int, back: Any, answer: Any) -> None:
        self.facts.is_installed = self.is_installed(identifier)

    def is_installed(self, identifier: int) -> bool:
        return self.named(identifier) in self.installed

    def has_ended(self, memory: Group) -> bool:
        return all(task.has_ended for task in self.tasks.values() if task.group is memory)


def steps(policy: bytes, script: bytes) -> List[Step]:
    """The steps of a script that the program plays under a policy."""
    rules, container = policies.read_policy(policy), scripts.read_script(script)
    session = Session(rules, container)
    kernel = session.kernel = WatchedKernel(container)
    played(session, rules, container)
    return kernel.found
