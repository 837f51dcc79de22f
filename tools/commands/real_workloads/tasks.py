"""The tasks of a script: their names and programs, and which descriptors of the trace's processes they have."""
from __future__ import annotations

from dataclasses import dataclass, field
from typing import TYPE_CHECKING, Any, Optional, Tuple

from tools.commands.real_workloads.calls import CURRENT_DIRECTORY, Made
from tools.commands.real_workloads.script_text import FIRST_ADDRESS, PAGE
from tools.commands.real_workloads.tree import place

if TYPE_CHECKING:
    from tools.commands.real_workloads.processes import Process
    from tools.commands.real_workloads.strace_text import Call

CONSOLES = (0, 1, 2)
# calls after which paths begin elsewhere than at the script's root
MOVES = {"chdir", "fchdir", "chroot", "pivot_root"}
PAGES_OF_A_TASK = 4
MOST_SHARING = 16


class Descriptors:
    """Of one table: the script's numbers for those of the trace, and where they lead to."""

    def __init__(self):
        self.numbers, self.used = {it: it for it in CONSOLES}, set(CONSOLES)
        self.places, self.close_on_exec = {}, set()

    def copy(self) -> Descriptors:
        other = Descriptors()
        other.numbers, other.used = dict(self.numbers), set(self.used)
        other.places, other.close_on_exec = dict(self.places), set(self.close_on_exec)
        return other

    def lowest(self) -> int:
        return next(it for it in range(len(self.used) + 1) if it not in self.used)

    def opened(self, real: int, where: Tuple[bytes, ...], close_on_exec: bool, in_script: bool) -> None:
        """A call got the number `real`. Where the script makes the call, it gets the lowest number that is free there."""
        self.forget(real)
        self.places[real] = where
        if close_on_exec:
            self.close_on_exec.add(real)
        if in_script:
            self.numbers[real] = self.lowest()
            self.used.add(self.numbers[real])

    def forget(self, real: int) -> None:
        """The process has the number no more, or it stands for something that the script doesn't have."""
        self.numbers.pop(real, None)
        self.places.pop(real, None)
        self.close_on_exec.discard(real)

    def closed(self, real: int) -> None:
        self.used.discard(self.numbers.get(real))
        self.forget(real)

    def executed(self) -> None:
        for real in list(self.close_on_exec):
            self.forget(real)

    def place_of(self, real: int, path: Optional[bytes]) -> Optional[Tuple[bytes, ...]]:
        """Where a number leads to, as names from the root: as the script opened it, or as strace says."""
        if real == CURRENT_DIRECTORY:
            return ()
        if path is not None and not path.startswith(b"/"):
            return None
        found = self.places.get(real)
        return place((), path) if found is None and path is not None else found

    def number(self, real: int) -> int:
        """The script's number, else one that isn't open there."""
        if real in self.numbers:
            return self.numbers[real]
        return real if real not in self.used else max(self.used) + 1000


@dataclass(eq=False)
class Task:
    name: str  # as in the schedule
    program: str
    process: object  # of the trace, or None for a first program that starts the others
    parent: object
    descriptors: Descriptors
    slot: int  # which of those that share a memory it is
    sharing: list  # one number: how many tasks share that memory
    handlers: dict
    lines: list = field(default_factory=list)
    children: int = 0  # how many it has made
    numbers: set = field(default_factory=set)  # of its children, as strace has them and as the calls returned them
    unreaped: list = field(default_factory=list)  # the places of those of its children that have ended
    depth: int = 0
    may_be_ahead: bool = False  # it may have taken a step that a later part of the schedule is meant for
    has_ended: bool = False
    pending: list = field(default_factory=list)  # handled signals that it is to get
    modes: dict = field(default_factory=dict)  # what the trace says that signals do
    has_other_directory: bool = False  # as the trace shows it, its working directory isn't the root
    has_other_root: bool = False

    @property
    def memory(self) -> int:
        """Where its texts are stored."""
        return FIRST_ADDRESS + self.slot * PAGES_OF_A_TASK * PAGE

    def move(self, call: Call) -> None:
        """Notes that its working directory or its root is another one from now on."""
        if call.name in ("chroot", "pivot_root"):
            self.has_other_root = True
        self.has_other_directory = call.name != "chdir" or call.arguments[0] not in ('"/"', '"\\x2f"')

    def begins_elsewhere(self, found: Made) -> bool:
        """Whether the trace shows that the path of a call begins elsewhere than at the script's root."""
        if found.path is None or found.path.startswith(b"/"):
            return self.has_other_root
        real, directory = found.directory or (CURRENT_DIRECTORY, None)
        if real != CURRENT_DIRECTORY:
            return False
        return self.has_other_directory if directory is None else directory != b"/"

    def child(self, program: str, process: Any, is_thread: bool) -> Any:
        """The task that its next `spawn` or `thread` makes."""
        shared = self.descriptors if is_thread else self.descriptors.copy()
        sharing = self.sharing if is_thread else [1]
        slot = self.sharing[0] % MOST_SHARING if is_thread else 0
        self.sharing[0] += is_thread
        self.children += 1
        made = Task(f"{self.name}.{self.children}", program, process, self, shared, slot, sharing, dict(self.handlers), depth=self.depth + 1,
                    modes=dict(self.modes), has_other_directory=self.has_other_directory, has_other_root=self.has_other_root)
        self.numbers |= {process.pid} | ({process.made_by.answer.value} if process.made_by else set())
        return made

    def has_child(self, number: int) -> bool:
        return number in self.numbers

    @staticmethod
    def place_of_child(child: Task) -> int:
        """Which of its parent's children it is, from 1."""
        return int(child.name.rpartition(".")[2])


def first_task(program: str, process: Process) -> Task:
    return Task("0", program, process, None, Descriptors(), 0, [1], {})
