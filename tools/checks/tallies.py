"""How a check counts what it tries, and how it ends."""
import os
import subprocess
from collections import Counter
from typing import Any, Iterable, NamedTuple, Optional, Sequence, Tuple, Union

from tools.commands.command_line.arguments import ToolParser
from tools.commands.command_line.checkout import PROVED

# what is wrong with a trial: nothing, a text, or several of them
Wrong = Union[None, str, Iterable[str]]


class Ended(NamedTuple):
    """How a command ended, and what it printed and said."""

    status: int
    out: str
    err: str

    def __str__(self) -> str:
        return f"status {self.status}, and it says {self.out or self.err}"

    def unless(self, is_right: bool) -> Optional[str]:
        """What is wrong with it: all of it, unless it is right."""
        return None if is_right else str(self)


def ended_of(words: Sequence[Union[str, "os.PathLike[str]"]], **how: Any) -> Ended:
    """Runs a command without an input."""
    ended = subprocess.run(words, stdin=subprocess.DEVNULL, capture_output=True, text=True, **how)
    return Ended(ended.returncode, ended.stdout, ended.stderr)


class Answer(NamedTuple):
    """How the program ended, with the bytes that it printed and said. Without a status it didn't end in time."""

    status: Optional[int]
    out: bytes
    err: bytes

    @property
    def trouble(self) -> Optional[str]:
        """What is wrong with its end; None where its status is 0."""
        return None if self.status == 0 else "it didn't end in time" if self.status is None else f"status {self.status}, said {self.err[:200]!r}"


def answer_of(words: Sequence[Union[str, "os.PathLike[str]"]], seconds: float, **how: Any) -> Answer:
    """Runs the program within so many seconds, without an input where none is given."""
    how.setdefault("stdin", subprocess.DEVNULL)
    try:
        ended = subprocess.run(words, capture_output=True, timeout=seconds, **how)
    except subprocess.TimeoutExpired:
        return Answer(None, b"", b"")
    return Answer(ended.returncode, ended.stdout, ended.stderr)


def statuses_told(statuses: "Counter[Optional[int]]") -> str:
    """How many runs ended with which status, in words."""
    return ", ".join(f"{times} with {'no end' if status is None else f'status {status}'}" for status, times in sorted(statuses.items(), key=str)) or "none"


class Tally:
    """What a check of this name has tried. What is wrong is printed at once."""

    def __init__(self, name: str):
        self.name, self.passed, self.failed = name, 0, 0

    def say(self, text: str) -> None:
        print(f"{self.name}: {text}", flush=True)

    def note(self, what: str, wrong: Wrong) -> None:
        """Counts a trial. A text that begins with a newline stands below its name."""
        texts = [] if wrong is None else [wrong] if isinstance(wrong, str) else list(wrong)
        texts = [it for it in texts if it]
        self.passed, self.failed = self.passed + (not texts), self.failed + bool(texts)
        for text in texts:
            self.say(f"{what}:{'' if text.startswith(chr(10)) else ' '}{text}")

    def note_all(self, tried: Iterable[Tuple[str, Wrong]]) -> "Tally":
        for what, wrong in tried:
            self.note(what, wrong)
        return self

    def ended(self) -> bool:
        """Prints the last line, and answers whether a trial failed."""
        self.say(f"{self.passed} passed, {self.failed} failed")
        return self.failed > 0


class TrialParser(ToolParser):
    """The parser of a check that draws what it tries, or runs the program that was built."""

    def add_draws(self, count: int, name: str = "count") -> "TrialParser":
        """How many are drawn, and with which numbers."""
        self.add_argument(f"--{name}", type=int, default=count, help="how many are drawn (%(default)s)")
        self.add_argument("--first", type=int, default=0, help="the number of the first one (%(default)s)")
        return self.add_seed()

    def add_seed(self) -> "TrialParser":
        self.add_argument("--seed", type=int, default=1, help="seed for drawing them (%(default)s)")
        return self

    def add_limits(self, seconds: float, jobs: Optional[int] = 1) -> "TrialParser":
        """How long a run may take, and how many run at once."""
        self.add_argument("--seconds", type=float, default=seconds, help="how long a run may take (%(default)s)")
        self.add_argument("--jobs", type=int, default=jobs or os.cpu_count() or 1, help="how many run at once (%(default)s)")
        return self

    def add_built(self) -> "TrialParser":
        """The program that was proved, or another one."""
        self.add_argument("--program", default=PROVED, help="the program that is tried, in place of the proved one")
        return self
