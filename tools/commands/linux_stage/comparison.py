"""Compares one policy and script: the program plays them, and then the machine does what the journal says, in namespaces of its own."""
from __future__ import annotations

import subprocess
import time
import traceback
from dataclasses import dataclass, field
from typing import Any, Callable, Dict, List, NamedTuple, Optional, Tuple

from tools.commands.linux_stage import apart, journal, machine, scenes, script_text
from tools.commands.linux_stage.journal import Event
from tools.commands.linux_stage.machine import Stop
from tools.commands.linux_stage.play import Difference, Play
from tools.commands.linux_stage.stage import Stage
from tools.references.stepping.scripts import Container, read_script

# A process with priority may not have its processor for a whole second: then those without run, which are to stand still.
SECONDS_WITH_PRIORITY = 0.8
LIMIT_SECONDS = 10
MOST_EVENTS = 20_000  # more can't be made in that time


@dataclass
class Bench:
    """What all comparisons have in common."""

    program: str
    stand_in: str
    room: str
    processor: int


@dataclass
class Result:
    refused: str = ""  # the program's line, where it doesn't play the script
    differences: list = field(default_factory=list)
    stopped: str = ""  # why the comparison ended before the journal did, where no difference ended it
    compared: int = 0  # how many events were compared
    journal: list = field(default_factory=list)

    @property
    def names(self) -> List[str]:
        """The known differences that it shows."""
        return sorted({difference.name for difference in self.differences if difference.name})


def played(bench: Bench, policy: bytes, script: bytes) -> Tuple[int, bytes, str]:
    """The status of the program on a policy and a script, its output, and its line."""
    files = [f"{bench.room}/policy.json", f"{bench.room}/script.txt"]
    for name, content in zip(files, (policy, script)):
        with open(name, "wb") as file:
            file.write(content)
    ended = subprocess.run([bench.program, "play", *files], stdin=subprocess.DEVNULL, capture_output=True)
    return ended.returncode, ended.stdout, ended.stderr.decode(errors="replace").strip()


class Way(NamedTuple):
    """A way in which a script is compared."""

    said: str  # behind the script's name
    script: bytes
    as_init: bool


def ways(script: bytes) -> List[Way]:
    """The ways in which a script is compared: as it stands, and with other PIDs where its first task would be PID 1."""
    if not script_text.has_low_pids(script):
        return [Way("", script, False)]
    return [Way("", script, True), Way(f" with {script_text.HIGH_PIDS.decode()}", script_text.with_high_pids(script), False)]


def compare(bench: Bench, policy: bytes, script: bytes, change: Optional[Callable[[List[str]], Any]] = None, as_init: bool = False) -> Result:
    """Compares a script step by step. `change` may change the lines of the journal, to try whether that is found. `as_init` says that its
    first task is PID 1 of a namespace; else its PIDs have to be such as both kernels can give."""
    status, report, line = played(bench, policy, script)
    if status:
        return Result(refused=line.splitlines()[-1] if line else f"status {status}")
    lines = journal.journal(report)
    if len(lines) > MOST_EVENTS:
        return Result(stopped=f"more than {MOST_EVENTS} events", journal=lines)
    steps = scenes.steps(policy, script)
    lines = change(lines) if change else lines
    begun = time.monotonic()
    told = compare_there(bench, read_script(script), list(map(journal.event, lines)), steps, as_init)
    time.sleep(0.005 + (time.monotonic() - begun) / 8)  # the processor is left to others for a while
    differences = [Difference(*difference) for difference in told.pop("differences")]
    return Result(differences=differences, journal=lines, **told)


def compare_there(bench: Bench, container: Container, events: List[Event], steps: List[scenes.Step], as_init: bool) -> Dict[str, Any]:
    """Compares in namespaces of its own."""
    try:
        told = apart.in_namespaces(lambda: compare_here(bench, container, events, steps, as_init), LIMIT_SECONDS)
    except TimeoutError:
        return dict(differences=[], compared=0, stopped="it took too long")
    return told or dict(differences=[], compared=0, stopped="the process that compares ended")


def compare_here(bench: Bench, container: Container, events: List[Event], steps: List[scenes.Step], as_init: bool) -> Dict[str, Any]:
    stage = Stage(container, bench.stand_in, bench.room, bench.processor, as_init)
    play, stopped = Play(stage, events, steps), ""
    try:
        stage.build(journal.workers(events))
        machine.run_first(0, 50)
        play.play(time.monotonic() + SECONDS_WITH_PRIORITY)
    except Stop as reason:
        stopped = str(reason)
    except Exception:
        stopped = traceback.format_exc()
    return dict(differences=play.differences, compared=play.compared, stopped=stopped)
