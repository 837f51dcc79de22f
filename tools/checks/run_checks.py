"""Runs the repository's own checks side by side, and says how each ended and how long it took.

    tools/checks/run-checks text [NAME ..]       those of text: they read documents and sources, and no program
    tools/checks/run-checks program [NAME ..]    those of the program that the gate proved, or only these of them
    tools/checks/run-checks --list

As many run at once as this process has processors, at most four. Those that measure time run alone, behind the others. Each has a log of its own
in packages/checks/. The logs are printed in the order of the table below, each as soon as all before it are printed.

    --jobs N          how many run at once
    --program PATH    the program that is checked, in place of the proved one

Exit status: 0 if all passed or were left out, else 1. The last lines name what failed, what was left out and why, and what took longest.
"""
from __future__ import annotations

import os
import re
import shutil
import signal
import subprocess
import sys
import threading
import time
from concurrent.futures import FIRST_COMPLETED, Future, wait
from pathlib import Path
from typing import Dict, List, NamedTuple, Optional

from tools.commands.command_line.arguments import ToolParser
from tools.commands.command_line.top import TOP

LOGS = TOP / "packages/checks"
PROVED = "crates/seccomp_broker/out/seccomp_broker"
ARCHIVE = "crates/broker_c/out/libbroker_c.a"
MOST_AT_ONCE, SHOWN_LONGEST = 4, 5
ENDING = (signal.SIGINT, signal.SIGQUIT, signal.SIGTERM, signal.SIGHUP)
# variables that change how a tool or the program behaves
INHERITED = re.compile(r"SECCOMP_BROKER\w*|PYTHON\w+|DIVIDE|NO_COLOR|FORCE_COLOR|CC|CFLAGS|SOURCE_DATE_EPOCH|LC_\w+|LANG|LANGUAGE|XDG_(?!CACHE_HOME)\w+")


class Check(NamedTuple):
    words: str                # the command; {program} stands for the program's path
    needs: tuple = ()         # commands of the machine, or files of the repository, without which it is left out
    after: tuple = ()         # the names of checks that have to end first, since it needs what they make
    is_alone: bool = False    # it measures how long something takes, so no other one runs beside it
    left_out: Optional[int] = None  # the exit status by which it says that the machine lacks what it needs

    @property
    def name(self) -> str:
        return Path(self.words.split()[0]).name


# Of each kind those that take longest come first, since the others then fill the gaps.
CHECKS = {
    "text": (
        Check("tools/checks/check-dead"),
        Check("tools/commands/what-must-be-believed --check"),
        Check("tools/checks/check-python", left_out=3),
        Check("tools/checks/check-links"),
        Check("tools/checks/check-lines"),
        Check("tools/checks/check-crates"),
        Check("tools/upkeep/sizes --check"),
        Check("tools/checks/check-style"),
        Check("tools/upkeep/write-tables --check"),
        Check("tools/commands/on-linux --changes-of-names"),
        Check("tools/upkeep/guard-table --check"),
    ),
    "program": (
        Check("tools/checks/archive", needs=("cc",)),
        Check("tools/checks/check-package", after=("archive",)),
        Check("tools/checks/check-explored-brokers {program}"),
        Check("tools/checks/check-your-broker {program}", needs=("cc",)),
        Check("tools/checks/check-judge {program}"),
        Check("tools/checks/compare-states --program {program} --no-cases --drawn 8 --trees 3 --wide 8 --states 400 --seconds 5"),
        Check("tools/checks/check-policies {program}"),
        Check("tools/checks/check-json {program}"),
        Check("tools/checks/check-messages {program}"),
        Check("tools/checks/check-real-workloads --program {program}"),
        Check("tools/checks/cases {program}"),
        Check("tools/checks/check-commands {program}"),
        Check("tools/checks/check-tests {program}"),
        Check("tools/checks/check-shards {program}"),
        Check("tools/checks/check-explain {program}"),
        Check("tools/checks/check-executables {program}"),
        Check("tools/checks/check-words {program}"),
        Check("tools/checks/fuzz --program {program} --count 200 --seed 1 --seconds 20"),
        Check("tools/checks/check-guard", needs=("cc",)),
        Check("tools/checks/failing-threads --program {program}", needs=("cc",), left_out=3),
        Check("tools/checks/check-c-library", needs=("cc", ARCHIVE), after=("archive",)),
        Check("tools/checks/check-playground --program {program}", is_alone=True),
        Check("tools/checks/check-pages --program {program}", is_alone=True, left_out=3),
    ),
}


class Ended(NamedTuple):
    status: Optional[int]  # a signal that ended it is negative; None where it was left out
    seconds: float
    why: str = ""  # why it was left out


def log_of(check):
    return LOGS / f"{check.name}.log"


def environment() -> Dict[str, str]:
    return {**{name: value for name, value in os.environ.items() if not INHERITED.fullmatch(name)}, "LC_ALL": "C.UTF-8"}


def missing(check: Check) -> Optional[str]:
    """What the machine or the repository lacks for a check, or None."""
    return next((it for it in check.needs if not ((TOP / it).exists() if "/" in it else shutil.which(it))), None)


class Running:
    """The checks that run now, each in a session of its own, so that it ends with all that it started."""

    def __init__(self, program):
        self.program, self.processes, self.lock, self.is_over = program, set(), threading.Lock(), False

    def started(self, check, log):
        with self.lock:
            if self.is_over:
                return None
            process = subprocess.Popen([it.format(program=self.program) for it in check.words.split()], cwd=TOP, env=environment(), umask=0o022,
                                       stdin=subprocess.DEVNULL, stdout=log, stderr=subprocess.STDOUT, start_new_session=True)
            self.processes.add(process)
            return process

    def run(self, check):
        lacks = missing(check)
        with open(log_of(check), "wb") as log:
            begun = time.monotonic()
            process = None if lacks else self.started(check, log)
            if process is None:
                return Ended(None, 0.0, f"{lacks} isn't there" if lacks else "the run was ended")
            status = process.wait()
            with self.lock:
                self.processes.discard(process)
            seconds = time.monotonic() - begun
        return Ended(None, seconds, "the machine lacks something, as it says above") if status == check.left_out else Ended(status, seconds)

    def end(self) -> None:
        with self.lock:
            self.is_over = True
            for process in self.processes:
                try:
                    os.killpg(process.pid, signal.SIGTERM)
                except ProcessLookupError:
                    pass


def in_thread(work):
    """The result of some work that a thread does."""
    future = Future()

    def done() -> None:
        try:
            future.set_result(work())
        except BaseException as fault:
            future.set_exception(fault)

    threading.Thread(target=done, daemon=True).start()
    return future


def may_begin(check: Check, checks: List[Check], ended: Dict[str, Ended], running: Dict[str, str]) -> bool:
    """Whether a check may begin beside those that run: one that runs alone waits until all others have ended."""
    names = {it.name for it in checks}
    if any(name in names and name not in ended for name in check.after):
        return False
    return not check.is_alone or not running and all(it.name in ended for it in checks if not it.is_alone)


def run_all(checks, jobs, running, told):
    """How each check ended, by its name; `told` is called with what there is each time that one has ended."""
    ended, futures = {}, {}
    while len(ended) < len(checks):
        for check in checks:
            is_begun = check.name in ended or check.name in futures.values()
            if not is_begun and len(futures) < jobs and may_begin(check, checks, ended, futures):
                futures[in_thread(lambda check=check: running.run(check))] = check.name
        for future in wait(futures, return_when=FIRST_COMPLETED).done:
            ended[futures.pop(future)] = future.result()
        told(ended)
    return ended


def how(ended: Ended) -> str:
    if ended.status is None:
        return f"left out: {ended.why}"
    return f"{'passed' if ended.status == 0 else f'FAILED with status {ended.status}'} in {ended.seconds:.0f} s"


class Printed:
    """Prints the logs in the table's order."""

    def __init__(self, checks):
        self.left = list(checks)

    def __call__(self, ended):
        while self.left and self.left[0].name in ended:
            check = self.left.pop(0)
            print(f"== {check.name}: {how(ended[check.name])}\n{log_of(check).read_text(encoding='utf-8', errors='replace')}", end="", flush=True)


def tell(kind: str, ended: Dict[str, Ended], seconds: int) -> bool:
    longest = sorted(ended, key=lambda name: -ended[name].seconds)[:SHOWN_LONGEST]
    failed = [name for name, it in ended.items() if it.status not in (0, None)]
    out = [f"{name} ({it.why})" for name, it in ended.items() if it.status is None]
    for name in failed:
        print(f"checks: {name} {how(ended[name])}: see packages/checks/{name}.log")
    print(f"checks of {kind}: {len(ended) - len(failed) - len(out)} passed, {len(failed)} failed, in {seconds:.0f} s{'; left out: ' if out else ''}{', '.join(out)}")
    print(f"checks of {kind} that took longest: {', '.join(f'{name} {ended[name].seconds:.0f} s' for name in longest)}")
    return len(failed) > 0


def asked():
    parser = ToolParser()
    parser.add_argument("--list", action="store_true", help="prints the names, and runs nothing")
    parser.add_argument("--jobs", type=int, help="how many run at once")
    parser.add_argument("--program", type=os.path.abspath, default=TOP / PROVED, help="the program that is checked")
    parser.add_argument("kind", nargs="?", choices=CHECKS)
    parser.add_argument("names", metavar="NAME", nargs="*")
    words = parser.parse_intermixed_args()
    if words.list:
        print("\n".join(f"{kind:<8} {check.name}" for kind, checks in CHECKS.items() for check in checks))
        sys.exit(0)
    if words.kind is None:
        parser.error(f"which checks: {' or '.join(CHECKS)}?")
    unknown = set(words.names) - {check.name for check in CHECKS[words.kind]}
    if unknown:
        parser.error(f"there is no check of {words.kind} named {', '.join(sorted(unknown))}")
    if words.kind == "program" and not os.access(words.program, os.X_OK):
        parser.error(f"{words.program} isn't there; ./broker --prove builds it")
    return words


def main():
    words = asked()
    checks = [check for check in CHECKS[words.kind] if not words.names or check.name in words.names]
    running, begun = Running(str(words.program)), time.monotonic()

    def stop(number, _):
        running.end()
        sys.exit(128 + number)

    # (what is started has these signals at their default then, whatever this process has inherited)
    for number in ENDING:
        signal.signal(number, stop)
    LOGS.mkdir(parents=True, exist_ok=True)
    ended = run_all(checks, words.jobs or min(MOST_AT_ONCE, len(os.sched_getaffinity(0))), running, Printed(checks))
    return tell(words.kind, ended, time.monotonic() - begun)
