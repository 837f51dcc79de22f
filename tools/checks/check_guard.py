"""Tries whether a broker under `explore-broker --shim` leaves the machine as it is, and is answered rightly.

    tools/checks/check-guard [--jobs N] [NAME ..]

- Programs that no library can be preloaded into have to be refused before the first run, with what to do.
- Acts that must never reach the machine (tests/guard/acts.h) run against a victim of their own: none may change anything, and each has to be told. They run in namespaces of their own, of mounts and
  PIDs; where the machine gives none, it says which acts that leaves out.
- Agents that take more than a run may (tests/guard/takes.c) have to be told so.
- Explorations that are ended by signals at random times may leave nothing behind.
- Calls that real brokers make (tests/guard/calls.h) have to be answered as tests/guard/calls.txt says, or told by name.

NAMEs are acts and calls that are tried alone. It needs cc; without it, that is said, and nothing is tried.

Exit status: 0 where all passed, else 1. The last line is `guard: N passed, N failed`.
"""
from __future__ import annotations

import multiprocessing
import os
import shutil
import subprocess
import tempfile
from argparse import Namespace
from pathlib import Path
from typing import Any, List, Tuple

from tools.checks.guarding import acts, calls, ends, takes
from tools.checks.guarding.trials import CPLUSPLUS, make_programs
from tools.checks.tallies import Tally
from tools.commands.command_line.arguments import ToolParser
from tools.commands.command_line.top import TOP

BROKERS = TOP / "tests/brokers"

REFUSED = 12
# commands that are refused, each with its cure; the folder of the programs is on the PATH
REFUSALS = {
    "static": "link it without -static", "static-pie": "link it without -static", "set-user-id": "try a copy without them", "script": "link it without -static",
    "script-of-env": "link it without -static", "env -u X A=b static": "link it without -static", "env -S 'A=b static x'": "link it without -static",
}
TAKEN = ("dynamic", "env dynamic")
NAMESPACES = ["unshare", "--mount", "--pid", "--fork", "--mount-proc", "--propagation", "private"]


# ---- refusals


def explored(programs, command):
    """How an exploration of a command ends; the library isn't there, so one that begins doesn't come far."""
    words = [TOP / "tools/commands/explore-broker", BROKERS / "policy.json", BROKERS / "scripts/reused.txt", "0", "--no-program", "--jobs", "1", "--shim", programs / "none.so", "--"]
    environment = {**os.environ, "PATH": f"{programs}:{os.environ['PATH']}"}
    return subprocess.run(["sh", "-c", f'exec "$@" {command}', "sh", *words], env=environment, stdin=subprocess.DEVNULL, capture_output=True, text=True, check=False)


def refusal_trial(programs, command):
    ended = explored(programs, command)
    if command in TAKEN:
        return None if ended.stdout.startswith("explored broker ") else f"status {ended.returncode}, and it says {ended.stderr}"
    right = ended.returncode == REFUSED and ended.stdout == "" and ended.stderr.startswith("explore-broker: --shim: ") and REFUSALS[command] in ended.stderr
    return None if right else f"status {ended.returncode}, and it says {ended.stdout or ended.stderr}"


# ---- acts and calls


def namespaces() -> Any:
    """The words that start a command in namespaces of its own, or None where the machine gives none."""
    for words in (NAMESPACES, [*NAMESPACES, "--user", "--map-root-user"]):
        if shutil.which(words[0]) and subprocess.run([*words, "mount", "-t", "tmpfs", "none", "/tmp"], stdin=subprocess.DEVNULL, capture_output=True, check=False).returncode == 0:
            return words
    return None


def act_trial(programs: Path, room: Path, name: str, has_namespaces: bool) -> Tuple[str, Any]:
    return f"the act {name}", acts.wrong_with(name, programs, room / f"act-{name}", has_namespaces)


def call_trial(programs: Path, room: Path, name: str) -> Tuple[str, Any]:
    return f"the call {name}", calls.wrong_with(name, programs, room / f"call-{name}")


def take_trial(programs: Path, room: Path, name: str) -> Tuple[str, Any]:
    return f"what takes too much of {name}", takes.wrong_with(name, programs, room / f"take-{name}")


def end_trial(programs: Path, room: Path, number: int) -> Tuple[str, Any]:
    return f"the end {number}", ends.wrong_with(number, programs, room / f"end-{number}")


def run_trial(trial: Tuple[Any, ...]) -> Tuple[str, Any]:
    function, *arguments = trial
    return function(*arguments)


def run_all(count: Tally, trials: List[Tuple[Any, ...]], jobs: int) -> None:
    with multiprocessing.get_context("fork").Pool(jobs) as pool:
        for name, wrong in pool.imap_unordered(run_trial, trials, 1):
            count.note(name, wrong)


def try_acts(count: Tally, programs: Path, names: List[str], jobs: int, has_namespaces: bool) -> None:
    with tempfile.TemporaryDirectory(prefix="check-guard-acts-") as room:
        run_all(count, [(act_trial, programs, Path(room), name, has_namespaces) for name in names], jobs)


def try_acts_inside(count: Tally, programs: Path, names: List[str], jobs: int) -> None:
    """Runs the acts in namespaces of their own, by this program, and counts what they come to."""
    words = namespaces()
    if words is None:
        left = acts.left_out(False)
        print(f"guard: this machine gives no namespaces, so these acts aren't tried: {', '.join(left)}")
        if os.geteuid() != 0:
            try_acts(count, programs, [name for name in names if name not in left], jobs, False)
        else:
            print("guard: nor are the others, which could harm it, since this is root")
        return
    ended = subprocess.run([*words, TOP / "tools/checks/check-guard", "--inside", programs, "--jobs", str(jobs), *names], stdin=subprocess.DEVNULL, stdout=subprocess.PIPE, text=True, check=False)
    *lines, last = ended.stdout.split("\n")[:-1] or [""]
    print("".join(f"{line}\n" for line in lines), end="")
    passed, failed = (int(word) for word in last.split()[1::2]) if last.startswith("inside: ") else (0, 1)
    count.passed += passed
    count.failed += failed


def inside(programs: Path, names: List[str], jobs: int) -> None:
    """In the namespaces, of which nothing is left."""
    count = Tally("guard")
    try_acts(count, programs, names, jobs, True)
    print(f"inside: {count.passed} passed, {count.failed} failed")


def asked() -> Namespace:
    parser = ToolParser()
    parser.add_argument("--jobs", metavar="N", type=int, default=os.cpu_count(), help="so many trials at once; without it as many as there are processors")
    parser.add_argument("--inside", metavar="PROGRAMS", type=Path, help="for this tool alone: it runs the acts, in namespaces that it was started in")
    parser.add_argument("names", metavar="NAME", nargs="*", help="an act or a call that is tried; without it, all are")
    return parser.parse_args()


def main() -> int:
    words = asked()
    if not shutil.which("cc"):
        print("guard: cc isn't on the PATH, so nothing is tried")
        return 0
    if words.inside is not None:
        inside(words.inside, words.names, words.jobs)
        return 0
    if not shutil.which(CPLUSPLUS):
        print(f"guard: {CPLUSPLUS} isn't on the PATH, so the calls of streams in C++ aren't tried")
    count = Tally("guard")
    # (a number that a trial expects depends on what it inherits)
    for name in os.listdir("/proc/self/fd"):
        if int(name) > 2 and os.path.exists(f"/proc/self/fd/{name}"):
            os.set_inheritable(int(name), False)
    with tempfile.TemporaryDirectory(prefix="check-guard-") as room:
        programs = Path(room)
        make_programs(programs)
        for command in (*REFUSALS, *TAKEN) if not words.names else ():
            count.note(f"`{command}`", refusal_trial(programs, command))
        run_all(count, [(call_trial, programs, programs, name) for name in calls.names() if not words.names or name in words.names], words.jobs)
        if not words.names:
            run_all(count, [*((take_trial, programs, programs, name) for name in takes.TAKES), *((end_trial, programs, programs, number) for number in ends.numbers())], words.jobs)
        try_acts_inside(count, programs, [name for name in acts.names() if not words.names or name in words.names], words.jobs)
    return count.ended()
