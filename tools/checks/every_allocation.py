"""Runs the program again and again, each time with one allocation or one call on a file failing, or with one read or write that moves a
single byte.

    tools/checks/every-allocation [--whole N] [--drawn N] [--seed N] [--seconds S] [--jobs N] [--all] [--library] [--program PATH]

The rows are a play of a container's boot, one whose worker is replaced after each step, an exploration, an explanation, answers to requests, 50
generated calls, a run of two tasks, and a pod of two containers. With --all there is also a play of each example, and of each case that has a policy and a script and
prints a whole report. If a row has at most --whole allocations, each of them fails once; if it has more, the first ones fail, and --drawn
of the later ones. A preloaded library (tools/checks/failing-calls) counts the calls and makes one fail. With --library the first two rows are
calls of the C library too, each within one process, and memory that isn't freed is counted.

A run is at fault if it doesn't end in time or a signal ends it, if status 0 comes without the whole report or with a line, if a whole report
comes with another status, or if the line isn't that of what failed: no memory (7) after an allocation, the fault of a file (2) or of the
output (6) after a call on a file. A call that moves a single byte changes nothing. What comes of threads
that can't be created is tried by tools/checks/failing-threads.
"""
from __future__ import annotations

import os
import random
import re
import subprocess
import tempfile
from argparse import Namespace
from collections import Counter
from concurrent.futures import ThreadPoolExecutor
from pathlib import Path
from typing import Any, List, Optional, Tuple, Union

from tools.checks import fuzz
from tools.checks.preloaded import built
from tools.checks.tallies import Answer, TrialParser, answer_of, statuses_told
from tools.commands.command_line.top import TOP

DONE, NO_MEMORY = (0, b""), (7, b"no memory\n")
FILE_FAULTS = [*((2, b"read fault: %s\n" % name) for name in (b"policy", b"script", b"calls", b"claims", b"requests")), (6, b"write fault\n")]
# the variable that asks for a fault, what the faults are called, and the answers that may come of one
KINDS = [
    ("FAIL_ALLOC", "allocations that fail", [DONE, NO_MEMORY]),
    ("FAIL_IO", "calls on files that fail", FILE_FAULTS),
    ("SHORT_IO", "reads and writes that move one byte", [DONE]),
]
# of 50 generated calls, five of each ten kinds: 13.2 events a call, and three more
GENERATED = b"summary events=663 calls=50 notified=50 answered=40 granted=20 denied=10 passed=10 injected=0 faults=0 gone=10 lost=0\n"
TWO_TASKS = b"summary events=33 calls=2 notified=2 answered=2 granted=2 denied=0 passed=0 injected=0 faults=0 gone=0 lost=0\n"
# the front of a line of a pod, where a file is one of a container
CONTAINER = re.compile(rb"^container \d+: ")
TWO_CONTAINERS = b"pod containers=2 events=66 calls=4 notified=4 answered=4 granted=4 denied=0 passed=0 injected=0 faults=0 gone=0 lost=0\n"
TASK = 'prog %s\npoke 0x10000 "/%s\\0"\ncall mknod 0x10000 0o020666 259\nend\n'


class Row:
    """The words, and which output is whole. Threads may print one of many reports: of these the summary is known."""

    def __init__(self, name: str, words: List[str], report: Optional[bytes] = None, summary: Optional[bytes] = None) -> None:
        self.name, self.words, self.report, self.summary = name, words, report, summary

    def is_whole(self, out):
        has_form = fuzz.is_pod if self.words[0] == "pod" else fuzz.is_report
        return out == self.report if self.report is not None else has_form(out) and out.endswith(b"\n" + self.summary)

    def is_part(self, out: bytes) -> bool:
        """Whether an output is what a fault leaves. The end of the requests may be what can't be read, once all have their answers."""
        return (self.words[0] == "step" or not self.is_whole(out)) and (self.report is None or self.report.startswith(out))


def rows(room, asked):
    """The rows. The files of the two tasks are written to the room."""
    boot = f"{TOP}/examples/container-boot"
    Path(f"{room}/policy.json").write_text('{"config":{"security.syscalls.intercept.mknod":"true"}}')
    Path(f"{room}/script.txt").write_text("notify mknod\n" + TASK % ("a", "a") + TASK % ("b", "b") + "prog main\nspawn a\nspawn b\nwait\nwait\nend\n")
    yield Row("a container's boot", ["play", f"{boot}/policy.json", f"{boot}/script.txt"], Path(f"{boot}/report.txt").read_bytes())
    replaced = f"{TOP}/cases/worker-is-replaced-after-each-step"
    yield Row("a worker that is replaced", ["handover", f"{replaced}/policy.json", f"{replaced}/script.txt", "1"], Path(f"{replaced}/stdout").read_bytes())
    explored = f"{TOP}/cases/explore-call-restarted"
    yield Row("an exploration", ["explore", f"{explored}/policy.json", f"{explored}/script.txt", "0", "2"], Path(f"{explored}/stdout").read_bytes())
    explained = f"{TOP}/cases/explain-under-the-profile"
    yield Row("an explanation", ["explain", f"{explained}/policy.json", f"{explained}/calls.txt"], Path(f"{explained}/stdout").read_bytes())
    claimed = f"{TOP}/cases/check-claims-that-hold"
    yield Row("claims", ["check", f"{claimed}/policy.json", f"{claimed}/claims.json"], Path(f"{claimed}/stdout").read_bytes())
    asked_for = f"{TOP}/cases/step-serves-a-call"
    yield Row("requests", ["step", f"{asked_for}/policy.json", f"{asked_for}/script.txt"], Path(f"{asked_for}/stdout").read_bytes())
    judged = f"{TOP}/cases/judge-allows-a-remembered-result"
    yield Row("a judgement", ["judge", f"{judged}/policy.json", f"{judged}/script.txt"], Path(f"{judged}/stdout").read_bytes())
    yield Row("stress 7 50", ["stress", "7", "50"], GENERATED)
    for workers, processors in (("0", "0"), ("2", "1")):
        words = ["run", f"{room}/policy.json", f"{room}/script.txt", workers, processors]
        yield Row(f"two tasks, run with {workers} and {processors}", words, summary=TWO_TASKS)
    Path(f"{room}/other.txt").write_text("pidbase 40000\n" + Path(f"{room}/script.txt").read_text())
    files = [f"{room}/{name}" for name in ("policy.json", "script.txt", "policy.json", "other.txt")]
    yield Row("two containers, served with 1 and 1", ["pod", "1", "1", *files], summary=TWO_CONTAINERS)
    for kind, report in (("examples", "report.txt"), ("cases", "stdout")) if asked.all else ():
        for folder in sorted(Path(f"{TOP}/{kind}").iterdir()):
            files = [folder / name for name in ("policy.json", "script.txt", report)]
            is_play = not (folder / "args").exists() or (folder / "args").read_text().startswith("play\n")
            if is_play and all(file.is_file() for file in files) and not (folder / "status").exists():
                yield Row(f"{kind}/{folder.name}", ["play", *map(str, files[:2])], files[2].read_bytes())


class Runs:
    """Runs of the program with the library before it."""

    def __init__(self, asked: Namespace, room: str) -> None:
        self.asked, self.library, self.counts = asked, built(room), f"{room}/counts"

    def run(self, words: Any, **asks: Union[int, str]) -> Any:
        """The status, the output and the line of a run; the status is None where it didn't end. Requests stand beside the script."""
        requests = f"{os.path.dirname(words[-1])}/stdin" if words[0] == "step" else os.devnull
        with open(requests, "rb") as source:
            return answer_of([self.asked.program, *words], self.asked.seconds, stdin=source, env={"LD_PRELOAD": self.library, **{name: str(value) for name, value in asks.items()}})

    def counted(self, words: List[str]) -> Tuple[Answer, List[int]]:
        """The answer with no fault, and how many calls of each kind there were."""
        answer = self.run(words, COUNTS=self.counts)
        return answer, [int(count) for count in Path(self.counts).read_text().split()]


def fault_of(row, kind, answer):
    """What is wrong with the answer of a run with this kind of fault."""
    status, out, line = answer
    if status is None:
        return "it didn't end in time"
    if (status, CONTAINER.sub(b"", line)) not in kind[2]:
        return f"status {status}, said {line[:200]!r}"
    if status == 0 and not row.is_whole(out) or status != 0 and not row.is_part(out):
        return f"status {status}, with {len(out)} bytes printed"
    return None


def numbers(count: int, asked: Namespace, chance: random.Random) -> List[int]:
    """The numbers of the faults that are tried, where there are so many calls."""
    later = range(asked.whole + 1, count + 1)
    return [*range(1, min(count, asked.whole) + 1), *sorted(chance.sample(later, min(asked.drawn, len(later))))]


def tried(runs, row, kind, count, asked):
    """Tries the faults of one kind, prints what came of them, and gives how many are at fault."""
    chosen = numbers(count, asked, random.Random(f"{asked.seed} {row.name} {kind[0]}"))
    statuses, faults = Counter(), 0
    with ThreadPoolExecutor(asked.jobs) as pool:
        for number, answer in zip(chosen, pool.map(lambda number: runs.run(row.words, **{kind[0]: number}), chosen)):
            statuses[answer.status] += 1
            if (wrong := fault_of(row, kind, answer)) is not None:
                faults += 1
                print(f"every-allocation: {row.name}, {kind[0]}={number}: {wrong}", flush=True)
    which = "each" if len(chosen) == count else f"{len(chosen)} tried"
    print(f"{row.name}: {count} {kind[1]}, {which}: {statuses_told(statuses)}; {faults} at fault", flush=True)
    return faults


def library_faults(room):
    """Tries the allocations of calls of the C library, prints what came of them, and gives how many calls failed."""
    subprocess.run([f"{TOP}/tools/commands/make-c-library"], check=True)
    program, boot, faults = f"{room}/fail-each", f"{TOP}/examples/container-boot", 0
    subprocess.run(["cc", "-std=gnu11", "-O2", "-Wall", "-Wextra", f"-I{TOP}/dist/include", "-o", program, f"{TOP}/tools/checks/c-library/fail-each.c",
                    f"{TOP}/dist/lib/libseccomp_broker.a", *[f"-Wl,--wrap={name}" for name in ("malloc", "realloc", "free")]], check=True)
    for name, words in (("a container's boot", [f"{boot}/policy.json", f"{boot}/script.txt"]), ("stress 7 50", ["stress", "7", "50"])):
        print(f"the C library, {name}: ", end="", flush=True)
        faults += subprocess.run([program, *words]).returncode != 0
    return faults


def main() -> bool:
    parser = TrialParser().add_seed().add_limits(10.0).add_built()
    parser.add_argument("--whole", type=int, default=20_000, help="how many of the first calls of a kind fail, one after another")
    parser.add_argument("--drawn", type=int, default=2_000, help="how many of the later ones fail, drawn at random")
    parser.add_argument("--all", action="store_true", help="play each example and case too")
    parser.add_argument("--library", action="store_true", help="try calls of the C library too")
    asked = parser.with_program()
    faults = 0
    with tempfile.TemporaryDirectory(prefix="every-allocation-") as room:
        runs = Runs(asked, room)
        for row in rows(room, asked):
            answer, counts = runs.counted(row.words)
            if (answer[0], answer[2]) != DONE or not row.is_whole(answer[1]):
                print(f"every-allocation: {row.name}: with no fault, status {answer[0]}, said {answer[2][:200]!r}", flush=True)
                faults += 1
                continue
            faults += sum(tried(runs, row, kind, count, asked) for kind, count in zip(KINDS, counts))
        if asked.library:
            faults += library_faults(room)
    return faults > 0
