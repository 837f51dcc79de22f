"""Serves with threads again and again while threads can't be created: tools/checks/failing-threads [--seconds S] [--jobs N] [--program PATH]

Two tasks' descriptors and calls of each lane are served by `run`, `lanes` and `pod`, and by `pod` with lanes, with 0 to 16 workers and processors. Each creation of a thread
fails once, and then each with all later ones. A preloaded library (tools/checks/failing-calls) counts the creations and makes them fail. Then
the same is served within an address space (`ulimit -v`) that has room for some threads or none, and with a limit of processes (`ulimit -u`).
That one doesn't bind root, so the runs are those of a user who has no other process; where only root's rights could make one, it isn't tried.

A run is at fault if it doesn't end in time, if its status isn't 0, if `audit-check` doesn't accept its report as that of a finished history, or if
the counts of its summary aren't those of the run without threads. Where the address space is limited, no memory (7) is right too.

Exit status: 0 where no run is at fault, 1 where one is, 3 where there is no cc to build the library with.
"""
from __future__ import annotations

import os
import resource
import shutil
import sys
import tempfile
import time
from argparse import Namespace
from collections import Counter
from concurrent.futures import ThreadPoolExecutor
from pathlib import Path
from typing import Any, Callable, Dict, List, Tuple, Union

from tools.checks.preloaded import built
from tools.checks.tallies import TrialParser, answer_of, statuses_told
from tools.checks.threaded_runs import counts, refusal
from tools.commands.pods import last_line, parts

POLICY = """{"config":{"image.os":"ubuntu","security.syscalls.intercept.mknod":"true","security.syscalls.intercept.mount":"true",
"security.syscalls.intercept.mount.allowed":"ext4","security.syscalls.intercept.setxattr":"true","security.syscalls.intercept.sysinfo":"true"},
"rules":[{"name":"feed","call":"openat","when":{"path":"/data"},"then":{"inject":5}}]}
"""
# one task for each lane, and two that are given a descriptor
SCRIPT = r"""%sbroker 5
dir "/dev"
dir "/mnt"
dir "/d"
notify mknod mount setxattr sysinfo openat getpid
prog node
poke 0x10000 "/dev/null\0"
call mknod 0x10000 0o020666 259
end
prog mount
poke 0x10000 "/dev/sda1\0"
poke 0x10100 "/mnt\0"
poke 0x10200 "ext4\0"
call mount 0x10000 0x10100 0x10200 0 0
end
prog attribute
poke 0x10000 "/d\0"
poke 0x10100 "trusted.overlay.opaque\0"
poke 0x10200 "y"
call setxattr 0x10000 0x10100 0x10200 1 0
end
prog memory
call sysinfo 0x10000
end
prog descriptor
poke 0x10000 "/data\0"
call openat -100 0x10000 0
end
prog main
spawn node
spawn mount
spawn attribute
spawn memory
spawn descriptor
spawn descriptor
call getpid
wait
wait
wait
wait
wait
wait
end
"""
# workers and processors, and what stands for both with lanes, of which each container has seven threads
PAIRS = {
    "run": [(0, 0), (1, 0), (0, 1), (3, 0), (0, 3), (2, 1), (4, 4), (16, 0), (0, 16), (16, 16)],
    "lanes": [(7, cpus) for cpus in (0, 1, 2, 4, 16)],
    "pod": [(0, 0), (1, 0), (0, 1), (4, 0), (0, 4), (2, 2), (16, 16)],
    "pod lanes": [(14, cpus) for cpus in (0, 1, 4)],
}
LIMITED = [("run", 1, 0), ("run", 16, 0), ("run", 4, 4), ("lanes", 7, 4), ("pod", 4, 4)]
MEBIBYTES = [*range(3, 33), 48, 64, 80, 96, 112, 128, 160, 192, 224, 256]
PROCESSES = [1, 2, 3, 5, 9, 17]
# no user of a system has these numbers
USERS = 1_900_000_000
NO_MEMORY = (7, b"no memory\n")


class Files:
    """What is served, and the program, in a folder that every user may read."""

    def __init__(self, asked: Namespace, room: str) -> None:
        self.room, self.seconds = room, asked.seconds
        os.chmod(room, 0o755)
        self.program, self.policy, self.scripts = f"{room}/program", f"{room}/policy.json", [f"{room}/{name}.txt" for name in ("script", "other")]
        shutil.copy(asked.program, self.program)
        os.chmod(self.program, 0o755)
        Path(self.policy).write_text(POLICY)
        for path, base in zip(self.scripts, ("", "pidbase 40000\n")):
            Path(path).write_text(SCRIPT % base)

    def run(self, words: Any, **limits: Union[Callable[..., Any], Dict[str, str]]) -> Any:
        return answer_of([self.program, *words], self.seconds, **limits)

    def words(self, form: str, workers: int, cpus: int) -> List[str]:
        pair = [self.policy, self.scripts[0]]
        if form in ("pod", "pod lanes"):
            return ["pod", str(workers) if form == "pod" else "lanes", str(cpus), *pair, self.policy, self.scripts[1]]
        return [form, *pair, str(cpus)] if form == "lanes" else [form, *pair, str(workers), str(cpus)]

    def refusal(self, script, report, wanted):
        """Why a report isn't that of a finished history with these counts, if it isn't."""
        wrong = refusal(self.program, self.seconds, [self.policy, script], report, self.room)
        if wrong is not None:
            return wrong
        return None if counts(report) == wanted else f"{counts(report)!r} where {wanted!r} is right"

    def fault(self, form, answer, wanted):
        """What is wrong with a run, if anything is."""
        if answer.trouble:
            return answer.trouble
        if form not in ("pod", "pod lanes"):
            return self.refusal(self.scripts[0], answer.out, wanted)
        try:
            reports, last = parts(answer.out)
        except ValueError as wrong:
            return str(wrong)
        if len(reports) != 2 or last != last_line(reports):
            return f"{len(reports)} reports, and {last!r}"
        return next(filter(None, (self.refusal(script, report, wanted) for script, report in zip(self.scripts, reports))), None)


class Tally:
    """How many runs of one kind ended with which status, and how many are at fault."""

    def __init__(self, title):
        self.title, self.statuses, self.faults = title, Counter(), 0

    def note(self, what: str, status: int, wrong: Any) -> None:
        self.statuses[status] += 1
        if wrong is not None:
            self.faults += 1
            print(f"failing-threads: {what}: {wrong}", flush=True)

    def tell(self) -> int:
        print(f"{self.title}: {statuses_told(self.statuses)}; {self.faults} at fault", flush=True)
        return self.faults


def tried(asked: Namespace, tally: Tally, runs: List[Tuple[str, Callable[..., Any]]]) -> int:
    """Makes the runs, several at once. Each is what it is called, and a function that gives its status and what is wrong with it."""
    with ThreadPoolExecutor(asked.jobs) as pool:
        for (what, _), (status, wrong) in zip(runs, pool.map(lambda run: run[1](), runs)):
            tally.note(what, status, wrong)
    return tally.tell()


def refused_threads(asked: Namespace, files: Files, wanted: bytes, library: str, form: str) -> int:
    """Has each creation of a thread fail in turn, and all from each on, and gives how many runs are at fault."""
    def run(words: Any, variable: str, number: int) -> Any:
        answer = files.run(words, env={"LD_PRELOAD": library, variable: str(number)})
        return answer.status, files.fault(form, answer, wanted)

    runs, faults, threads = [], 0, 0
    for workers, cpus in PAIRS[form]:
        words = files.words(form, workers, cpus)
        answer = files.run(words, env={"LD_PRELOAD": library, "COUNTS": f"{files.room}/counts"})
        if (wrong := files.fault(form, answer, wanted)) is None:
            made = int(Path(files.room, "counts").read_text().split()[3])
            wrong = None if made == workers + cpus else f"{made} threads were created"
        if wrong is not None:
            faults += 1
            print(f"failing-threads: {form} with {workers} and {cpus}: {wrong}", flush=True)
        threads += workers + cpus
        for variable, which in (("FAIL_THREAD", "without thread"), ("FAIL_THREADS_FROM", "with no thread from")):
            for number in range(1, workers + cpus + 1):
                what = f"{form} with {workers} and {cpus}, {which} {number}"
                runs.append((what, lambda words=words, variable=variable, number=number: run(words, variable, number)))
    title = f"{form}: {len(PAIRS[form])} pairs of numbers, {threads} threads, each refused, and all from each on"
    return faults + tried(asked, Tally(title), runs)


def small_spaces(asked: Namespace, files: Files, wanted: bytes) -> int:
    """Limits the address space, and gives how many runs are at fault."""
    def limit(mebibytes: int) -> Callable[..., Any]:
        return lambda: resource.setrlimit(resource.RLIMIT_AS, (mebibytes << 20, mebibytes << 20))

    def run(form: str, words: Any, mebibytes: int) -> Any:
        answer = files.run(words, preexec_fn=limit(mebibytes))
        is_refused = (answer.status, answer.err.rpartition(b": ")[2]) == NO_MEMORY
        return answer.status, None if is_refused else files.fault(form, answer, wanted)

    # In less the program can't be loaded: the system or its loader says so.
    enough = [size for size in MEBIBYTES if files.run([], preexec_fn=limit(size)).status == files.run([]).status]
    if not enough:
        print(f"an address space of at most {MEBIBYTES[-1]} MiB: not tried, since the program can't be loaded in so little, as is so of a trial build")
        return 0
    runs = [(f"{form} with {workers} and {cpus}, in {size} MiB", lambda form=form, words=files.words(form, workers, cpus), size=size: run(form, words, size))
            for form, workers, cpus in LIMITED for size in enough]
    return tried(asked, Tally(f"an address space of {enough[0]} to {enough[-1]} MiB, {len(enough)} sizes"), runs)


def few_processes(asked: Namespace, files: Files, wanted: bytes) -> int:
    """Limits the processes of a user, and gives how many runs are at fault."""
    def become(user: int, processes: int) -> None:
        resource.setrlimit(resource.RLIMIT_NPROC, (processes, processes))
        os.setgroups([])
        os.setgid(user)
        os.setuid(user)

    def run(form: str, words: Any, user: int, processes: int) -> Any:
        answer = files.run(words, preexec_fn=lambda: become(user, processes))
        return answer.status, files.fault(form, answer, wanted)

    title = f"1 to {PROCESSES[-1]} processes, {len(PROCESSES)} limits"
    if os.geteuid() != 0:
        print(f"{title}: not tried, since only root can run a program as a user without another process")
        return 0
    rows = [(row, limit) for row in LIMITED for limit in PROCESSES]
    runs = [(f"{form} with {workers} and {cpus}, at most {limit} processes",
             lambda form=form, words=files.words(form, workers, cpus), user=USERS + at, limit=limit: run(form, words, user, limit))
            for at, ((form, workers, cpus), limit) in enumerate(rows)]
    return tried(asked, Tally(title), runs)


def main():
    asked = TrialParser().add_limits(20.0, None).add_built().with_program()
    if shutil.which("cc") is None:
        print("tools/checks/failing-threads: the command cc isn't there, with which the library is built that makes threads fail", file=sys.stderr)
        return 3
    begun = time.monotonic()
    with tempfile.TemporaryDirectory(prefix="failing-threads-") as room:
        files = Files(asked, room)
        alone = files.run(files.words("run", 0, 0))
        if alone.trouble:
            sys.exit(f"tools/checks/failing-threads: the run without threads: {alone.trouble}")
        wanted = counts(alone.out)
        faults = sum(refused_threads(asked, files, wanted, built(room), form) for form in PAIRS)
        faults += small_spaces(asked, files, wanted) + few_processes(asked, files, wanted)
    print(f"failing-threads: {time.monotonic() - begun:.0f} s, {faults} at fault")
    return faults > 0
