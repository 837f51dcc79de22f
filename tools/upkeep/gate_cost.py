"""Measures what the gate costs: the seconds of a processor and the largest memory of each crate and check, of which it makes a table.

    tools/upkeep/gate-cost [--write] [COMMAND ..]

COMMAND is run in its place at the top of the repository; it is .ci/run, if none is named. Its processes, and those that they have started, are looked at
twice a second. A process belongs to the crate that the toolchain's words name (--crate-name), or to the program of tools/ that it runs, or else to the one of the process
that started it. Processes that come and go between two looks are missed: their seconds stand in the row "others".

The table is printed behind what COMMAND says. With --write it replaces the one in docs/inside/PROOF.md, which is to be of a gate from nothing.

Exit status: that of COMMAND.
"""
from __future__ import annotations

import argparse
import datetime
import os
import re
import resource
import signal
import subprocess
import sys
import threading
import time
from collections import defaultdict
from pathlib import Path
from typing import Any, Dict, List, Sequence, Tuple

from tools.commands.command_line import place
from tools.commands.command_line.arguments import ToolParser
from tools.commands.command_line.top import TOP

DOCUMENT = TOP / "docs/inside/PROOF.md"
BEGIN, END = "<!-- begin of what tools/upkeep/gate-cost writes -->\n", "<!-- end of what tools/upkeep/gate-cost writes -->\n"
HEAD = "| crate or check | seconds of a processor | of them tests | largest process, GB |\n|---|---|---|---|\n"
LOOK = 0.5
# rows with fewer seconds are added up in one
LEAST = 30
TICKS = os.sysconf("SC_CLK_TCK")
CRATE = re.compile(rb"--crate-name\0(\w+)\0")
CHECK = re.compile(rb"(?:^|\0|/)tools/(?:checks|commands|upkeep)/([\w-]+)\0")


class Process:
    """What is known of a process."""

    def __init__(self, name: str, is_test: bool) -> None:
        self.name, self.is_test, self.seconds, self.memory = name, is_test, 0.0, 0


def read(pid: int, name: str) -> bytes:
    with open(f"/proc/{pid}/{name}", "rb") as file:
        return file.read()


class Sampler:
    """Looks at all processes below this one."""

    def __init__(self) -> None:
        # by number and start, and the last one of each number
        self.known: Dict[Tuple[int, int], Process] = {}
        self.last: Dict[int, Process] = {}
        self.largest_sum, self.is_over = 0, threading.Event()

    def stat(self, pid: int) -> Tuple[int, float, int]:
        """The parent, the seconds, and when it was started, which tells it from another one of the same number."""
        fields = read(pid, "stat").rpartition(b")")[2].split()
        return int(fields[1]), (int(fields[11]) + int(fields[12])) / TICKS, int(fields[19])

    def below(self) -> List[Tuple[int, Tuple[int, float, int]]]:
        """The processes below this one, each with its stat, parents first."""
        stats, children = {}, defaultdict(list)
        for name in os.listdir("/proc"):
            if name.isdecimal():
                try:
                    stats[int(name)] = self.stat(int(name))
                    children[stats[int(name)][0]].append(int(name))
                except OSError:
                    pass
        found = [os.getpid()]
        for pid in found:
            found += children[pid]
        return [(pid, stats[pid]) for pid in found[1:]]

    def look(self) -> None:
        memory = 0
        for pid, (parent, seconds, started) in self.below():
            try:
                words = read(pid, "cmdline")
                named = CRATE.search(words) or CHECK.search(words)
                above = self.last.get(parent)
                process = self.last[pid] = self.known.setdefault((pid, started), Process(above.name if above else "others", bool(above and above.is_test)))
                if named:
                    process.name, process.is_test = named[1].decode(), b"\0--test\0" in words
                process.seconds = seconds
                sizes = dict(re.findall(rb"^(VmHWM|VmRSS):\s+(\d+) kB", read(pid, "status"), re.M))
                process.memory = max(process.memory, int(sizes.get(b"VmHWM", 0)))
                memory += int(sizes.get(b"VmRSS", 0))
            except OSError:
                pass
        self.largest_sum = max(self.largest_sum, memory)

    def run(self) -> None:
        while not self.is_over.wait(LOOK):
            self.look()

    def rows(self, total: float) -> Dict[str, List[Any]]:
        """Of each name the seconds, those of tests, and the largest memory in kB; seconds that no look has seen are of `others`."""
        found: Dict[str, List[Any]] = defaultdict(lambda: [0.0, 0.0, 0])
        for it in self.known.values():
            row = found[it.name]
            row[0] += it.seconds
            row[1] += it.seconds if it.is_test else 0
            row[2] = max(row[2], it.memory)
        found["others"][0] += max(0.0, total - sum(row[0] for row in found.values()))
        return dict(found)


def machine() -> str:
    """The machine, as a text."""
    model = re.search(r"^model name\s*: (.*)$", Path("/proc/cpuinfo").read_text(), re.M)
    memory = os.sysconf("SC_PHYS_PAGES") * os.sysconf("SC_PAGE_SIZE") / 1e9
    return f"{len(os.sched_getaffinity(0))} processors ({model[1] if model else 'of an unknown kind'}), {memory:.0f} GB of memory"


def table(words: Sequence[str], rows: Dict[str, List[Any]], seconds: float, total: float, largest_sum: int) -> str:
    commit = place.said_by("git", "-C", str(TOP), "describe", "--tags", "--always", "--dirty") or "no commit"
    small = [row for name, row in rows.items() if row[0] < LEAST and name != "others"]
    named = sorted(((name, row) for name, row in rows.items() if row[0] >= LEAST or name == "others"), key=lambda it: (it[0] == "others", -it[1][0]))
    lines = [(f"`{name}`" if name != "others" else "others", row) for name, row in named]
    if small:
        lines.insert(len(lines) - 1, (f"{len(small)} with less than {LEAST}", [sum(row[0] for row in small), sum(row[1] for row in small), max(row[2] for row in small)]))
    return (f"`{' '.join(words)}` on {datetime.date.today()}, commit {commit}, {machine()}: {seconds / 60:.0f} minutes by the clock, {total / 60:.0f} minutes of a processor,\n"
            f"at most {largest_sum / 1e6:.1f} GB of memory at once.\n\n{HEAD}"
            + "".join(f"| {name} | {row[0]:.0f} | {row[1]:.0f} | {row[2] / 1e6:.1f} |\n" for name, row in lines))


def measured(words: Sequence[str]) -> Tuple[int, str]:
    """The exit status of a command, and the table of what it cost."""
    sampler, begun = Sampler(), time.monotonic()
    before = resource.getrusage(resource.RUSAGE_CHILDREN)
    process = subprocess.Popen(words, cwd=TOP)
    looking = threading.Thread(target=sampler.run, daemon=True)
    looking.start()
    try:
        status = process.wait()
    except KeyboardInterrupt:
        process.send_signal(signal.SIGINT)
        status = process.wait()
    sampler.is_over.set()
    looking.join()
    after = resource.getrusage(resource.RUSAGE_CHILDREN)
    total = after.ru_utime + after.ru_stime - before.ru_utime - before.ru_stime
    return status, table(words, sampler.rows(total), time.monotonic() - begun, total, sampler.largest_sum)


def write(text: str) -> None:
    document = DOCUMENT.read_text(encoding="utf-8")
    before, _, rest = document.partition(BEGIN)
    _, end, after = rest.partition(END)
    if not end:
        sys.exit(f"gate-cost: {DOCUMENT} has to have both marks")
    DOCUMENT.write_text(f"{before}{BEGIN}\n{text}\n{END}{after}", encoding="utf-8")


def main() -> int:
    parser = ToolParser()
    parser.add_argument("--write", action="store_true", help="writes the table into docs/inside/PROOF.md, if the command ends with 0")
    parser.add_argument("command", metavar="COMMAND ..", nargs=argparse.REMAINDER)
    asked = parser.parse_args()
    status, text = measured(asked.command or [".ci/run"])
    print(text, end="")
    if asked.write and status == 0:
        write(text)
    return 128 - status if status < 0 else status
