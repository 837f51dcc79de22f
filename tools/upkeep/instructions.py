"""Counts the instructions that the program executes for the inputs of the benchmark, and prints them in a table: tools/upkeep/instructions [PROGRAM]

    tools/upkeep/instructions --functions 20 --only "play of calls"

Instructions are counted by callgrind, a part of Debian's package valgrind. They don't depend on the machine's speed, nor on what else
runs, so that two builds can be compared where times can't. docs/inside/PERFORMANCE.md has such a table. With --functions it also prints the
functions that executed the most instructions of their own, by callgrind_annotate.

Exit status: 0, 1 if a run fails, or 3 where valgrind isn't there.
"""
from __future__ import annotations

import os
import re
import shutil
import subprocess
import sys
import tempfile
from argparse import Namespace
from typing import Iterator, List, Tuple

from bench.inputs import Input, devices, fill, filters, lives, nothing
from bench.measure import program_or_exit
from tools.commands.command_line.arguments import ToolParser
from tools.commands.command_line.top import TOP


PROGRAM = f"{TOP}/crates/seccomp_broker/out/seccomp_broker"
HEAD = ("input", "events", "instructions, millions", "an event")
CALLS = 14_600
TASKS = 3_900


def arguments() -> Namespace:
    parser = ToolParser()
    parser.add_argument("program", nargs="?", default=PROGRAM)
    parser.add_argument("--only", default="", metavar="TEXT", help="only the inputs whose name has this text")
    parser.add_argument("--functions", type=int, default=0, metavar="N", help="print the N functions that executed most, below each input's row")
    return parser.parse_args()


def made(room: str, name: str, script: Input) -> str:
    """A folder with the policy and the script of an input."""
    os.mkdir(f"{room}/{name}")
    script.write(f"{room}/{name}")
    return f"{room}/{name}"


def inputs(program: str, room: str) -> Iterator[Tuple[str, str, List[str]]]:
    """The name of each input, the folder to run in, and the words."""
    files = ["policy.json", "script.txt"]
    yield "empty play", made(room, "empty", nothing()), ["play", *files]
    yield "first example", f"{TOP}/examples/first", ["play", *files]
    yield "stress 7 2000", room, ["stress", "7", "2000"]
    long = made(room, "long", devices(CALLS))
    yield f"play of calls: {CALLS}", long, ["play", *files]
    with open(f"{long}/report.txt", "wb") as report:
        subprocess.run([program, "play", *files], cwd=long, stdout=report, check=True)
    yield f"check of its report: {CALLS}", long, ["audit-check", *files, "report.txt"]
    yield f"judge of calls: {CALLS}", long, ["judge", *files]
    yield f"play of tasks' lives: {TASKS}", made(room, "lives", lives(TASKS)), ["play", *files]
    yield "filters, a tenth", made(room, "filters", filters(10)), ["play", *files]
    yield "fill, a quarter", made(room, "fill", fill(4)), ["play", *files]


def counted(program: str, folder: str, words: List[str], kept: str) -> Tuple[int, int]:
    """How many instructions a run executes, and how many events it tells of. Callgrind's own file is kept there."""
    command = ["valgrind", "--tool=callgrind", f"--callgrind-out-file={kept}", program, *words]
    ended = subprocess.run(command, cwd=folder, stdin=subprocess.DEVNULL, stdout=subprocess.PIPE, stderr=subprocess.PIPE)
    printed, said = ended.stdout.decode("latin-1"), ended.stderr.decode("latin-1")
    executed = re.search(r"Collected : (\d+)", said)
    events = re.match(r"(?:yes|mediated) events=(\d+) ", printed) or re.search(r" events=(\d+) [^\n]*\n\Z", printed)
    if ended.returncode != 0 or executed is None or events is None:
        sys.exit(f"instructions: {' '.join(words)}: status {ended.returncode}: {said}")
    return int(executed[1]), int(events[1])


def dearest(kept: str, number: int) -> List[str]:
    """The lines of callgrind_annotate on the functions that executed the most instructions of their own."""
    text = subprocess.run(["callgrind_annotate", "--threshold=99", kept], stdout=subprocess.PIPE, check=True).stdout.decode("latin-1")
    lines = [line.strip() for line in text.splitlines() if re.match(r"\s*[\d,]+ \(", line) and "PROGRAM TOTALS" not in line]
    return lines[:number]


def main() -> int:
    asked = arguments()
    if shutil.which("valgrind") is None:
        print("instructions: valgrind isn't there (Debian's package valgrind)", file=sys.stderr)
        return 3
    program = os.path.abspath(program_or_exit("instructions", asked.program))
    print(f"| {' | '.join(HEAD)} |\n|{'---|' * len(HEAD)}", flush=True)
    with tempfile.TemporaryDirectory(prefix="instructions-") as room:
        for name, folder, words in inputs(program, room):
            if asked.only not in name:
                continue
            kept = f"{room}/callgrind.out"
            executed, events = counted(program, folder, words, kept)
            print(f"| {name} | {events:,} | {executed / 1e6:,.1f} | {executed / events:,.0f} |", flush=True)
            for line in dearest(kept, asked.functions) if asked.functions else []:
                print(f"    {line}")
    return 0
