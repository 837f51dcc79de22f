"""Compares what a play says of calls under filters with what the running kernel says.

    tools/commands/check-filters [--calls N] [--seed N] [--program PATH] FILTERS ..

FILTERS are files that tools/commands/filter-of-profile or tools/commands/filter-of-process wrote. For each file N calls are drawn, 200 where nothing is said: of the
numbers that the filters ask for and of others, with arguments that they ask for and others. None of them is done: a guard that is installed in front
of the filters keeps the kernel from it. One line a file says how many got the same verdict, and each call that didn't has a line.

Exit status: 0 where all are the same; 1 where one differs, or the kernel or the program refuses; 2 for wrong words.
"""
from __future__ import annotations

import os
import random
import re
import subprocess
import sys
import tempfile
from argparse import Namespace
from collections import Counter
from typing import List, Sequence, Tuple

from tools.commands.command_line.arguments import ToolParser
from tools.commands.real_workloads import bpf, kernel_verdicts, program

ENTERED = re.compile(r"\d+ t0\.(\d+) call .* (notify) id=\d+$|\d+ t0\.(\d+) call .* (\S+)$")
OF_PROBES = (335, 336)  # the kernel asks no filter about these
NUMBERS = range(512)


def constants(filters: Sequence[bpf.Filter]) -> List[int]:
    return [it.value for each in filters for it in each.instructions if bpf.NAMES[it.code] in bpf.JUMPS]


def drawn(filters: Sequence[bpf.Filter], count: int, chance: random.Random) -> List[Tuple[int, List[int]]]:
    """Calls: their numbers and arguments."""
    asked = [it for it in constants(filters) if it not in OF_PROBES]
    numbers = [it for it in sorted({*asked, *NUMBERS}) if it < 2**31 and it not in OF_PROBES]
    named = [it for it in asked if it in NUMBERS] or [0]
    values = [0, 1, 2**32 - 1, 2**64 - 1, *asked, *(it << 32 for it in asked)]
    return [(chance.choice(named if chance.random() < 0.7 else numbers), [chance.choice(values) for _ in range(6)]) for _ in range(count)]


def script(filters: Sequence[bpf.Filter], calls: List[Tuple[int, List[int]]]) -> str:
    """A script whose first task starts one for each call."""
    lines = [line for it in filters for line in bpf.block(it.instructions, it.listener)]
    for at, (number, arguments) in enumerate(calls):
        lines += [f"prog c{at}", f"call {number} {' '.join(map(str, arguments))}", "end"]
    lines += ["prog main", *(f"spawn c{at}" for at in range(len(calls))), "end", "schedule", f"t 0 {len(calls)}"]
    return "\n".join([*lines, *(f"t 0.{at + 1}" for at in range(len(calls))), "end", ""])


def played(path: str, text: str) -> List[str]:
    """The verdicts of a play. The program's line where it refuses."""
    with tempfile.TemporaryDirectory(prefix="check-filters-") as room:
        for name, content in (("policy.json", "{}"), ("script.txt", text)):
            with open(f"{room}/{name}", "w", encoding="ascii") as file:
                file.write(content)
        ended = subprocess.run([path, "play", f"{room}/policy.json", f"{room}/script.txt"], capture_output=True, stdin=subprocess.DEVNULL, text=True, check=False)
    if ended.returncode:
        raise OSError(0, ended.stderr.strip())
    found = [it.groups() for it in map(ENTERED.match, ended.stdout.splitlines()) if it]
    verdicts = {int(first or second): first_verdict or verdict for first, first_verdict, second, verdict in found}
    return ["run" if verdicts[at] in ("allow", "log") else verdicts[at] for at in sorted(verdicts)]


def checked(name: str, asked: Namespace) -> bool:
    """Whether all verdicts are the same."""
    with open(name, encoding="ascii") as file:
        filters = bpf.read_blocks(file.read())
    calls = drawn(filters, asked.calls, random.Random(f"{asked.seed} {os.path.basename(name)}"))
    here, there = played(asked.program, script(filters, calls)), kernel_verdicts.verdicts(calls, filters)
    own = ["run" if it in ("allow", "log") else it for it in (bpf.verdict(filters, number, arguments) for number, arguments in calls)]
    for call, play, kernel, tools in zip(calls, here, there, own):
        if not play == kernel == tools:
            print(f"check-filters: {name}: call {call[0]} {call[1]}: the play says {play}, the kernel {kernel}, these tools {tools}")
    same = sum(play == kernel == tools for play, kernel, tools in zip(here, there, own))
    print(f"check-filters: {name}: {same} of {len(calls)} calls have the same verdict: {', '.join(f'{it} {count}' for it, count in Counter(there).most_common())}")
    return same == len(calls) == len(here)


def main() -> bool:
    parser = ToolParser()
    parser.add_argument("filters", nargs="+", metavar="FILTERS")
    parser.add_argument("--calls", type=int, default=200, metavar="N", help="how many calls are drawn for each file")
    parser.add_argument("--seed", type=int, default=1, metavar="N")
    parser.add_argument("--program", default=program.BUILT, metavar="PATH")
    asked = parser.parse_args()
    program.needed(asked.program, "tools/commands/check-filters")
    try:
        results = [checked(name, asked) for name in asked.filters]
    except (OSError, ValueError) as fault:
        sys.exit(f"tools/commands/check-filters: {getattr(fault, 'strerror', None) or fault}")
    return not all(results)
