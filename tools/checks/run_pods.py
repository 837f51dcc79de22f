"""Serves pods of 1 to 8 scripts of cases and examples side by side, with random numbers of workers and processors.

    tools/checks/run-pods [--lanes] [--replaced] [--times N] [--seed N] [--seconds S] [--jobs N] [--only GLOB] [--program PATH]

With --lanes the pods are served by lanes, and a pod is also at fault if a container's journal isn't laned (tools/commands/laned). With --replaced
workers are replaced after each so many of their steps, a number that is random too, and a pod is also at fault if a container's ledgers
aren't those that its journal tells (tools/checks/replaced.py).

The rows are those of tools/checks/run-many. In a pod each script gets a range of PIDs of its own, by a line `pidbase`. A pod is at fault if it doesn't end in
time, if its status isn't 0, if `audit-check` doesn't accept each container's part as the report of a finished history of its own policy and script, if
the last line doesn't have the sums of the summaries, or if a summary, except the number of events, isn't that of `run` of the same files. Summaries are
compared only if the order of steps can't matter to them, as tools/checks/run-many says.

Then one of its containers, drawn as well, is replaced by another row, and the same must hold again. The others' scripts stay the same, so they
end as before, whatever stands beside them.

Status 0 where no pod is at fault; else they are listed. It isn't part of the gate.
"""
from __future__ import annotations

import random
import re
import tempfile
from argparse import Namespace
from concurrent.futures import ThreadPoolExecutor
from pathlib import Path
from typing import Any, Iterator, List, Tuple

from tools.checks.threaded_runs import answer, counts_alone, fault_of_part, parser_of, rows
from tools.commands.pods import last_line, parts

PIDMAX = re.compile(rb"^[ \t]*pidmax[ \t]+(\d+)[^\n]*\n", re.M)
PIDBASE = re.compile(rb"^[ \t]*pidbase\b[^\n]*\n", re.M)
CONTAINERS = 8
# how many PIDs there are for each container
RANGE = 4194304 // CONTAINERS


def has_range(script: bytes) -> bool:
    """Whether a script has no more PIDs than there are for a container."""
    size = PIDMAX.search(script)
    return size is None or int(size[1]) <= RANGE


def placed(script: bytes, number: int) -> bytes:
    """The script with the range of PIDs of the container with this number."""
    script, line = PIDBASE.sub(b"", script), b"pidbase %d\n" % (number * RANGE)
    size = PIDMAX.search(script)
    at = size.end() if size else 0
    return script[:at] + line + script[at:]


def written(room: str, members: List[Tuple[str, str, str]]) -> Iterator[Tuple[str, str]]:
    """The names of the policy's and the script's file of each container, whose scripts are written to the room."""
    for number, (_, policy, script) in enumerate(members):
        path = Path(room, f"script-{number}.txt")
        path.write_bytes(placed(Path(script).read_bytes(), number))
        yield policy, str(path)


def served(asked: Namespace, pairs: List[Tuple[str, str]], hands: List[str]) -> List[bytes]:
    """The reports of the containers of a pod."""
    run = answer(asked, "pod", *hands, *(file for files in pairs for file in files))
    if run.trouble:
        raise ValueError(run.trouble)
    reports, last = parts(run.out)
    if len(reports) != len(pairs):
        raise ValueError(f"{len(reports)} parts")
    if last != last_line(reports):
        raise ValueError(f"{last!r} where {last_line(reports)!r} is right")
    return reports


def fault(asked, members, hands, every):
    """What is wrong with a pod, if anything is."""
    with tempfile.TemporaryDirectory() as room:
        pairs = list(written(room, members))
        try:
            for files, part in zip(pairs, served(asked, pairs, [*hands, *(["every", str(every)] if asked.replaced else [])])):
                wrong = fault_of_part(asked, files, part, every, counts_alone(asked, files))
                if wrong is not None:
                    raise ValueError(wrong)
        except ValueError as wrong:
            return f"{' '.join(name for name, *_ in members)}, pod {' '.join(hands)}{f' every {every}' if asked.replaced else ''}: {wrong}"
    return None


def drawn(asked: Namespace, all_rows: List[Tuple[str, str, str]], place: int) -> List[Any]:
    """What is wrong with the pod of this draw, and with the one in which one container is another."""
    chance = random.Random(f"{asked.seed} {place}")
    members = [chance.choice(all_rows) for _ in range(chance.randint(1, CONTAINERS))]
    workers, cpus = str(chance.randint(0, 16)), str(chance.randint(0, 16))
    hands = ["lanes" if asked.lanes else workers, cpus]
    changed = list(members)
    changed[chance.randrange(len(changed))] = chance.choice(all_rows)
    every = chance.randint(1, 12)
    return [wrong for wrong in (fault(asked, members, hands, every), fault(asked, changed, hands, every)) if wrong]


def main() -> bool:
    asked = parser_of(200, 60.0).with_program()
    all_rows, faults = [row for row in rows(asked.only) if has_range(Path(row[2]).read_bytes())], 0
    with ThreadPoolExecutor(asked.jobs) as pool:
        for wrongs in pool.map(lambda place: drawn(asked, all_rows, place), range(asked.times)):
            faults += len(wrongs)
            for wrong in wrongs:
                print(f"run-pods: {wrong}", flush=True)
    print(f"run-pods: {len(all_rows)} scripts, {2 * asked.times} pods, {faults} at fault")
    return faults > 0
