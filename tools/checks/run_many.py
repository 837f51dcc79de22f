"""Runs the script of each case and example many times with threads. The numbers of workers and processors are random.

    tools/checks/run-many [--lanes] [--replaced] [--times N] [--seed N] [--seconds S] [--jobs N] [--only GLOB] [--program PATH]

With --lanes the scripts are served by lanes, and a run is also at fault if its journal isn't laned (tools/commands/laned). With --replaced workers
are replaced after each so many of their steps, a number that is random too, and a run is also at fault if its ledgers aren't those that its
journal tells (tools/checks/replaced.py).

The rows are the examples, and the cases whose play prints a whole report. A run is at fault if it doesn't end in time, if its status isn't 0,
if `audit-check` doesn't accept its report as that of a finished history, or if its summary, except the number of events, isn't that of the
run without threads. The summaries are compared only if the order of steps can't matter: no task of the script sends a signal or shares its
memory with another one, and no task couldn't be created because no PID was free.
"""
from __future__ import annotations

import random
from argparse import Namespace
from concurrent.futures import ThreadPoolExecutor
from typing import List, Tuple

from tools.checks.threaded_runs import UNMADE, answer, counts_alone, fault_of_part, parser_of, rows


def words(asked: Namespace, workers: int, cpus: int, every: int) -> Tuple[str, List[str]]:
    """The first word of a run with threads, and those after the files."""
    replacing = ["every", str(every)] if asked.replaced else []
    return ("lanes", [str(cpus), *replacing]) if asked.lanes else ("run", [str(workers), str(cpus), *replacing])


def fault(asked, files, wanted, workers, cpus, every):
    """What is wrong with a run, if anything is. `wanted` has the counts of the summary where these are known."""
    command, numbers = words(asked, workers, cpus, every)
    run = answer(asked, command, *files, *numbers)
    return run.trouble or fault_of_part(asked, files, run.out, every, None if UNMADE.search(run.out) else wanted)


def tried(asked: Namespace, name: str, files: List[str]) -> int:
    """Runs one script, prints what came of it, and gives how many runs are at fault."""
    try:
        wanted = counts_alone(asked, files)
    except ValueError as why:
        print(f"run-many: {name}, {why}", flush=True)
        return 1
    chance = random.Random(f"{asked.seed} {name}")
    hands = [(chance.randint(0, 16), chance.randint(0, 16), chance.randint(1, 12)) for _ in range(asked.times)]
    faults = 0
    with ThreadPoolExecutor(asked.jobs) as pool:
        for (workers, cpus, every), wrong in zip(hands, pool.map(lambda it: fault(asked, files, wanted, *it), hands)):
            if wrong is not None:
                faults += 1
                who = f"{'lanes' if asked.lanes else f'{workers} workers'} and {cpus} processors{f', replaced after {every}' if asked.replaced else ''}"
                print(f"run-many: {name}, {who}: {wrong}", flush=True)
    print(f"{name}: {asked.times} runs, {'accepted' if wanted is None else 'accepted, with one summary'}; {faults} at fault", flush=True)
    return faults


def main() -> bool:
    asked = parser_of(200, 20.0).with_program()
    faults = {name: tried(asked, name, files) for name, *files in rows(asked.only)}
    print(f"run-many: {len(faults)} scripts, {asked.times * len(faults)} runs, {sum(faults.values())} at fault")
    return sum(faults.values()) > 0
