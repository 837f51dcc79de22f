"""Proves the crates that the program stands on, the lowest first, as many at a time as there are processors, and builds the program.

    tools/commands/prove

This is what ./broker --prove does. Exit status: 0, or 1 if a crate couldn't be proved.
"""
from __future__ import annotations

import os
import shutil
import subprocess
import sys
import time
from concurrent.futures import FIRST_COMPLETED, Future, ThreadPoolExecutor, wait
from typing import Any, Dict, List, Optional, Set, Tuple

from tools.commands.command_line import arguments
from tools.commands.command_line.top import TOP

PROGRAM = "seccomp_broker"


def crates_below(name: str) -> Dict[str, List[str]]:
    """The crates that this one stands on, and itself, each with the crates of the repository that it names."""
    listed = {}
    with open(f"{TOP}/crates.txt") as lines:
        for line in lines:
            head, _, names = line.partition("#")[0].partition(":")
            if head.split():
                listed[head.split()[0]] = names.split()
    below, todo = {}, [name]
    while todo:
        crate = todo.pop()
        if crate not in below:
            below[crate] = [other for other in listed[crate] if other in listed]
            todo += below[crate]
    return below


def prove(crate: str) -> Tuple[float, Optional[str]]:
    """Proves and builds one crate, whose lower ones stand. Gives how long it took, and what it said where it failed."""
    begun = time.monotonic()
    verb = "run" if crate == PROGRAM else "lib"
    run = subprocess.run(
        ["rt", verb], cwd=f"{TOP}/crates/{crate}", stdin=subprocess.DEVNULL, stdout=subprocess.PIPE, stderr=subprocess.STDOUT
    )
    built = crate != PROGRAM or os.access(f"{TOP}/crates/{crate}/out/{crate}", os.X_OK)
    failed = not built or (crate != PROGRAM and run.returncode != 0)
    return time.monotonic() - begun, run.stdout.decode(errors="replace") if failed else None


def main() -> int:
    arguments.none()
    if shutil.which("rt") is None:
        print("broker: the toolchain's command rt isn't on the PATH", file=sys.stderr)
        return 1
    crates = crates_below(PROGRAM)
    workers = os.cpu_count() or 1
    print(f"broker: {len(crates)} crates to prove, up to {workers} at a time", flush=True)
    begun = time.monotonic()
    done: Set[str] = set()
    running: Dict[Future[Any], str] = {}
    with ThreadPoolExecutor(workers) as pool:
        while len(done) < len(crates):
            for crate, below in crates.items():
                if crate not in done and crate not in running.values() and done.issuperset(below):
                    running[pool.submit(prove, crate)] = crate
            for future in wait(running, return_when=FIRST_COMPLETED).done:
                crate = running.pop(future)
                seconds, failure = future.result()
                if failure is not None:
                    print(f"broker: {crate} couldn't be proved; rt check in crates/{crate} says more:", file=sys.stderr)
                    print("\n".join(failure.splitlines()[-20:]), file=sys.stderr)
                    pool.shutdown(wait=False, cancel_futures=True)
                    return 1
                done.add(crate)
                print(f"broker: {len(done)} of {len(crates)} proved: {crate}, in {seconds:.0f} s", flush=True)
    print(f"broker: proved and built in {(time.monotonic() - begun) / 60:.0f} minutes")
    return 0
