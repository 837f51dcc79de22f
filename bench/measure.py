#!/usr/bin/env python3
"""Runs a program once, and prints as JSON how it ended, what it printed and what it took: bench/measure.py SECONDS MEGABYTES PROGRAM WORD ..

It ends the program after SECONDS, and gives it at most MEGABYTES of address space. It is a process of its own, since the system tells as
the greatest memory of a program at least that of the process which started it ("floor"), and this one is small.
"""
from __future__ import annotations

import json
import os
import resource
import subprocess
import sys
import threading
import time
from typing import Any, Dict, List

KEPT = 4096


def main(seconds: str, megabytes: str, *command: str) -> None:
    resource.setrlimit(resource.RLIMIT_AS, (int(megabytes) * 1_000_000,) * 2)
    printed, first, last, over = 0, b"", b"", threading.Event()
    begun = time.perf_counter()
    process: Any = subprocess.Popen(command, stdin=subprocess.DEVNULL, stdout=subprocess.PIPE, stderr=subprocess.PIPE)
    floor = resource.getrusage(resource.RUSAGE_SELF).ru_maxrss

    def end() -> None:
        over.set()
        os.kill(process.pid, 9)

    timer = threading.Timer(float(seconds), end)
    timer.start()
    while piece := os.read(process.stdout.fileno(), 1 << 16):
        printed += len(piece)
        first += piece[: KEPT - len(first)]
        last = (last + piece)[-KEPT:]
    said = process.stderr.read(KEPT)
    # so that it can't be ended any more once its number may be another's
    os.waitid(os.P_PID, process.pid, os.WEXITED | os.WNOWAIT)
    timer.cancel()
    timer.join()
    _, status, used = os.wait4(process.pid, 0)
    process.returncode = os.waitstatus_to_exitcode(status)
    took = {"wall": time.perf_counter() - begun, "processor": used.ru_utime + used.ru_stime, "kilobytes": used.ru_maxrss, "floor": floor}
    lines = {"first": first.split(b"\n")[0], "last": last.rstrip(b"\n").split(b"\n")[-1], "said": said.rstrip(b"\n")}
    told = {name: line.decode("latin-1") for name, line in lines.items()}
    print(json.dumps({"status": process.returncode, "over": over.is_set(), "printed": printed, **took, **told}))


def measured(program: str, words: List[str], folder: str, seconds: float, megabytes: int) -> Dict[str, Any]:
    """What a process of its own says of one run of the program, in this folder."""
    command = [sys.executable, "-I", "-S", os.path.abspath(__file__), str(seconds), str(megabytes), os.path.abspath(program), *words]
    return json.loads(subprocess.run(command, cwd=folder, stdout=subprocess.PIPE, check=True).stdout)


def memory(run: Dict[str, Any]) -> str:
    """The greatest memory of a run in MB, or that it is below what can be told."""
    megabytes = f"{run['kilobytes'] * 1024 / 1e6:.1f}"
    return megabytes if run["kilobytes"] > run["floor"] else f"below {megabytes}"


def program_or_exit(name: str, path: str) -> str:
    """The program, if it can be run."""
    if not os.access(path, os.X_OK) or not os.path.isfile(path):
        sys.exit(f"{name}: {path} isn't there: ./broker --prove builds the program")
    return path


if __name__ == "__main__":
    main(*sys.argv[1:])
