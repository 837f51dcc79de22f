"""Runs the program's trial build with the words given, with its output and exit status: tools/commands/try WORD ..

./broker calls this where it can't keep a trial build. So the build is made anew from the sources, with checks and without proofs, which
takes one to two minutes. It gives no report of more than 1 MiB, and none that takes more than a minute; a kept build and the proved program
have no such limits.
"""
from __future__ import annotations

import os
import re
import subprocess
import sys
from typing import List

from tools.commands.command_line import arguments
from tools.commands.command_line.top import TOP

NOT_PROVED = "broker: this build isn't proved; ./broker --prove proves and builds the program"
LIMITS = "broker: a trial build that isn't kept gives no report of more than 1 MiB or a minute; ./broker --prove builds the program, which has no such limits"
ENDED = re.compile(r"run=ended status=(\d+) ")
# how many of a command's words name files; of pod those behind its numbers do
FILES = {"check": 2, "compare": 2, "explore": 2, "explain": 2, "handover": 2, "judge": 2, "lint": 1, "play": 2, "run": 2, "lanes": 2, "step": 2, "audit-check": 3}
# what the toolchain says of the run, beside what the program said
OF_THE_RUN = re.compile(r"(checked|interpreter|races|run=|call=|rt:)")


def words_of(words: List[str]) -> List[str]:
    """The words, with the files that they name by their whole paths, since the trial build runs in a folder of its own."""
    first, files = (3, len(words)) if words[:1] == ["pod"] else (1, FILES.get(words[0], 0) if words else 0)
    return words[:first] + [os.path.abspath(word) for word in words[first:first + files]] + words[first + files:]


def main() -> int:
    if not sys.argv[1:] or sys.argv[1].startswith("-"):
        # (all other words are the program's own)
        arguments.none()
    command = ["rt", "try", "--", *words_of(sys.argv[1:])]
    # only the requests of `step` are read from standard input
    source = None if sys.argv[1:2] == ["step"] else subprocess.DEVNULL
    print(NOT_PROVED, file=sys.stderr, flush=True)
    try:
        run = subprocess.run(command, cwd=f"{TOP}/crates/seccomp_broker", stdin=source, capture_output=True)
    except FileNotFoundError:
        print("broker: the toolchain's command rt isn't on the PATH", file=sys.stderr)
        return 1
    said = run.stderr.decode(errors="replace").splitlines()
    ended = ENDED.match(said[-1]) if said else None
    if ended is None:
        print(LIMITS if run.returncode == 6 else "\n".join(said), file=sys.stderr)
        return run.returncode or 1
    sys.stdout.buffer.write(run.stdout)
    sys.stdout.flush()
    for line in said:
        if not OF_THE_RUN.match(line):
            print(line, file=sys.stderr)
    return int(ended.group(1))
