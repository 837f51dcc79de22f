"""Measures calls of the C library on the first example: plays, and then checks of their report. It prints the time and the stack of a call, and whether memory grows.

    tools/upkeep/measure-c-library [CALLS]

There are CALLS calls, or 100,000.
"""
from __future__ import annotations

import subprocess
import tempfile

from tools.commands.command_line import place
from tools.commands.command_line.arguments import ToolParser

COMPILE = ["cc", "-std=gnu11", "-O2", "-Wall", "-Wextra", "-Idist/include"]
LINK = ["dist/lib/libseccomp_broker.a", "-pthread", "-Wl,--wrap=malloc,--wrap=realloc,--wrap=free"]


def main() -> int:
    parser = ToolParser()
    parser.add_argument("calls", metavar="CALLS", nargs="?", type=int, default=100_000)
    calls = parser.parse_args().calls
    with tempfile.TemporaryDirectory(prefix="measure-c-library-") as room:
        for words in (["tools/commands/make-c-library"], [*COMPILE, "-o", f"{room}/measure", "tools/checks/c-library/measure.c", *LINK],
                      [f"{room}/measure", "examples/first/policy.json", "examples/first/script.txt", str(calls)]):
            status = subprocess.run(words, cwd=place.HOME).returncode
            if status:
                return 128 - status if status < 0 else status
    return 0
