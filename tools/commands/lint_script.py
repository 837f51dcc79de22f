"""Says what is wrong with a script, or likely a mistake. `./broker help lint-script` has its words.

The program decides whether it is a script: it checks an empty report against it, which reads the script and plays nothing.
"""
from __future__ import annotations

import os
import subprocess
import sys
import tempfile
from argparse import Namespace
from typing import Any, Optional, Tuple

from tools.commands.command_line import place
from tools.commands.command_line.arguments import Parser
from tools.commands.command_line.ending import reason
from tools.commands.messages import likely, scripts
from tools.commands.messages.findings import Text, message, whole_file
from tools.commands.messages.refusals import LIMITS, SCRIPT

CLEAN, FOUND, NOT_READ = 0, 1, 2
# how the program ends where it takes the script: an empty file is no report
TAKEN, REFUSED = 9, 5


class NotTried(Exception):
    """The program can't be asked; the text says why."""


def asked() -> Namespace:
    parser = Parser("lint-script")
    parser.add_argument("--program", metavar="PATH", help="asks this program, in place of the command's own")
    parser.add_argument("--for", metavar="COMMAND", dest="use", choices=likely.USES, default=likely.PLAY, help="what the script is for")
    parser.add_argument("file", metavar="FILE", help="the script")
    return parser.parse_args()


def refusal(program: str, data: bytes) -> Optional[Tuple[int, str]]:
    """The line and the reason of the program's refusal of a script, or None where it takes it."""
    with tempfile.TemporaryDirectory(prefix="lint-script-") as room:
        for name, content in (("policy.json", b"{}"), ("script.txt", data), ("report.txt", b"")):
            with open(f"{room}/{name}", "wb") as file:
                file.write(content)
        try:
            ended = subprocess.run([program, "audit-check", "policy.json", "script.txt", "report.txt"], cwd=room, stdin=subprocess.DEVNULL, stdout=subprocess.DEVNULL, stderr=subprocess.PIPE)
        except OSError as fault:
            raise NotTried(f"{program}: {reason(fault)}") from None
    lines = ended.stderr.decode("utf-8", "replace").splitlines()
    told = SCRIPT.fullmatch(lines[-1]) if lines else None
    if ended.returncode == REFUSED and told:
        return int(told[1]), told[2]
    if ended.returncode != TAKEN:
        raise NotTried(lines[-1] if lines else f"the program ended with status {ended.returncode}")
    return None


def findings(program: str, data: bytes, use: str) -> Any:
    """What is found: why the program refuses the script, or else what is likely a mistake where it is used so."""
    if len(data) > LIMITS["script"]:
        return [whole_file("too-long", f"a script has at most {LIMITS['script']} bytes", "")]
    refused = refusal(program, data)
    return [scripts.finding_of(data, *refused)] if refused else likely.findings(Text(data), use)


def main() -> int:
    words = asked()
    try:
        with open(words.file, "rb") as file:
            data = file.read(LIMITS["script"] + 1)
    except OSError as fault:
        print(f"lint-script: {words.file}: {reason(fault)}", file=sys.stderr)
        return NOT_READ
    program = words.program or place.runnable()
    if program is None:
        return NOT_READ
    try:
        found = findings(os.path.abspath(program), data, words.use)
    except NotTried as fault:
        print(f"lint-script: {fault}", file=sys.stderr)
        return NOT_READ
    text = Text(data)
    for one in found:
        print("\n".join(message(one, words.file, text, f"{one.name}: ")))
    print(f"findings={len(found)}" if found else "clean")
    return FOUND if found else CLEAN
