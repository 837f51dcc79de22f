"""The files that a reading of the documents is given: how they are read, and how it ends where one can't be had or is refused."""
from __future__ import annotations

import sys
from typing import Any, Callable, List, Optional, Tuple, Type

from tools.commands.command_line.ending import reason
from tools.references.stepping import policies, scripts
from tools.references.stepping.rules import Rule
from tools.references.stepping.scripts import Container

USAGE, READ_FAULT, TOO_LONG, BAD_POLICY, BAD_SCRIPT, WRITE_FAULT = 1, 2, 3, 4, 5, 6
MIB = 1 << 20
# how many bytes a file may have, by what it is
MOST_BYTES = {"policy": MIB, "new policy": MIB, "claims": MIB, "script": 8 * MIB, "calls": 8 * MIB, "session": 256 * MIB}


class Ended(Exception):
    """A reading ends with a status and a line on standard error."""


def bytes_of(path: str, what: str) -> bytes:
    """The bytes of a file, or of standard input where it is `-`. Raises Ended."""
    most = MOST_BYTES[what]
    try:
        if path == "-":
            data = sys.stdin.buffer.read(most + 1)
        else:
            with open(path, "rb") as file:
                data = file.read(most + 1)
    except OSError as fault:
        raise Ended(READ_FAULT, f"read fault: {what}") from fault
    if len(data) > most:
        raise Ended(TOO_LONG, f"too long: {what}")
    return data


def taken(what: str, path: str, reader: Callable[[bytes], Any], refused: Type[Exception], status: int) -> Any:
    """What a reader makes of a file. Raises Ended with a status where it refuses it."""
    data = bytes_of(path, what)
    try:
        return reader(data)
    except refused as fault:
        raise Ended(status, f"{what}: {fault}") from None


def rules_of(path: str, what: str = "policy") -> List[Rule]:
    """The rules of a policy. Raises Ended."""
    return taken(what, path, policies.read_policy, policies.Refused, BAD_POLICY)


def read_files(policy: str, script: str) -> Tuple[List[Rule], Container]:
    """The rules of a policy, and what a script states. Raises Ended."""
    return rules_of(policy), taken("script", script, scripts.read_script, scripts.Refused, BAD_SCRIPT)


def status_of(action: Callable[..., Optional[int]], *operands: Any, says_why: bool = True) -> int:
    """The status of something. Where it raises Ended its line is told: as the program has it, or also why a file can't be read."""
    try:
        return action(*operands) or 0
    except Ended as ended:
        status, line = ended.args
        why = reason(ended.__cause__) if isinstance(ended.__cause__, OSError) else None
        print(f"{line}: {why}" if says_why and why else line, file=sys.stderr)
        return status
