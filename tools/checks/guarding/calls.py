"""Calls that real brokers make, and what is right of each: tests/guard/calls.h, and calls.txt beside it."""
from __future__ import annotations

import re
import shutil
from pathlib import Path
from typing import Any, Dict, List, NamedTuple, Optional

from tools.commands.exploring.runs import Kind
from tools.commands.exploring.shims import Shim
from tools.checks.guarding.trials import BY_PYTHON, CPLUSPLUS, SOURCES, door_in, files_of, tried

LINE = re.compile(r"(\w+)\s+(right|own|told)\s*(.*)")


class Expected(NamedTuple):
    """What is right of a call: what the agent writes, or the beginning of what is told."""

    is_told: bool
    text: str


def expectations() -> Dict[str, Expected]:
    """What is right of each call, by its name."""
    found = {}
    for line in (SOURCES / "calls.txt").read_text().split("\n"):
        read = LINE.fullmatch(line.partition("#")[0].rstrip())
        if read:
            found[read[1]] = Expected(read[2] == "told", read[3].strip())
    return found


def is_stream(name: str) -> bool:
    return name.startswith("stream_")


def names() -> List[str]:
    in_c = re.findall(r"^CALL\((\w+)", (SOURCES / "calls.h").read_text(), re.M)
    others = [name for name in expectations() if name not in in_c and (not is_stream(name) or shutil.which(CPLUSPLUS))]
    return [*in_c, *others]


def agent_of(name: str, programs: Path) -> List[Any]:
    """The agent that makes a call: in Python, in C++ or in C."""
    if name.startswith(("ctypes_", "python_")):
        return BY_PYTHON
    return [programs / ("streams" if is_stream(name) else "calls")]


def wrong_with(name: str, programs: Path, room: Path) -> Optional[str]:
    """What is wrong with the answer to a call; None where it is right, harmless, or told."""
    room.mkdir()
    door = door_in(room)
    out = Path(door.folder.path) / "out"
    outcome = tried([*agent_of(name, programs), name, out], files_of(SOURCES / "script.txt"), door, Shim(f"{programs}/shim.so", descriptors=("9",)), out)
    expected = expectations().get(name)
    if expected is None:
        return "calls.txt doesn't have it"
    if expected.is_told:
        right = outcome.kind is Kind.NOT_SUPPORTED and outcome.told.startswith(expected.text)
    else:
        right = outcome.kind is None and "; ".join(outcome.written.split("\n")[:-1]) == expected.text
    return None if right else f"expected {expected}, and it is {outcome}"
