"""Agents that take more than a run may (tests/guard/takes.c): each has to be told, and ends."""
from __future__ import annotations

from pathlib import Path
from typing import Optional

from tools.commands.exploring.bounds import Bounds
from tools.commands.exploring.runs import Kind
from tools.commands.exploring.shims import Shim
from tools.checks.guarding.trials import SOURCES, door_in, files_of, tried

# what is taken, within which bounds, and how that is told
TAKES = {
    "calls": (Bounds(60, calls=500), "calls: more than 500"), "output": (Bounds(60, output=2), "output: 2 MiB"), "memory": (Bounds(60, memory=64), "memory: 64 MiB"),
    "seconds": (Bounds(4), "seconds: 4"),
}


def wrong_with(name: str, programs: Path, room: Path) -> Optional[str]:
    """What is wrong with what is told of an agent that takes too much, or None."""
    room.mkdir()
    bounds, told = TAKES[name]
    outcome = tried([programs / "takes", name], files_of(SOURCES / "script.txt"), door_in(room), Shim(f"{programs}/shim.so"), room / "out", bounds)
    return None if outcome.kind is Kind.TOO_MUCH and outcome.told.startswith(told) else f"expected `{told}`, and it is {outcome}"
