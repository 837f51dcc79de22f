"""Checks that no line of a specification is wider than 140 characters.

    tools/checks/check-lines [FILE ..]

Without words it checks every .antt file of a crate's specs/. Characters are counted, not bytes.

Exit status: 0 where no line is wider, else 1. The last line is `lines: N passed, N failed`.
"""
from __future__ import annotations

from pathlib import Path
from typing import List

from tools.checks.tallies import Tally
from tools.commands.command_line.arguments import ToolParser
from tools.commands.command_line.top import TOP

WIDTH = 140


def specifications() -> List[Path]:
    return sorted(TOP.glob("crates/*/specs/**/*.antt"))


def widths(path: Path) -> List[int]:
    """How wide each line of the file is."""
    with open(path, encoding="utf-8") as file:
        return [len(line.rstrip("\n")) for line in file]


def main() -> bool:
    parser = ToolParser()
    parser.add_argument("names", metavar="FILE", nargs="*")
    asked = parser.parse_args()
    names = asked.names
    files = [Path(name).resolve() for name in names] or specifications()
    lines = ((path, number, width) for path in files for number, width in enumerate(widths(path), 1))
    return Tally("lines").note_all((f"{path.relative_to(TOP)}:{number}", f"{width} characters" if width > WIDTH else None) for path, number, width in lines).ended()
