"""The parsers of all executables: of those that are words of the command, whose page is the table's, and of all others, whose page is the text at the head of their file."""
from __future__ import annotations

import argparse
import os
import sys
from typing import Optional

from tools.commands.command_line import pages, place, table


class Parser(argparse.ArgumentParser):
    """The parser of a word of the command."""

    def __init__(self, word: str) -> None:
        super().__init__(prog=word)

    def format_help(self) -> str:
        known = table.read()
        return pages.word_page(known, table.entry(known, self.prog) or {}, place.command(), place.examples())


class ToolParser(argparse.ArgumentParser):
    """The parser of an executable that is no word of the command. It takes no abbreviation of an option."""

    def __init__(self) -> None:
        super().__init__(prog=os.path.basename(sys.argv[0]), description=sys.modules["__main__"].__doc__, formatter_class=argparse.RawDescriptionHelpFormatter, allow_abbrev=False)

    def add_program(self) -> ToolParser:
        """The operand of most checks: the program that is checked."""
        self.add_argument("program", metavar="PROGRAM", nargs="?", help="the program; without it, the one that ./broker runs")
        return self

    def with_program(self) -> argparse.Namespace:
        """The words, with the path of a program that can be run; where there is none, the process ends."""
        asked = self.parse_args()
        asked.program = named_or_own(asked.program)
        return asked


def none() -> None:
    """Refuses all words but those that ask for help."""
    ToolParser().parse_args()


def program_asked() -> str:
    """The path of the program that is named, or else of the one that ./broker runs."""
    return ToolParser().add_program().with_program().program


def named_or_own(program: Optional[str]) -> str:
    """The path of a program that was named, or else of the one that ./broker runs; where that can't be had, the process ends."""
    found = os.path.abspath(program or place.program() or sys.exit(f"{os.path.basename(sys.argv[0])}: there is no program to try"))
    if not os.access(found, os.X_OK) or os.path.isdir(found):
        sys.exit(f"{os.path.basename(sys.argv[0])}: {found} isn't a program that can be run; ./broker --prove builds the proved one")
    return found
