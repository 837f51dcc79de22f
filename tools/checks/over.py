"""The command over another program, for checks: tools/checks/over PROGRAM WORD .."""
from __future__ import annotations

import sys
from typing import Optional

from tools.commands.command_line import arguments, command


def main() -> Optional[int]:
    if sys.argv[1:2] == [] or sys.argv[1].startswith("-"):
        # (all words after the program are the command's own)
        arguments.none()
    return command.main(sys.argv[2:], lambda: sys.argv[1])
