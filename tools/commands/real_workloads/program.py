"""Where the program is that the tools try."""
from __future__ import annotations

import os
import sys

from tools.commands.command_line.top import TOP

BUILT = f"{TOP}/crates/seccomp_broker/out/seccomp_broker"


def needed(path: str, tool: str) -> None:
    """Ends the tool with a line where the program isn't there."""
    if not os.access(path, os.X_OK):
        sys.exit(f"{tool}: {path} isn't there; ./broker --prove builds it")
