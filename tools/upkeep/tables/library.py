"""The functions of the C library, as C_LIBRARY has them: of its header."""
from __future__ import annotations

import re

from tools.commands.command_line.top import TOP

HEADER = "include/seccomp_broker.h"
FUNCTION = re.compile(r"^enum broker_status broker_\w+\(.*?\);$", re.M | re.S)


def functions() -> str:
    return "```c\n" + "\n\n".join(FUNCTION.findall((TOP / HEADER).read_text(encoding="utf-8"))) + "\n```\n"
