"""The refusals of a script and of a file of calls, as STATUSES has them: of the tables by which they are explained. And the usage line, of the definition that the proofs cite."""
from __future__ import annotations

import re
from typing import Dict

from tools.commands.command_line.top import TOP
from tools.commands.messages import calls, scripts
from tools.upkeep.tables.page import rows

LINES = "crates/broker_app/specs/Lines.antt"
USAGE, TEXT = re.compile(r"^line_of Usage =\n(.*?)\nline_of ", re.M | re.S), re.compile(r'codes "([^"]*)"')


def meanings(plain: Dict[str, str]) -> str:
    return rows(("reason", "meaning"), [(f"`{reason}`", meaning) for reason, meaning in plain.items()])


def usage() -> str:
    """The line of wrong arguments, in a block."""
    found = USAGE.search((TOP / LINES).read_text(encoding="utf-8"))
    if found is None:
        raise ValueError(f"{LINES} has no usage line")
    line = "".join(TEXT.findall(found[1])).replace("\\n", "")
    return f"```\n{line}\n```\n"


def of_scripts() -> str:
    return meanings(scripts.PLAIN)


def of_calls() -> str:
    return meanings(calls.PLAIN)
