"""Writes the table of docs/reference/AGENTS.md that says which calls the library of `make-shim` answers, passes and tells, from its own list, lib/shim/call_list.h.

    tools/upkeep/guard-table           writes it, between the page's two marks
    tools/upkeep/guard-table --check   says where the page has another one

Exit status: 0 where the page has the table, 1 where it doesn't, or the list can't be read.
"""
from __future__ import annotations

import re
from typing import Iterator, List, Tuple

from tools.commands.command_line.arguments import ToolParser
from tools.commands.command_line.top import TOP

PAGE, LIST = TOP / "docs/reference/AGENTS.md", TOP / "lib/shim/call_list.h"
BEGIN, END = "<!-- from lib/shim/call_list.h, by tools/upkeep/guard-table -->\n", "<!-- end of the table -->\n"
HEAD = "| of | answered | passed | refused | calls |\n|---|---|---|---|---|\n"
GROUP = re.compile(r'^GROUP\("(.*?)", "(.*?)", "(.*?)", "(.*?)"\)$', re.M)
CALL = re.compile(r"\bCALL\((\w+), (\w+), ")
# which of the calls a row names, by their classes: of the machine's all are told
CLASSES = {"PASS", "LOOK", "OWN", "NEVER"}


class Fault(Exception):
    """The list or the page isn't as it should be; the argument says why."""


def rows(text: str) -> Iterator[Tuple[str, str, str, str, List[str]]]:
    """The groups, each with its three texts and its calls."""
    parts = GROUP.split(text)[1:]
    for title, answered, passed, told, calls in zip(*[iter(parts)] * 5):
        found = CALL.findall(calls)
        if not found or {kind for _, kind in found} - CLASSES:
            raise Fault(f"the group {title} isn't understood")
        yield title, answered, passed, told, [name for name, _ in found]


def table(text: str) -> str:
    lines = (f"| **{title}** | {answered} | {passed} | {told} | {' '.join(f'`{name}`' for name in calls)} |\n" for title, answered, passed, told, calls in rows(text))
    return HEAD + "".join(lines)


def main() -> int:
    parser = ToolParser()
    parser.add_argument("--check", action="store_true", help="says where the page has another table, and writes nothing")
    is_checked = parser.parse_args().check
    page = PAGE.read_text(encoding="utf-8")
    head, begin, rest = page.partition(BEGIN)
    _, end, tail = rest.partition(END)
    try:
        if not begin or not end:
            raise Fault(f"{PAGE.name} has no place for the table")
        made = f"{head}{BEGIN}\n{table(LIST.read_text(encoding='utf-8'))}\n{END}{tail}"
        if made != page and is_checked:
            raise Fault(f"{PAGE.name} has another table: run tools/upkeep/guard-table")
    except Fault as fault:
        print(f"guard-table: {fault}")
        return 1
    if made != page:
        PAGE.write_text(made, encoding="utf-8")
    return 0
