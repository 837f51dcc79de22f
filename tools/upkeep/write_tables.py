"""Writes the parts of documents that are made of tables: commands, calls, the parts of a rule, the lines of a script, refusals, clauses, functions of the C library, and differences from traces and from Linux.

    tools/upkeep/write-tables           writes them, each between its two marks
    tools/upkeep/write-tables --check   says which pages have others

Exit status: 0 if all pages have them, 1 if one doesn't, or if a row is at fault.
"""
from __future__ import annotations

import sys
from typing import Iterator

from tools.commands.command_line.arguments import ToolParser
from tools.commands.command_line.top import TOP
from tools.upkeep.tables import calls, clauses, commands, library, linux, page, policies, refusals, scripts, traces
from tools.upkeep.tables.page import Table

REFERENCE, WORDS, DIFFERENCES = "docs/reference", "tools/commands/messages/policy_words.py", "tools/commands/linux_stage/differences.json"
TABLES = (
    Table(f"{REFERENCE}/COMMANDS.md", "the commands", "tools/commands/command_line/words.json", commands.sections),
    Table(f"{REFERENCE}/POLICY.md", "the conditions", WORDS, policies.conditions),
    Table(f"{REFERENCE}/POLICY.md", "the flags", WORDS, policies.flags),
    Table(f"{REFERENCE}/POLICY.md", "the answers", WORDS, policies.answers),
    Table(f"{REFERENCE}/POLICY.md", "the errors", WORDS, policies.errors),
    Table(f"{REFERENCE}/SCRIPT.md", "the settings", "tools/commands/messages/script_words.py", scripts.settings),
    Table(f"{REFERENCE}/SCRIPT.md", "the instructions", "tools/commands/messages/script_words.py", scripts.programs),
    Table(f"{REFERENCE}/SCRIPT.md", "the calls", calls.SOURCE, calls.table),
    Table(f"{REFERENCE}/STATUSES.md", "the usage line", refusals.LINES, refusals.usage),
    Table(f"{REFERENCE}/STATUSES.md", "the refusals of a script", "tools/commands/messages/scripts.py", refusals.of_scripts),
    Table(f"{REFERENCE}/STATUSES.md", "the refusals of a file of calls", "tools/commands/messages/calls.py", refusals.of_calls),
    Table(f"{REFERENCE}/OUTPUTS.md", "the lines of calls", "tools/commands/messages/calls.py", calls.lines),
    Table(f"{REFERENCE}/OUTPUTS.md", "the differences from a trace", "tools/commands/real_workloads/difference_texts.py", traces.differences),
    Table(f"{REFERENCE}/C_LIBRARY.md", "the functions", library.HEADER, library.functions),
    Table(f"{REFERENCE}/CLAUSES.md", "the clauses", clauses.SOURCE, clauses.table),
    Table(f"{REFERENCE}/CLAUSES.md", "the mistakes", clauses.SOURCE, clauses.sections),
    Table("docs/LINUX.md", "the differences", DIFFERENCES, linux.short_tables),
    Table("docs/inside/LINUX_MEASURED.md", "the differences", DIFFERENCES, linux.long_tables),
)


def faults(check: bool) -> Iterator[str]:
    """What is wrong; each page that has other tables is written, unless it is only checked."""
    yield from linux.faults()
    for name in sorted({it.page for it in TABLES}):
        path = TOP / name
        before = text = path.read_text(encoding="utf-8")
        for table in (it for it in TABLES if it.page == name):
            made = page.written(table, text)
            if made is None:
                yield f"{name} has no place for {table.name}"
            text = made or text
        if text != before and check:
            yield f"{name} has other tables: call tools/upkeep/write-tables"
        elif text != before:
            path.write_text(text, encoding="utf-8")


def main() -> int:
    parser = ToolParser()
    parser.add_argument("--check", action="store_true", help="changes nothing, and says if it would")
    found = list(faults(parser.parse_args().check))
    print("".join(f"write-tables: {text}\n" for text in found), end="", file=sys.stderr)
    return 1 if found else 0
