"""Says what a policy made of each call of a trace, and where the play's answer isn't the one that the trace has. `./broker help compare-with-trace` has its words."""
from __future__ import annotations

import sys
from argparse import Namespace
from collections import Counter
from typing import List, Tuple

from tools.commands.command_line.arguments import Parser
from tools.commands.command_line.ending import reason
from tools.commands.messages.refusals import LIMITS
from tools.commands.real_workloads import answers, difference_names, difference_texts

TOOL = "compare-with-trace"
WIDEST = 72
HEADS = ("line", "process", "call", "traced", "play", "decided by", "difference")


def words() -> Namespace:
    parser = Parser(TOOL)
    parser.add_argument("script", metavar="SCRIPT")
    parser.add_argument("report", metavar="REPORT")
    parser.add_argument("--differences", action="store_true", help="calls whose answers differ, alone")
    return parser.parse_args()


def read(name: str, kind: str) -> str:
    """The text of a script or a report, with at most as many bytes as one has."""
    try:
        with open(name, "rb") as file:
            data = file.read(LIMITS[kind] + 1)
    except OSError as fault:
        sys.exit(f"{TOOL}: {name}: {reason(fault)}")
    if len(data) > LIMITS[kind]:
        sys.exit(f"{TOOL}: {name}: a {kind} has at most {LIMITS[kind]} bytes")
    return data.decode("latin-1").replace("\r\n", "\n")


def row(made: answers.Made) -> Tuple[str, ...]:
    call = f"{made.name}({answers.shown_arguments(made)})"
    call = call if len(call) <= WIDEST else call[:WIDEST - 3] + "..."
    return str(made.line), made.program, call, made.real, made.play or "-", made.by or "-", made.difference


def table(rows: List[Tuple[str, ...]]) -> List[str]:
    """The rows in columns that are as wide as their widest text."""
    widths = [max(map(len, column)) for column in zip(*rows)]
    return ["  ".join(text.ljust(width) for text, width in zip(it, widths)).rstrip() for it in rows]


def main() -> bool:
    asked = words()
    script = answers.Script(read(asked.script, "script"))
    try:
        calls = answers.paired(script, answers.Report(read(asked.report, "report")))
    except (ValueError, KeyError) as fault:
        sys.exit(f"{TOOL}: {asked.report} isn't a report of {asked.script}: {fault}")
    naming = difference_names.Naming(script.unmounted)
    for made in calls:
        naming.name(made)
    chosen = [made for made in calls if made.difference or not asked.differences]
    print("\n".join(table([HEADS, *map(row, chosen)])))
    found = Counter(made.difference for made in calls if made.difference)
    differ = sum(found.values())
    print(f"\n{len(calls)} calls, {len(calls) - differ} answered as in the trace, {differ} differently; {script.left_out} left out with a line in their place")
    if found:
        print("\n".join(["", *table([("difference", "calls", "cause"), *((name, str(count), difference_texts.text_of_class(name)) for name, count in found.most_common())])]))
    return "?" in found
