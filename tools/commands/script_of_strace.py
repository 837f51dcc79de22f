"""Makes a script of a trace of strace: the processes as programs, their calls in their order, and what they found as the tree.

`./broker help script-of-strace` has its words.
"""
from __future__ import annotations

import argparse
import sys
from argparse import Namespace
from typing import TYPE_CHECKING, List, Optional, Tuple

from tools.commands.command_line import written
from tools.commands.command_line.arguments import Parser
from tools.commands.command_line.ending import reason
from tools.commands.real_workloads import bpf, findings, strace_text, workload
from tools.commands.real_workloads.script_text import CALLS, MOST_BYTES, MOST_FILTERS

if TYPE_CHECKING:
    from tools.commands.real_workloads.strace_text import Trace

NOTIFIED = "mknod,mknodat,mount,setxattr,sysinfo"


def names_of_calls(text: str) -> List[str]:
    names = [it for it in text.replace(",", " ").split() if it]
    unknown = [it for it in names if it not in CALLS]
    if unknown or not names:
        raise argparse.ArgumentTypeError(f"a script has no call {unknown[0]!r}; it has {', '.join(CALLS)}" if unknown else "no call is named")
    return names


def range_of_lines(text: str) -> Tuple[int, int]:
    first, _, last = text.partition("-")
    try:
        return int(first or 1), int(last or 2**63)
    except ValueError as fault:
        raise argparse.ArgumentTypeError(f"{text!r} isn't FROM-TO") from fault


def at_least_one(text: str) -> int:
    if not text.isdigit() or int(text) == 0:
        raise argparse.ArgumentTypeError(f"{text!r} isn't a number from 1 on")
    return int(text)


def words() -> Namespace:
    parser = Parser("script-of-strace")
    parser.add_argument("trace", metavar="TRACE")
    parser.add_argument("-o", dest="script", metavar="SCRIPT", help="the file to write")
    parser.add_argument("--notify", type=names_of_calls, default=names_of_calls(NOTIFIED), metavar="CALLS", help=f"notified calls; {NOTIFIED} where nothing is said")
    parser.add_argument("--filters", metavar="FILE", help="filters in place of that, as tools/commands/filter-of-profile and tools/commands/filter-of-process write them")
    parser.add_argument("--calls", type=names_of_calls, default=list(CALLS), metavar="CALLS", help="the calls that are taken; all where nothing is said")
    parser.add_argument("--process", type=int, action="append", default=[], metavar="PID", help="a process that is taken, with all that it starts")
    parser.add_argument("--lines", type=range_of_lines, default=(1, 2**63), metavar="FROM-TO", help="the lines of the trace from which calls are taken")
    parser.add_argument("--most", type=at_least_one, default=2**63, metavar="N", help="how many calls are taken")
    return parser.parse_args()


def failed(text: str) -> None:
    sys.exit(f"script-of-strace: {text}")


def filters_of(asked: Namespace) -> Tuple[List[bpf.Filter], List[str]]:
    """The filters, and the lines that state them."""
    if asked.filters is None:
        return [bpf.Filter(bpf.notify_filter([CALLS[it] for it in asked.notify]), True)], [f"notify {' '.join(asked.notify)}"]
    try:
        with open(asked.filters, encoding="utf-8") as file:
            text = file.read(MOST_BYTES + 1)
    except OSError as fault:
        failed(f"{asked.filters}: {reason(fault)}")
    except ValueError:
        failed(f"{asked.filters}: it is not UTF-8")
    if len(text) > MOST_BYTES:
        failed(f"{asked.filters}: filters of a script have at most {MOST_BYTES} bytes")
    try:
        filters = bpf.read_blocks(text)
    except (ValueError, KeyError) as fault:
        failed(f"{asked.filters}: {fault}")
    wrong = next((why for it in filters if (why := bpf.unwritable(it.instructions))), None)
    if wrong or len(filters) > MOST_FILTERS:
        failed(f"{asked.filters}: {wrong or f'{len(filters)} filters, and a script has at most {MOST_FILTERS}'}")
    return filters, text.splitlines()


def trace_of(name: str) -> Trace:
    """The trace of a file."""
    if name == "-":
        return strace_text.read(sys.stdin.buffer, workload.WANTED)
    with open(name, "rb") as file:
        return strace_text.read(file, workload.WANTED)


def main() -> None:
    asked = words()
    try:
        filters, lines_of_filters = filters_of(asked)
        trace = trace_of(asked.trace)
    except OSError as fault:
        failed(f"{fault.filename}: {reason(fault)}")
    if trace.read == 0 or not trace.items and not trace.other_calls:
        failed(f"{asked.trace}: no line in it is a call as strace prints it")
    made = workload.Workload(trace, workload.Options(set(asked.calls), filters, set(asked.process), asked.lines, asked.most))
    if not made.all:
        failed(f"{asked.trace}: it has no process of that number")
    text = "\n".join(findings.script(made, lines_of_filters)) + "\n"
    if len(text.encode("latin-1")) > MOST_BYTES:
        failed(f"the script would have more than {MOST_BYTES} bytes; --calls, --process, --lines and --most take less")
    write(asked.script, text)
    print("\n".join(f"script-of-strace: {it}" for it in findings.findings(made)), file=sys.stderr)


def write(name: Optional[str], text: str) -> None:
    if name is None:
        print(text, end="", flush=True)
        return
    try:
        written.write(name, text.encode("latin-1"))
    except OSError as fault:
        failed(f"{name}: {reason(fault)}")
