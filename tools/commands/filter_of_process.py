"""Writes the seccomp filters that a running process has as the filters of a script. `./broker help filter-of-process` has its words."""
from __future__ import annotations

import sys
from argparse import Namespace
from typing import List, NoReturn, Optional

from tools.commands.command_line import written
from tools.commands.command_line.arguments import Parser
from tools.commands.real_workloads import bpf, tracing
from tools.commands.real_workloads.script_text import MOST_FILTERS

TOOL = "filter-of-process"


def words() -> Namespace:
    parser = Parser(TOOL)
    parser.add_argument("pid", type=int, metavar="PID")
    parser.add_argument("-o", dest="file", metavar="FILE", help="the file to write")
    parser.add_argument("--listener", type=int, metavar="N", help="the filter that has the listener, from 1")
    return parser.parse_args()


def failed(text: str) -> NoReturn:
    sys.exit(f"{TOOL}: {text}")


def listener_of(filters: List[List[bpf.Instruction]], asked: Namespace) -> Optional[int]:
    """The place of the filter with the listener, from 0, or None."""
    if asked.listener is not None:
        if not 1 <= asked.listener <= len(filters):
            failed(f"there are {len(filters)} filters, and no number {asked.listener}")
        return asked.listener - 1
    places = [at for at, it in enumerate(filters) if bpf.answers(it, bpf.NOTIFY)]
    return max(places) if places else None


def main() -> None:
    asked = words()
    try:
        filters = [bpf.from_bytes(raw) for raw in tracing.filters_of(asked.pid)]
    except tracing.Refused as fault:
        failed(str(fault))
    if not filters:
        failed(f"process {asked.pid} has no filter")
    if len(filters) > MOST_FILTERS:
        failed(f"process {asked.pid} has {len(filters)} filters, and a script at most {MOST_FILTERS}")
    for at, it in enumerate(filters, 1):
        if why := bpf.unwritable(it):
            failed(f"filter {at} of process {asked.pid}: {why}")
    listener = listener_of(filters, asked)
    text = "".join("\n".join([f"# filter {at + 1} of {len(filters)}", *bpf.block(it, at == listener)]) + "\n" for at, it in enumerate(filters))
    if asked.file is None:
        print(text, end="", flush=True)
    else:
        written.write(asked.file, text.encode("ascii"))
    said = "none of them notifies a call" if listener is None else f"filter {listener + 1} is taken for the one with the listener"
    print(f"filter-of-process: {len(filters)} filters of {', '.join(str(len(it)) for it in filters)} instructions; {said}", file=sys.stderr)
