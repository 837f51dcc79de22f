"""What a script that was made of a trace has and leaves out, and its text."""
from __future__ import annotations

from collections import Counter
from typing import Any, List

from tools.commands.real_workloads.processes import MAKERS
from tools.commands.real_workloads.script_lines import plain
from tools.commands.real_workloads.script_text import CALLS, FIRST_ADDRESS, FIRST_PAGES, MOST_PAGES
from tools.commands.real_workloads.tasks import PAGES_OF_A_TASK
from tools.commands.real_workloads.workload import KILLS, NO_FORM, WAITS, WANTED, Workload


def counted(counter: Any) -> str:
    return ", ".join(f"{name} {count:,}" for name, count in sorted(counter.items(), key=lambda it: (-it[1], it[0])))


def findings(made: Workload) -> List[str]:
    """What the script has and what it leaves out, a line each."""
    trace = made.trace
    found = [f"from {trace.lines:,} lines of strace: {len(made.all):,} tasks, {sum(made.written.values()):,} calls: {counted(made.written) or 'none'}"]
    for why in sorted({why for _, why in made.left_out}):
        found.append(f"left out, with a line in its place ({why}): {counted({name: it for (name, other), it in made.left_out.items() if other == why})}")
    unwritten = Counter(trace.other_calls) + of_no_form(made)
    if unwritten:
        found.append(f"left out, since a script has no such call: {counted(unwritten)}")
    found += [f"{what}: {count:,}" for what, count in sorted(made.remarks.items()) if count]
    if any(made.tree.left_out):
        needed, others = made.tree.left_out
        found.append(f"paths that don't fit into the tree: {needed:,} of calls of the script, {others:,} of others")
    if trace.unreadable or trace.resumed_alone:
        found.append(f"lines that can't be read: {trace.unreadable + trace.resumed_alone:,}")
    if made.cut_at is not None:
        found.append(f"cut before line {made.cut_at:,}: a script would have more than {made.cut_by} with it")
    return found


def of_no_form(made: Workload) -> Any:
    """How often the calls were made that are looked at for what they tell alone."""
    silent = WANTED - set(CALLS) - NO_FORM - MAKERS - set(WAITS) - set(KILLS)
    return Counter(item.of.name for item in made.trace.items if item.what in ("call", "begin") and item.of.name in silent)


def script(made: Workload, filters: List[str]) -> List[str]:
    """The lines of the script. `filters` are those of its filters."""
    return [*settings(made), *filters, *programs(made)]


def settings(made: Workload) -> List[str]:
    """What it found out, and the settings but for the filters."""
    tree = made.tree.lines()
    return [*(f"# {it}" for it in findings(made)), "", *tree, *made.tree.finds.lines(made.tree), *made.figures, *pages(made)]


def programs(made: Workload) -> List[str]:
    """The programs of the script and its schedule."""
    lines = []
    for task in reversed(made.all):
        executed = f": {plain(', '.join(task.process.programs))}" if task.process and task.process.programs else ""
        lines += ["", *([f"# process {task.process.pid}{executed}"] if task.process else []), f"prog {task.program}", *task.lines, "end"]
    return lines + ["", *made.schedule.lines()]


def pages(made: Workload) -> List[Any]:
    """The memory that is mapped, where tasks that share it need more than a script has without a line."""
    needed = PAGES_OF_A_TASK * (1 + max((task.slot for task in made.all), default=0))
    return [f"map 0x{FIRST_ADDRESS:x} {MOST_PAGES}"] if needed > FIRST_PAGES else []
