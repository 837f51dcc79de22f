"""Tries the names of differences: an outcome of a report is changed into another one, and may not get a name for that.

Whatever the trace explains, the play's own answer has it already. So a changed answer is excused only where nothing in the script tells it from the
play's own: another number of a descriptor, and a call whose answer nobody saw in the trace.
"""
from __future__ import annotations

from dataclasses import replace
from typing import Any, List, NamedTuple, Tuple

from tools.commands.real_workloads import answers, difference_names

# what an outcome is changed into
OUTCOMES = ("0", "7", "ENOENT", "EEXIST", "ENOTDIR", "EISDIR", "ELOOP", "ENAMETOOLONG", "EPERM", "EACCES", "EROFS", "EBADF", "EMFILE", "EINVAL", "EFAULT", "E2BIG",
            "ERANGE", "ENODATA", "ENODEV", "ENXIO", "EBUSY", "ENOSPC", "EOPNOTSUPP", "ENOSYS", "EINTR", "ended", "open")


class Excused(NamedTuple):
    """A changed outcome that got a name."""

    line: int
    call: str
    traced: str
    play: str
    changed: str
    name: str


def is_alike(made, outcome):
    """Whether an outcome is as good as the one of the trace, or as the one of the play."""
    play, changed = answers.number_of(made.play), answers.number_of(outcome)
    are_numbers = made.name in ("openat", "getpid") and None not in (play, changed) and play >= 0 and changed >= 0
    return outcome == made.play or are_numbers or answers.is_same(replace(made, play=outcome)) or made.real == "?"


def tried(script_text: str, report_text: str) -> Tuple[int, List[Any]]:
    """How many outcomes were changed, and those that got a name."""
    script = answers.Script(script_text)
    calls = answers.paired(script, answers.Report(report_text))
    naming, count, excused = difference_names.Naming(script.unmounted), 0, []
    for made in calls:
        for outcome in OUTCOMES:
            if made.play == "" or is_alike(made, outcome) or outcome == "open" and made.is_last:
                continue
            count += 1
            name = naming.found(replace(made, play=outcome))
            if name:
                excused.append(Excused(made.line, made.name, made.real, made.play, outcome, name))
        naming.name(made)
    return count, excused
