"""Prints the path of the program that ./broker runs: the proved one where it is built and no source is newer, else a trial build.

    tools/commands/program

A trial build isn't proved, as it then says on standard error. The first call for these sources makes it, in one to two minutes. Without the
toolchain it is the program of an installed package, where that is made of these sources.

Exit status: 0 with a path; 1 if a trial build can't be kept; 2 or more if none can be made. Standard error says why.
"""
from __future__ import annotations

from tools.commands.command_line import arguments, checkout, trial


def main() -> int:
    arguments.none()
    try:
        print(checkout.program())
    except (trial.NotKept, trial.NotMade) as fault:
        trial.say(str(fault))
        return 1 if isinstance(fault, trial.NotKept) else 2
    return 0
