"""Tries the cases, the examples, the commands of the README and the guides, what is said of mistakes and of test files, and the links of all documents, over what ./broker runs.

    tools/checks/quick-check

It proves nothing, and isn't the gate, which is .ci/run: it tells whether the program works on this machine, and whether a case that was
changed is as it should be. While ./broker runs a trial build that isn't optimised, the greatest inputs are played at a hundredth of their
size, and the checks of the longest reports are left out.

Exit status: 0 where all passed, else 1. The last line is `N passed, N failed`.
"""
import os
import re
import subprocess

from tools.commands.command_line import arguments, trial
from tools.commands.command_line.top import TOP

DIVIDE = "100"
LONGEST = ["cases/reports-checked/fault-just-short-enough", "cases/reports-checked/fault-too-long"]


def outcome(command, environment):
    """How many passed and failed of what a command tries. What it says is printed."""
    ended = subprocess.run(command, cwd=TOP, env=environment, stdin=subprocess.DEVNULL, stdout=subprocess.PIPE, text=True)
    print(ended.stdout, end="", flush=True)
    counted = re.search(r": (\d+) passed, (\d+) failed\n\Z", ended.stdout)
    return (int(counted.group(1)), int(counted.group(2))) if counted else (0, 1)


def main():
    arguments.none()
    program, left_out, environment = arguments.named_or_own(None), [], dict(os.environ)
    if os.path.basename(program) == trial.CHECKED:
        left_out, environment["DIVIDE"] = LONGEST, DIVIDE
        print(f"quick-check: this trial build is slow, so {len(LONGEST)} are left out ({', '.join(LONGEST)}), and the greatest inputs are "
              f"played at 1/{DIVIDE} of their size", flush=True)
    commands = [["tools/checks/cases", program, *left_out], ["tools/checks/check-commands", program], ["tools/checks/check-messages", program], ["tools/checks/check-tests", program],
                ["tools/checks/check-links"]]
    passed, failed = map(sum, zip(*[outcome(command, environment) for command in commands]))
    print(f"{passed} passed, {failed} failed")
    return failed > 0
