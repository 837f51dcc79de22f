"""Plays each case and example of a play with workers that are replaced after each step, and after every second, third and seventh.

    tools/checks/replace-workers [PROGRAM [LEFT-OUT ..]]

The output must be that of the play, then `handovers N` and N lines of ledgers: at the places, by the workers and with the counts that the
journal says, each a text that its own values give again. A case is left out by its folder, with those below it: cases/greatest-inputs.
Status 0 where all are so; else the runs at fault are listed. It isn't part of the gate.
"""
import os
import subprocess
import tempfile

from tools.checks import known, replaced
from tools.commands.command_line.arguments import ToolParser
from tools.commands.explored import has_requests


def is_left_out(folder, room, left_out):
    """Whether a folder of the room is one of these, or below one."""
    return any(f"{folder}/".startswith(f"{room}/{name}/") for name in left_out)


def plays(room):
    """The folders of the cases and examples whose words ask for a play by this project's own worker."""
    known.copied(room)
    for folder, _, files in os.walk(f"{room}/examples"):
        if "policy.json" in files:
            yield folder, ["policy.json", "script.txt"]
    for folder, _, files in sorted(os.walk(f"{room}/cases")):
        words = open(f"{folder}/args").read().splitlines() if "args" in files else []
        if words[:1] == ["play"] and len(words) == 3 and not is_of_requests(f"{folder}/{words[2]}"):
            yield folder, words[1:]


def is_of_requests(path):
    """Whether a script has a schedule of another broker's requests, which is refused."""
    if not os.path.isfile(path):
        return False
    with open(path, "rb") as file:
        return has_requests(file.read())


def fault(report, out, every):
    """What is wrong with an output, if anything is."""
    return replaced.fault(report, out[len(report):], every) if out.startswith(report) else "another report"


def main():
    parser = ToolParser().add_program()
    parser.add_argument("left_out", metavar="LEFT-OUT", nargs="*")
    asked = parser.with_program()
    program, left_out, runs, faults = asked.program, asked.left_out, 0, 0
    with tempfile.TemporaryDirectory() as room:
        for folder, files in plays(room):
            if is_left_out(folder, room, left_out):
                continue
            play = subprocess.run([program, "play", *files], cwd=folder, capture_output=True)
            for every in (1, 2, 3, 7):
                run = subprocess.run([program, "handover", *files, str(every)], cwd=folder, capture_output=True)
                same = (run.returncode, run.stderr) == (play.returncode, play.stderr)
                wrong = fault(play.stdout, run.stdout, every) if same and play.returncode == 0 else None if same else "another status"
                runs += 1
                if wrong:
                    faults += 1
                    print(f"{os.path.relpath(folder, room)} {every}: {wrong}")
    print(f"{runs} runs, {faults} at fault")
    return 1 if faults else 0
