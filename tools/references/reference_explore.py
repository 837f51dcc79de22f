"""Explores a script as `explore` does, slowly, and knows only what `play` prints.

    tools/references/reference-explore [--program PATH] POLICY SCRIPT WORKERS DELAYS
    tools/references/reference-explore [--program PATH] --play OUTPUT POLICY SCRIPT

Who is able to step is found by playing: a schedule that leads to a place, and then each actor in turn, up to the first that doesn't skip.
All histories within the bound are made first, and put in order afterwards. The second form puts each schedule of an output of `explore`
into the script, plays it, and compares what came of its calls with the lines above the schedule.
"""
from __future__ import annotations

import sys
from pathlib import Path

from tools.commands.command_line import arguments
from tools.commands.command_line.arguments import ToolParser
from tools.commands.explored import Broker, Explorer, NotPlayed, faults_in


def main() -> None:
    parser = ToolParser()
    parser.add_argument("--program")
    parser.add_argument("--play", metavar="OUTPUT")
    parser.add_argument("files", nargs="+")
    asked = parser.parse_args()
    if len(asked.files) != (2 if asked.play else 4):
        sys.exit(__doc__)
    program = arguments.named_or_own(asked.program)
    broker = Broker(program, *asked.files[:2])
    try:
        if asked.play:
            sys.exit("\n".join(faults_in(broker, Path(asked.play).read_text("latin-1"))) or None)
        workers, delays = asked.files[2:]
        sys.stdout.write(Explorer(broker, int(workers), None if delays == "all" else int(delays)).text())
    except NotPlayed as error:
        sys.exit(str(error))
