"""Makes the largest inputs that the limits of docs/reference/SCRIPT.md allow, and tries the program on them.

    tools/checks/greatest-inputs list                        says what each is, and what its summary must be
    tools/checks/greatest-inputs make NAME FOLDER            writes policy.json and script.txt, and prints the summary that must come
    tools/checks/greatest-inputs check PROGRAM [NAME ..]     plays them, or all if none is named, and prints the time and memory of each
    tools/checks/greatest-inputs edges PROGRAM               plays nothing: tries that all are accepted, and that for each limit the greatest
                                                      number is accepted and one more is refused

What is expected is counted while the script is written (bench/inputs.py), and never taken from the program. --divide N makes each input
smaller, for a slow program.
"""
from __future__ import annotations

import os
import sys
import tempfile
from argparse import Namespace
from itertools import chain
from typing import Any, Callable

from bench.edges import edges
from bench.inputs import GREATEST
from bench.measure import measured, memory, program_or_exit
from tools.commands.command_line.arguments import ToolParser


PLAY = ["play", "policy.json", "script.txt"]


def arguments() -> Namespace:
    parser = ToolParser()
    parser.add_argument("command", choices=COMMANDS)
    parser.add_argument("words", nargs="*", metavar="WORD", help="the words of the command, as above")
    parser.add_argument("--limit", type=float, default=300, help="seconds that a play may take (%(default)s)")
    parser.add_argument("--memory", type=int, default=4000, help="MB of address space that the program may have (%(default)s)")
    parser.add_argument("--divide", type=int, default=1, help="divides each size by this, 1 to 1000 (%(default)s)")
    asked = parser.parse_intermixed_args()
    least, most = {"list": (0, 0), "make": (2, 2), "check": (1, 1 + len(GREATEST)), "edges": (1, 1)}[asked.command]
    if not 1 <= asked.divide <= 1000:
        parser.error("--divide is 1 to 1000")
    if not least <= len(asked.words) <= most:
        parser.error(f"{asked.command} takes other words")
    return asked


def input_named(name: str) -> Callable[..., Any]:
    if name not in GREATEST:
        sys.exit(f"greatest-inputs: no input has the name {name}: they are {', '.join(GREATEST)}")
    return GREATEST[name]


def tell(asked):
    """Tells what each input is, what its last program comes to, and its summary."""
    for name, make in GREATEST.items():
        made = make(asked.divide)
        counts = ", ".join(f"{it} {count:,}" for it, count in made.totals().items())
        print(f"{name}: {' '.join(make.__doc__.split())}.\n    {counts}, steps {made.steps():,}\n    {made.summary()}")
    return 0


def make(asked: Namespace) -> int:
    name, folder = asked.words
    made = input_named(name)(asked.divide)
    os.makedirs(folder, exist_ok=True)
    made.write(folder)
    print(made.summary())
    return 0


def wrong(run, limit, made):
    """What is wrong about a run, or nothing."""
    if run["over"]:
        return f"ended after {limit:g} s"
    if run["status"] != 0 or run["said"]:
        return f"status {run['status']}: {run['said']}"
    if run["first"] != f"journal {made.counts['events']}":
        return f"first line: {run['first']}"
    return "" if run["last"] == made.summary() else f"last line: {run['last']}, expected {made.summary()}"


def check(asked):
    """Plays the inputs, and prints a row for each. The exit status is 1 where one isn't as it should be."""
    program, *names = asked.words
    program_or_exit("greatest-inputs", program)
    inputs = {name: input_named(name) for name in names or GREATEST}
    print("| input | events | report, bytes | wall, s | processor, s | memory, MB | as expected |\n|---|---|---|---|---|---|---|")
    failed = 0
    for name, make_input in inputs.items():
        made = make_input(asked.divide)
        with tempfile.TemporaryDirectory(prefix="greatest-") as room:
            made.write(room)
            run = measured(program, PLAY, room, asked.limit, asked.memory)
        fault = wrong(run, asked.limit, made)
        failed += bool(fault)
        took = f"{run['wall']:.3f} | {run['processor']:.3f} | {memory(run)}"
        print(f"| {name} | {made.counts['events']:,} | {run['printed']:,} | {took} | {fault or 'yes'} |", flush=True)
    return int(failed > 0)


def accepted():
    """Each input with a line behind it that has no meaning. Where that line is the first to be refused, the input is accepted."""
    for name, make_input in GREATEST.items():
        made = make_input(1)
        lines = [*made.script(), "nonsense"]
        yield name, made.written_policy(), "\n".join(lines), 5, f"script: line {len(lines)}: unknown word"


def check_edges(asked):
    """Tries each limit from both sides, and that each input is accepted. Nothing is played."""
    program = program_or_exit("greatest-inputs", *asked.words)
    tried, failed = 0, 0
    for what, policy, script, status, said in chain(edges(), accepted()):
        with tempfile.TemporaryDirectory(prefix="edges-") as room:
            for name, text in (("policy.json", policy), ("script.txt", script)):
                with open(f"{room}/{name}", "w") as file:
                    file.write(text)
            run = measured(program, PLAY, room, asked.limit, asked.memory)
        tried += 1
        if (run["status"], run["said"], run["printed"]) != (status, said, 0):
            failed += 1
            print(f"greatest-inputs: {what}: status {run['status']}: {run['said']}, expected {status}: {said}")
    print(f"greatest-inputs: {tried - failed} inputs accepted or refused as expected, {failed} not")
    return int(failed > 0)


COMMANDS = {"list": tell, "make": make, "check": check, "edges": check_edges}


def main() -> int:
    asked = arguments()
    return COMMANDS[asked.command](asked)
