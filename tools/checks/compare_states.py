"""Compares what `explore` prints with what tools/references/reference-states does, and says which fields its key needs.

    tools/checks/compare-states [--program PATH] [--drawn N] [--trees N] [--wide N] [--seed N] [--seconds S] [--states N] [--no-cases]
    tools/checks/compare-states --alone [--drawn N] [--trees N] [--wide N] [--seed N] [--states N]
    tools/checks/compare-states --shown [FIELD ..]
    tools/checks/compare-states --fields [FIELD ..] [--wide N] [--seed N] [--states N] [--save FOLDER]

The first form explores all cases and examples, and scripts that are drawn, with WORKERS 0 and 1 and with each of the bounds 0 to 3 and `all`. An exploration is
left out where the program takes longer than --seconds or explores a part alone, or where there are more than --states states. The others don't need the program.
The second compares joined histories with the same ones one by one. The third explores the scripts that show that a field of the key is needed: by the whole key,
without the fields that others tell, and without those and the field, where the text must differ. The fourth looks for such scripts, and makes them small.

Exit status: 0 where all texts are as they should be, else 1. The last line says how many are.
"""
from __future__ import annotations

import os
import random
import sys
import tempfile
from argparse import Namespace
from pathlib import Path
from typing import Any, Optional

from tools.checks import compare_explorers as compare
from tools.commands.command_line.arguments import ToolParser
from tools.commands.command_line.checkout import PROVED
from tools.references.joining.drawn import drawn_wide, smaller
from tools.references.joining.exploration import Exploration, TooMany
from tools.references.joining.keys import FIELDS
from tools.references.joining.shown import SHOWN, TOLD, shown
from tools.references.stepping import policies, scripts


BOUNDS = ["0", "1", "2", "3", "all"]


def text_of(policy: bytes, script: bytes, workers: int, delays: str, dropped: Any = (), most: Optional[int] = None, split: bool = False) -> Optional[str]:
    rules, container = policies.read_policy(policy), scripts.read_script(script)
    return Exploration(rules, container, workers, None if delays == "all" else int(delays), dropped, split, most).walk().text()


def told(line: str) -> None:
    """Says on a terminal how far it is."""
    if sys.stderr.isatty():
        print(line, file=sys.stderr, flush=True)


# ---- beside the program


def faults(asked: Namespace) -> bool:
    good = left = wrong = 0
    with tempfile.TemporaryDirectory(prefix="states-") as room:
        folders = [] if asked.no_cases else list(compare.kept(room))
        folders += compare.made(room, asked.seed, asked.drawn, "drawn", compare.drawn)
        folders = [*folders, *compare.made(room, asked.seed, asked.trees, "tree", compare.drawn_tree), *compare.made(room, asked.seed, asked.wide, "wide", drawn_wide)]
        for folder in folders:
            policy, script = (Path(folder, name).read_bytes() for name in compare.FILES)
            for workers in (0, 1):
                for delays in BOUNDS:
                    ended = compare.explored(os.path.abspath(asked.program), folder, str(workers), delays, asked.seconds)
                    if ended is None or ended.returncode != 0 or b"whole=no" in ended.stdout:
                        left += 1
                        continue
                    try:
                        found = {text_of(policy, script, workers, delays, (), asked.states, split) for split in {False, delays != "all"}}
                    except TooMany:
                        left += 1
                        continue
                    if found == {ended.stdout.decode("latin-1")}:
                        good += 1
                    else:
                        wrong += 1
                        print(f"differs: {os.path.relpath(folder, room)} {workers} {delays}", flush=True)
                        if asked.save:
                            Path(asked.save).mkdir(parents=True, exist_ok=True)
                            Path(asked.save, f"{folder.name}.policy.json").write_bytes(policy)
                            Path(asked.save, f"{folder.name}.script.txt").write_bytes(script)
            told(f"{os.path.relpath(folder, room)}: {good} equal, {wrong} differ, {left} left out")
    print(f"compare-states: {good} explorations are equal, {wrong} differ, {left} left out")
    return wrong != 0


# ---- which fields are needed


def shows(policy, script, workers, field, most):
    """Whether the texts with and without a field differ; or how a run without it ends that isn't one."""
    try:
        whole = text_of(policy, script.encode(), workers, "all", (), most)
    except (TooMany, scripts.Refused, StopIteration, KeyError):
        return False
    try:
        return text_of(policy, script.encode(), workers, "all", (field,), most) != whole
    except TooMany:
        return False
    except Exception:
        return True


def needed(asked):
    found, tried = {}, 0
    for number in range(asked.wide):
        policy, script = drawn_wide(random.Random(f"{asked.seed} {number}"))
        policy, workers = policy.encode(), number % 2
        try:
            rules, container = policies.read_policy(policy), scripts.read_script(script.encode())
            explored = Exploration(rules, container, workers, None, (), False, asked.states, asked.names or FIELDS).walk()
        except (TooMany, scripts.Refused):
            continue
        tried += 1
        for field in explored.telling:
            if len(found.get(field, script)) <= asked.small or not shows(policy, script, workers, field, asked.states):
                continue
            small = smaller(script, lambda text: shows(policy, text, workers, field, asked.states))
            if len(small) < len(found.get(field, script + " ")):
                found[field] = small
                if asked.save:
                    Path(asked.save).mkdir(parents=True, exist_ok=True)
                    name = field.replace(" ", "-").replace(":", "").replace("'", "")
                    Path(asked.save, f"{name}.policy.json").write_bytes(policy)
                    Path(asked.save, f"{name}.script.txt").write_text(f"# needs the field `{field}`; explored with WORKERS {workers} and all\n{small}")
                print(f"{number}: {field}: {len(small)} bytes", flush=True)
    print(f"compare-states: of {tried} scripts {len(found)} of {len(asked.names or FIELDS)} fields show; not: {', '.join(set(asked.names or FIELDS) - set(found)) or '-'}")


def beside_each(asked):
    """Joined histories beside the same ones one by one."""
    good = wrong = left = 0
    draws = [(compare.drawn, asked.drawn), (compare.drawn_tree, asked.trees), (drawn_wide, asked.wide)]
    for draw, count in draws:
        for number in range(count):
            policy, script = draw(random.Random(f"{asked.seed} {number}"))
            rules, workers = policies.read_policy(policy.encode()), number % 2
            for bound in (None, 0, 1, 2, 3):
                try:
                    alone = Exploration(rules, scripts.read_script(script.encode()), workers, bound, most=asked.states, joins=False).walk().text()
                except TooMany:
                    left += 1
                    continue
                texts = {Exploration(rules, scripts.read_script(script.encode()), workers, bound, dropped, split).walk().text() for dropped in ((), TOLD) for split in (False, True)}
                good += texts == {alone}
                wrong += texts != {alone}
                if texts != {alone}:
                    print(f"differs: {draw.__name__} {number} {workers} {bound}", flush=True)
            told(f"{draw.__name__} {number}: {good} equal, {wrong} differ, {left} left out")
    print(f"compare-states: {good} explorations are equal, {wrong} differ, {left} left out")
    return wrong != 0


def show(asked):
    wrong = 0
    for field in asked.names or SHOWN:
        policy, script, bound = shown(field)
        delays = "all" if bound is None else str(bound)
        whole, small, without = (text_of(policy, script, 0, delays, dropped) for dropped in ((), TOLD, (*TOLD, field)))
        wrong += small != whole or without == whole
        print(f"{field}: {'told by others' if small == whole else 'the key without the told fields differs'}, {'needed' if without != whole else 'not needed here'}", flush=True)
    return wrong != 0


def main() -> bool:
    parser = ToolParser()
    parser.add_argument("--program", default=PROVED)
    parser.add_argument("--drawn", type=int, default=100)
    parser.add_argument("--trees", type=int, default=20)
    parser.add_argument("--wide", type=int, default=100)
    parser.add_argument("--seed", default="1")
    parser.add_argument("--seconds", type=float, default=20)
    parser.add_argument("--states", type=int, default=4000)
    parser.add_argument("--no-cases", action="store_true")
    parser.add_argument("--fields", action="store_true")
    parser.add_argument("--shown", action="store_true")
    parser.add_argument("--alone", action="store_true")
    parser.add_argument("--save")
    parser.add_argument("--small", type=int, default=200, help="a script of so many bytes isn't made smaller by another")
    parser.add_argument("names", nargs="*")
    asked = parser.parse_args()
    return show(asked) if asked.shown else beside_each(asked) if asked.alone else needed(asked) if asked.fields else faults(asked)
