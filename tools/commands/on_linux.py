"""Plays policies and scripts on this machine's kernel, step by step, and says what it answers otherwise than the program does.

`./broker help on-linux` has its words, and docs/inside/LINUX_MEASURED.md says how it is done, and has every known difference.
"""
from __future__ import annotations

import os
import signal
import sys
import tempfile
from argparse import Namespace

from tools.commands.command_line.arguments import Parser
from tools.commands.linux_stage import areas, changes, changes_of_names, comparison, differences, folders, probes, requirements, stand_in
from tools.commands.linux_stage.outcome import ALL, DIFFERENT, NOT_KNOWN, Outcome


def words() -> Namespace:
    parser = Parser("on-linux")
    parser.add_argument("folders", nargs="*", metavar="FOLDER")
    parser.add_argument("--draw", choices=["all", *areas.NAMES], metavar="AREA", help=f"all, {', '.join(areas.NAMES)}")
    parser.add_argument("--count", type=int, default=100)
    parser.add_argument("--seed", type=int, default=1)
    parser.add_argument("--first", type=int, default=0)
    parser.add_argument("--probes", action="store_true")
    parser.add_argument("--changes", action="store_true")
    parser.add_argument("--changes-of-names", action="store_true")
    parser.add_argument("--program", default=f"{folders.TOP}/broker")
    parser.add_argument("--processor", type=int, default=max(os.sched_getaffinity(0)))
    parser.add_argument("--verbose", action="store_true")
    return parser.parse_args()


def compare_drawn(bench: comparison.Bench, asked: Namespace) -> int:
    outcome = Outcome(ALL if asked.verbose else NOT_KNOWN)
    try:
        take_drawn(bench, asked, outcome)
    except KeyboardInterrupt:
        outcome.told()  # what was compared until then
        raise
    return outcome.told()


def take_drawn(bench: comparison.Bench, asked: Namespace, outcome: Outcome) -> None:
    chosen = list(areas.NAMES) if asked.draw == "all" else [asked.draw]
    for at in range(asked.first, asked.first + asked.count):
        area = chosen[at % len(chosen)]
        pair = areas.pair(bench, area, asked.seed, at // len(chosen))
        for way in comparison.ways(pair.script):
            outcome.take(f"{pair.name}{way.said}", comparison.compare(bench, pair.policy, way.script, as_init=way.as_init), areas.EXCLUDED.get(area, ()))


def compare_folders(bench: comparison.Bench, asked: Namespace) -> int:
    outcome = Outcome(ALL if asked.verbose else DIFFERENT if asked.folders else NOT_KNOWN)
    expected = differences.shown_by()
    for folder in asked.folders or folders.all_folders():
        found = list(folders.pairs(folder, bench.room))
        if asked.folders and not found:
            print(f"on-linux: {folder} has no policy and script that are played", file=sys.stderr)
        for pair in found:
            results = [(way, comparison.compare(bench, pair.policy, way.script, as_init=way.as_init)) for way in comparison.ways(pair.script)]
            wanted = expected.get(pair.name)
            is_shown = wanted is None or any(wanted in result.names for _, result in results)
            for way, result in results:
                outcome.take(f"{pair.name}{way.said}", result, (), None if is_shown else wanted)
    return outcome.told()


def main() -> int:
    asked = words()
    if asked.changes_of_names:
        return changes_of_names.run()
    missing = requirements.missing(asked.processor)
    if missing:
        print("".join(f"on-linux: {text}\n" for text in missing), end="", file=sys.stderr)
        return 2
    # an end by a signal leaves nothing either
    signal.signal(signal.SIGTERM, lambda *_: sys.exit(143))
    with tempfile.TemporaryDirectory(prefix="on-linux-") as room:
        os.mkdir(f"{room}/stage")
        bench = comparison.Bench(os.path.abspath(asked.program), stand_in.build(room), room, asked.processor)
        if asked.probes:
            return probes.run(bench, asked.verbose)
        if asked.changes:
            return changes.run(bench)
        return compare_drawn(bench, asked) if asked.draw else compare_folders(bench, asked)
