"""Explores cases, examples and scripts drawn at random, by the program and by tools/references/reference-explore, and compares what they print.

    tools/checks/compare-explorers [--program PATH] [--drawn N] [--trees N] [--seed N] [--jobs N] [--most N] [--longest N] [FOLDER ..]

Each folder with a policy and a script is explored by workers up to 0 and 1 with at most 2 delays, and without a bound. Without folders
these are the cases and the examples. Scripts that are drawn come to them: --drawn of any calls, and --trees in which tasks mount and set
attributes. An exploration of more than --most histories, or of one with more than --longest events, is left out, since the other program
would take too long. Each schedule that the program prints is put into the script, and played: what comes of its calls must be what stands
above it. Last it is said of the outcomes of the --drawn scripts without a bound how many of them come up within each bound.

Status 0 where all are so; else the explorations at fault are listed. It isn't part of the gate.
"""
from __future__ import annotations

import json
import os
import random
import subprocess
import tempfile
from argparse import Namespace
from concurrent.futures import ThreadPoolExecutor
from pathlib import Path
from random import Random
from typing import Any, Dict, Iterator, List, Optional, Set, Tuple

from tools.checks import known
from tools.checks.tallies import TrialParser
from tools.commands.explored import Broker, Explorer, faults_in, without_schedule

BOUNDS = [("0", "2"), ("1", "2"), ("0", "all")]
FILES = ["policy.json", "script.txt"]


# ---- scripts drawn at random

PATHS = ['"/a\\0"', '"/b\\0"', '"/d/c\\0"', '"/none/x\\0"']
CALLS = ["mknod 0x10000 0o020666 259", "mknod 0x10000 0o020666 259", "mknod 0x10000 0o010666 0", "mknod 0x10020 0o020666 259", "openat -100 0x10000 0",
         "openat -100 0x10040 0", "sysinfo 0x10100", "getpid"]
POLICIES = [
    {"config": {"security.syscalls.intercept.mknod": "true", "security.syscalls.intercept.sysinfo": "true"}},
    {"version": 2, "rules": [{"name": "one", "call": "mknod", "then": "grant", "times": 1}]},
    {"rules": [{"name": "no-b", "call": "mknod", "when": {"path": "/b"}, "then": {"deny": "EPERM"}}, {"name": "rest", "call": "mknod", "then": "grant"}]},
    {"rules": [{"name": "feed", "call": "openat", "when": {"path": "/log"}, "then": {"inject": 5}}, {"name": "kernel", "call": "mknod", "then": "pass"}]},
]


def drawn_program(chance: Random, name: str, helpers: List[str], most: int) -> Tuple[List[str], int]:
    """A program of some instructions, which may start these."""
    lines, children = [f"prog {name}"], 0
    if chance.randrange(3) == 0:
        lines.append(f"handler 10 {chance.choice(['restart', 'plain'])}")
    for _ in range(chance.randint(1, most)):
        kind = chance.randrange(8)
        if kind < 4:
            lines.append(f"call {chance.choice(CALLS)}")
        elif kind == 4:
            lines.append(f"poke 0x10000 {chance.choice(PATHS)}")
        elif kind == 5 and helpers:
            children += 1
            lines.append(f"{chance.choice(['spawn', 'spawn', 'thread'])} {chance.choice(helpers)}")
        elif kind == 6 and children:
            lines.append(f"kill child {chance.randint(1, children)} {chance.choice([9, 10, 12])}")
        elif kind == 7 and children:
            lines.append("wait")
        else:
            lines.append(f"kill {chance.choice(['parent', 'self'])} {chance.choice([10, 15])}")
    return [*lines, "end"], children


def drawn(chance: Random) -> Tuple[str, ...]:
    """A policy and a script of two tasks or three."""
    settings = ['dir "/d"', 'reg "/log"', "broker 5", f"notify {' '.join(chance.sample(['mknod', 'openat', 'sysinfo'], chance.randint(1, 3)))}"]
    if chance.randrange(4) == 0:
        settings.append("killable")
    helper, _ = drawn_program(chance, "helper", [], 2)
    main, children = drawn_program(chance, "main", ["helper"], 3)
    if children == 0:
        main.insert(1, f"{chance.choice(['spawn', 'thread'])} helper")
    main[1:1] = [f"poke 0x10000 {chance.choice(PATHS)}", f"poke 0x10020 {chance.choice(PATHS)}", 'poke 0x10040 "/log\\0"']
    return json.dumps(chance.choice(POLICIES)), "\n".join([*settings, "", *helper, "", *main, ""])


# paths of directories on which is mounted, and of nodes whose attributes are set; some are links, and some lead through a mount
TARGETS = ['"/d\\0"', '"/d\\0"', '"/l\\0"', '"/d/e\\0"', '"/d/e/..\\0"', '"/\\0"', '"/none\\0"']
MARKED = ['"/d/f\\0"', '"/d/f\\0"', '"/l/f\\0"', '"/d\\0"']
TREE_POLICY = {"config": {"security.syscalls.intercept.mount": "true", "security.syscalls.intercept.mount.allowed": "tmpfs"},
               "rules": [{"name": "mark", "call": "setxattr", "when": {"name": "trusted.mark"}, "then": "grant"}]}


def drawn_change(chance: Random, kinds: List[str]) -> List[str]:
    """Lines with which a task mounts, or sets an attribute, as the kinds of its script allow."""
    if chance.choice(kinds) == "mount":
        return [f"poke 0x10000 {chance.choice(TARGETS)}", 'poke 0x10100 "tmpfs\\0"', "call mount 0 0x10000 0x10100 0 0"]
    name = chance.choice(["trusted.mark", "trusted.mark", "trusted.mark", "user.mark"])
    return [f"poke 0x10000 {chance.choice(MARKED)}", f'poke 0x10100 "{name}\\0"', f'poke 0x10200 "{chance.choice("ab")}"',
            "call setxattr 0x10000 0x10100 0x10200 1 0"]


def drawn_tree(chance: Random) -> Tuple[str, ...]:
    """A policy and a script of two tasks that change the tree."""
    kinds = chance.choice([["mount"], ["mark"], ["mount", "mark"]])
    settings = ['dir "/d"', 'dir "/d/e"', 'reg "/d/f"', 'link "/l" "d"', "notify mount setxattr"]
    helper = ["prog helper", *drawn_change(chance, kinds), "end"]
    main = ["prog main", "spawn helper", *drawn_change(chance, kinds), *(drawn_change(chance, kinds) if chance.randrange(3) == 0 else []), "end"]
    return json.dumps(TREE_POLICY), "\n".join([*settings, "", *helper, "", *main, ""])


def made(room: str, seed: Any, count: int, kind: str, draw: Any) -> Iterator[Any]:
    """The folders of scripts that are drawn."""
    for number in range(count):
        folder = Path(room, f"{kind}-{number}")
        folder.mkdir()
        for name, text in zip(FILES, draw(random.Random(f"{seed} {number}"))):
            (folder / name).write_text(text)
        yield folder


def kept(room):
    """The folders of the cases and examples that have a policy and a script, but for those that differ in the schedule alone."""
    known.copied(room)
    folders = sorted((Path(folder) for folder, _, files in os.walk(room) if set(FILES) <= set(files)), reverse=True)
    return sorted({((folder / FILES[0]).read_bytes(), without_schedule((folder / FILES[1]).read_bytes())): folder for folder in folders}.values())


# ---- what is compared


def explored(program: str, folder: Path, workers: str, delays: str, seconds: float) -> Any:
    """What the program prints, or None where it takes too long."""
    try:
        return subprocess.run([program, "explore", *FILES, workers, delays], cwd=folder, stdin=subprocess.DEVNULL, capture_output=True, timeout=seconds)
    except subprocess.TimeoutExpired:
        return None


def counts(out: bytes) -> Dict[bytes, int]:
    return {name: int(value) for name, value in (field.split(b"=") for field in out.split(b"\n")[0].split()[1:]) if value.isdigit()}


def fault(asked: Namespace, folder: Path, workers: str, delays: str) -> Optional[str]:
    """What is wrong with an exploration, if anything is; `left out` where it isn't compared."""
    ended = explored(asked.program, folder, workers, delays, asked.seconds)
    if ended is None:
        return "left out"
    if ended.returncode != 0:
        played = subprocess.run([asked.program, "play", *FILES], cwd=folder, stdin=subprocess.DEVNULL, capture_output=True)
        same = (ended.returncode, ended.stdout, ended.stderr) == (played.returncode, b"", played.stderr)
        return "left out" if same else f"status {ended.returncode}, {ended.stderr!r}; a play has {played.returncode}"
    found = counts(ended.stdout)
    if found[b"histories"] > asked.most or found[b"longest"] > asked.longest:
        return "left out"
    broker = Broker(asked.program, folder / FILES[0], folder / FILES[1])
    wanted = Explorer(broker, int(workers), None if delays == "all" else int(delays)).text().encode("latin-1")
    if ended.stdout != wanted:
        lines = zip(ended.stdout.split(b"\n"), wanted.split(b"\n"))
        return next((f"{got!r}, the slow one {want!r}" for got, want in lines if got != want), "another number of lines")
    return "; ".join(faults_in(broker, ended.stdout.decode("latin-1"))) or None


def outcomes(out: bytes) -> Set[bytes]:
    """The outcomes that are printed, a text each."""
    return {block.split(b"schedule", 1)[0].split(b"\n", 1)[1] for block in out.split(b"\noutcome ")[1:]}


def within(asked: Namespace, folders: List[Path]) -> List[int]:
    """How many outcomes the scripts have without a bound, and how many of them come up within each bound."""
    found = [0] * 10
    for folder in folders:
        whole = explored(asked.program, folder, "0", "all", asked.seconds)
        if whole is None or whole.returncode != 0 or not whole.stdout.split(b"\n")[0].endswith(b"whole=yes"):
            continue
        every = outcomes(whole.stdout)
        for delays in range(9):
            ended = explored(asked.program, folder, "0", str(delays), asked.seconds)
            found[delays] += len(outcomes(ended.stdout) & every) if ended is not None else 0
        found[9] += len(every)
    return found


def arguments() -> Namespace:
    parser = TrialParser().add_seed().add_limits(60.0, 2).add_built()
    parser.add_argument("--drawn", type=int, default=100, help="scripts that are drawn (%(default)s)")
    parser.add_argument("--trees", type=int, default=10, help="scripts that are drawn in which tasks mount and set attributes (%(default)s)")
    parser.add_argument("--most", type=int, default=400, help="histories of an exploration that is compared (%(default)s)")
    parser.add_argument("--longest", type=int, default=120, help="events of its longest one (%(default)s)")
    parser.add_argument("--bounds", type=int, metavar="N", default=25, help="drawn scripts whose outcomes are counted by bounds (%(default)s)")
    parser.add_argument("folders", nargs="*", type=Path, help="folders with a policy and a script, in place of all cases and examples")
    return parser.with_program()


def main() -> bool:
    asked = arguments()
    results = {}
    with tempfile.TemporaryDirectory(prefix="explorers-") as room, ThreadPoolExecutor(asked.jobs) as pool:
        lots = list(made(room, asked.seed, asked.drawn, "drawn", drawn))
        folders = [*(asked.folders or kept(tempfile.mkdtemp(dir=room))), *lots, *made(room, asked.seed, asked.trees, "tree", drawn_tree)]
        runs = [(folder, *bound) for folder in folders for bound in BOUNDS]
        for run, wrong in zip(runs, pool.map(lambda run: fault(asked, *run), runs)):
            results[run] = wrong
            if wrong not in (None, "left out"):
                print(f"{os.path.relpath(run[0], room)} {' '.join(run[1:])}: {wrong}", flush=True)
        shares = within(asked, lots[:asked.bounds])
    left, good = (sum(wrong == kind for wrong in results.values()) for kind in ("left out", None))
    print(f"compare-explorers: {good} explorations are equal, {len(results) - good - left} at fault, {left} left out")
    print(f"compare-explorers: of {shares[9]} outcomes without a bound came up with at most 0, 1, .. 8 delays: {' '.join(map(str, shares[:9]))}")
    return good + left != len(results)
