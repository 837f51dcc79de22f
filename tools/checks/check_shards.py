"""Checks that shares of tests and of explorations make up the whole: tools/checks/check-shards [PROGRAM]

Brokers of tests/brokers are explored as a whole, and in 1, 2, 3 and 7 shares: with findings, without, within a limit, and where a trouble ends the exploration. `merge` has to print
the same document and the same lines as the whole, and to end with its status. The same is tried of test files of tests/ and examples/, as JSON and as XML. Each share is made on its own,
as other machines would. Then results that don't belong together are refused, and missing shares are named.

PROGRAM is the program that is asked; without it, the one that ./broker runs. Exit status: 0 where all is so, else 1. The last line is
`shards: N passed, N failed`.
"""
from __future__ import annotations

import contextlib
import io
import json
import os
import re
import shutil
import subprocess
import sys
import tempfile
from pathlib import Path
from typing import TYPE_CHECKING, Any, Iterator, List, NamedTuple, Optional, Tuple, Union

from tools.checks.check_explored_brokers import class_in, files_of, path_of
from tools.checks.check_tests import stored
from tools.checks.json_schemas import Schemas, undetected
from tools.checks.tallies import Tally
from tools.commands.command_line import arguments
from tools.commands.command_line.top import TOP
from tools.commands.exploring import telling
from tools.commands.exploring.command import status_of
from tools.commands.exploring.exploration import Explored, explore
from tools.commands.exploring.instances import InlineInstance
from tools.commands.exploring.runs import Played, Setting
from tools.commands.sharding import command as merging, explorations
from tools.commands.sharding.shares import WHOLE, Share
from tools.commands.testing import junit, output
from tools.commands.testing.asking import Program
from tools.commands.testing.command import FAILED, NOT_UNDERSTOOD, PASSED, Progress
from tools.commands.testing.running import Runner
from seccomp_step import Kernel

if TYPE_CHECKING:
    from tools.commands.testing.results import FileResults

COUNTS = (1, 2, 3, 7)
NOT_WHOLE, UNDECIDED = 2, 12
TIME = re.compile(r' time="[\d.]*"')
# of the stored test files each so manieth is taken
EACH = 6


class Trial(NamedTuple):
    broker: str
    script: str
    delays: int
    limit: Optional[int] = None


EXPLORED = (Trial("no_second_check", "reused", 2), Trial("no_check", "reused", 3), Trial("one_large_read", "together", 2), Trial("no_check", "reused", 3, 20), Trial("no_check", "reused", 0),
            Trial("steps_tasks", "reused", 2))


class Ended(NamedTuple):
    returncode: int
    stdout: str
    stderr: str


def merged(room, results, *words):
    """What `merge` does with results, which are written to files in an order of their own. It is called in this process, since a process each would take most of the time."""
    paths = []
    for number, text in enumerate(reversed(results)):
        paths.append(f"{room}/result-{number}")
        Path(paths[-1]).write_text(text, encoding="utf-8")
    out, said = (io.TextIOWrapper(io.BytesIO(), encoding="utf-8") for _ in range(2))
    with contextlib.redirect_stdout(out), contextlib.redirect_stderr(said):
        status = merging.main([*words, *paths])
    for it in (out, said):
        it.flush()
    return Ended(status, *(it.buffer.getvalue().decode() for it in (out, said)))


# ---- explorations


def explored(trial: Trial, share: Share = WHOLE, into: Optional[Union[Kept, explorations.ExploredShare]] = None) -> Union[Explored, Kept, explorations.ExploredShare]:
    broker = class_in(trial.broker)
    setting = Setting(files_of(trial.script), lambda: [InlineInstance(lambda channel: broker(Kernel(channel=channel)).run())])
    return explore(setting, trial.delays, trial.limit, share=share, explored=into or Explored(trial.delays))


def shares_of(trial, count):
    for index in range(1, count + 1):
        share = Share(index, count)
        found = explored(trial, share, explorations.ExploredShare(trial.delays))
        yield json.dumps(explorations.share_document(found, share, "reused", trial.limit, False))


def exploration(trial: Trial, room: str, schemas: Schemas) -> Iterator[Any]:
    """What is wrong with the explorations of a broker in shares."""
    whole = explored(trial)
    document, status = explorations.document(whole), status_of(whole)
    yield from filter(None, [schemas.fault("explore-broker", document)])
    for count in COUNTS:
        results = list(shares_of(trial, count))
        yield from filter(None, (schemas.fault("explore-broker", json.loads(it)) for it in results))
        ended = merged(room, results)
        if (ended.returncode, ended.stderr) != (status, "") or json.loads(ended.stdout) != document:
            yield f"{count} shares: status {ended.returncode} instead of {status}, {ended.stderr!r}, {ended.stdout[:300]!r}"
        ended = merged(room, results, "-o", f"{room}/joined.json")
        if ended.stdout != telling.whole_text(whole) or json.loads(Path(room, "joined.json").read_text()) != document:
            yield f"{count} shares: the lines are others: {ended.stdout[:300]!r}"
        runs = sum(json.loads(it)["runs"] for it in results)
        if trial.limit is None and runs > whole.runs + count * (1 + max(len(it.choices) for it in [first_run(trial)]) * trial.delays):
            yield f"{count} shares make {runs} runs, and the whole makes {whole.runs}"


def first_run(trial):
    """The run without a delay."""
    found = []
    explored(trial._replace(delays=0), into=Kept(0, found))
    return found[0]


class Kept(Explored):
    """An exploration that keeps its runs."""

    def __init__(self, delays: int, kept: List[Any]) -> None:
        super().__init__(delays)
        self.kept = kept

    def take(self, played: Played) -> None:
        super().take(played)
        self.kept.append(played)


def other_results(room: str) -> Iterator[Any]:
    """Results that aren't the whole: what isn't refused or named."""
    trial = EXPLORED[0]
    one, two, three = map(json.loads, shares_of(trial, 3))
    cut = {**two, "shard": {**two["shard"], "ended": explorations.INTERRUPTED}}
    changed = json.loads(json.dumps(two))
    changed["schedules"][0]["history"] = "00"
    other = {**two, "shard": {**two["shard"], "of": "another"}}
    for name, results, status, said in (
        ("a share is missing", [one, three], NOT_WHOLE, "part 2/3 is missing"), ("a share was interrupted", [one, cut, three], NOT_WHOLE, "part 2/3 was interrupted"),
        ("a share stands twice", [one, two, two, three], NOT_WHOLE, "are both part 2/3"), ("of another work", [one, other, three], NOT_WHOLE, "are of different works"),
        ("of another number of shares", [one, json.loads(next(shares_of(trial, 2)))], NOT_WHOLE, "are of different works"),
        ("another broker", [one, changed, three], UNDECIDED, "the broker isn't the same in all parts"), ("no share", [explorations.document(explored(trial))], NOT_WHOLE, "it isn't the result of a part"),
        ("damaged", [{**one, "schedules": [{}]}, two, three], NOT_WHOLE, "a result is damaged"), ("a number", [7], NOT_WHOLE, "it isn't the result of a part"),
    ):
        ended = merged(room, [json.dumps(it) for it in results])
        if ended.returncode != status or said not in ended.stderr or ended.stderr.count("\n") != 1:
            yield f"{name}: status {ended.returncode}, {ended.stderr!r}"
    for name, text in (("empty", ""), ("text", "1 passed, 0 failed\n"), ("XML of another kind", "<a/>"), ("XML with types", "<!DOCTYPE a []><testsuites/>"), ("deep", "[" * 100_000)):
        ended = merged(room, [text])
        if ended.returncode != NOT_WHOLE or ended.stderr.count("\n") != 1 or ended.stdout:
            yield f"{name}: status {ended.returncode}, {ended.stderr!r}"


def words(room: str) -> Iterator[Any]:
    """Whether the commands take shares as they are written, and no others."""
    brokers = TOP / "tests/brokers"
    behind = ["--no-program", "--jobs", "1", "--json", "--", sys.executable, "-B", str(path_of("no_second_check"))]
    results = []
    for index in (1, 2):
        ended = subprocess.run([TOP / "tools/commands/explore-broker", brokers / "policy.json", brokers / "scripts/reused.txt", "1", "--shard", f"{index}/2", *behind],
                               stdin=subprocess.DEVNULL, capture_output=True, text=True)
        results.append(ended.stdout)
    ended = merged(room, results, "-o", f"{room}/joined.json")
    if ended.returncode != 11 or not ended.stdout.startswith("explored broker delays=1 "):
        yield f"by its words: status {ended.returncode}, {ended.stdout!r}, {ended.stderr!r}"
    for text in ("0/3", "4/3", "3", "1/0", "a/b", "-1/2", "1/2/3"):
        ended = subprocess.run([TOP / "tools/commands/test", "--shard", text, "none.test"], stdin=subprocess.DEVNULL, capture_output=True, text=True)
        if ended.returncode != 2 or "I/N" not in ended.stderr:
            yield f"--shard {text}: status {ended.returncode}, {ended.stderr!r}"


# ---- tests


def status_of_tests(every: List[FileResults]) -> int:
    return NOT_UNDERSTOOD if not all(it.is_understood for it in every) else FAILED if any(it.failed for it in every) else PASSED


def ran(program: str, paths: List[str], share: Share = WHOLE) -> Tuple[List[FileResults], Runner]:
    runner = Runner(Program(program, "./broker"), Progress(False), share)
    return runner.run(paths), runner


def tests(program: str, paths: List[str], room: str, schemas: Schemas) -> Iterator[Any]:
    """What is wrong with test files in shares."""
    whole, runner = ran(program, paths)
    document, xml, status = output.document_of(whole), junit.text_of(whole, runner.seconds), status_of_tests(whole)
    for count in COUNTS:
        shares = [(Share(index, count), *ran(program, paths, Share(index, count))) for index in range(1, count + 1)]
        documents = [output.document_of(every, share) for share, every, _ in shares]
        yield from filter(None, (schemas.fault("test", it) for it in documents))
        ended = merged(room, [json.dumps(it) for it in documents])
        if (ended.returncode, ended.stderr) != (status, "") or json.loads(ended.stdout) != document:
            yield f"{count} shares: status {ended.returncode} instead of {status}, {ended.stderr!r}, {ended.stdout[:300]!r}"
        results = [junit.text_of(every, runner.seconds, share) for share, every, runner in shares]
        ended = merged(room, results)
        if (ended.returncode, ended.stderr) != (status, "") or TIME.sub("", ended.stdout) != TIME.sub("", xml):
            yield f"{count} shares as XML: status {ended.returncode} instead of {status}, {ended.stderr!r}, {ended.stdout[:300]!r}"
        said = merged(room, results, "-o", f"{room}/joined.xml").stdout.splitlines()
        if said[-1:] != [output.summary(whole)] or not set(line for it in whole if it.failed and it.is_understood for line in output.Lines(False).of_file(it) if line.startswith("FAILED")) <= set(said):
            yield f"{count} shares as XML: the lines are others: {said[-3:]}"
        if count > 1 and not 0 < max(len(it["files"][0]["tests"]) for it in documents) < max(2, len(document["files"][0]["tests"])):
            yield f"{count} shares: one has all tests of the first file"


def tried(program: str, room: str) -> Iterator[Any]:
    """What was tried: a name, and what is wrong."""
    schemas = Schemas(TOP / "docs/schema")
    yield from ((f"{it.broker} with {it.script}, {it.delays} delays, limit {it.limit}", exploration(it, room, schemas)) for it in EXPLORED)
    yield "a damaged document", undetected(schemas, "explore-broker", explorations.document(explored(EXPLORED[0])))
    yield "other results", other_results(room)
    yield "the words", words(room)
    files = [f"{folder}.{name}" for folder, name, _ in stored(room)]
    for name in ("container.test", "container.json", "three-callers.test"):
        shutil.copy(TOP / "examples/tests" / name, room)
    os.chdir(room)
    passed = ["container.test", *[it for it in files if it.startswith("passed.")][::EACH]]
    failed = [*passed, *[it for it in files if it.startswith("failed.")][::EACH]]
    refused = [it for it in files if it.startswith("not-understood.")][::EACH]
    for name, paths in (("tests that pass", passed), ("tests that fail", failed), ("tests that aren't understood", [*failed[::2], *refused])):
        yield name, tests(program, paths, room, schemas)


def main() -> bool:
    program, count = arguments.program_asked(), Tally("shards")
    with tempfile.TemporaryDirectory(prefix="check-shards-") as room:
        count.note_all(tried(program, room))
        os.chdir(TOP)
    return count.ended()
