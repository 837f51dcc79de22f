"""Runs the built program on each case, and compares what it wrote and how it ended: tools/checks/cases [PROGRAM [LEFT-OUT ..]]

cases/README.md says what a case is. Each folder of examples/ with a policy is a case too: a play of its two files prints its report.txt.
A case is left out by the name that a failure is told with: cases/ids-wrap.
"""
from __future__ import annotations

import os
import re
import resource
import subprocess
import tempfile
from itertools import zip_longest
from pathlib import Path
from typing import Any, List

from tools.checks import known
from tools.checks.tallies import Tally
from tools.checks.threaded_runs import split
from tools.commands.command_line.arguments import ToolParser
from tools.commands.explored import Broker, faults_in, has_requests
from tools.commands.laned import first_fault
from tools.commands.pods import parts

REPORT_LIMIT = 33_554_432


def read(path: str, otherwise: Any = b"") -> Any:
    return Path(path).read_bytes() if os.path.isfile(path) else otherwise


def copy_cases(room: str) -> None:
    """Copies the cases and examples to the room, each with its words and its output."""
    known.copied(room)
    for folder in [folder for folder, _, files in os.walk(f"{room}/examples") if "policy.json" in files]:
        os.rename(f"{folder}/report.txt", f"{folder}/stdout")
        Path(f"{folder}/args").write_text("play\npolicy.json\nscript.txt\n")


def words_of(folder):
    return read(f"{folder}/args").decode().splitlines()


def run(program, folder):
    """The status, standard output and standard error of the program on the words of the case."""
    limit = read(f"{folder}/fsize").decode()
    # (Python ignores SIGXFSZ, so a write beyond the limit fails and ends nothing)
    limited = (lambda: resource.setrlimit(resource.RLIMIT_FSIZE, (int(limit), int(limit)))) if limit else None
    words = words_of(folder)
    err = open("/dev/full", "wb") if os.path.exists(f"{folder}/err-full") else subprocess.PIPE
    requests = f"{folder}/stdin" if os.path.exists(f"{folder}/stdin") else os.devnull
    with tempfile.TemporaryFile() as out, open(requests, "rb") as source:
        ended = subprocess.run([program, *words], cwd=folder, stdin=source, stdout=out, stderr=err, timeout=120, preexec_fn=limited, restore_signals=False)
        out.seek(0)
        return ended.returncode, out.read(), ended.stderr or b""


def counts(text: str) -> Any:
    return {name: int(count) for name, count in re.findall(r"(\w+)=(\d+)", text)}


def holds(statement: str, lines: List[str]) -> bool:
    """Whether a statement of stdout.lines holds of the lines of a report."""
    key, _, text = statement.partition(": ")
    told = counts(lines[-1]) if lines else {}
    return {
        "line": lambda: text in lines,
        "first": lambda: lines[:1] == [text],
        "last": lambda: lines[-1:] == [text],
        "re": lambda: any(re.fullmatch(text, line) for line in lines),
        "not": lambda: not any(re.fullmatch(text, line) for line in lines),
        "has": lambda: counts(text).items() <= told.items(),
        "counts": lambda: {**dict.fromkeys(told, 0), **counts(text)} == {**told, "events": 0, "calls": 0},
    }[key]()


def first_difference(name, wanted, got):
    both = enumerate(zip_longest(wanted.split(b"\n"), got.split(b"\n")), 1)
    return [f"{name}, line {at}: {line!r}, expected {want!r}" for at, (want, line) in both if line != want][:1]


def reports_in(out: bytes, words: Any) -> Any:
    """The reports in what the program prints on a case's words, each with the names of its policy and its script: without the ledgers, where
    workers are replaced, and of `pod`, each container's part."""
    word, *names = words or [None]
    if word == "pod":
        files = names[4:] if names[2:3] == ["every"] else names[2:]
        return [(pair, split(part)[0]) for pair, part in zip(zip(files[::2], files[1::2]), parts(out)[0])]
    return [(names[:2], split(out)[0])] if word in ("play", "handover", "run", "lanes") else []


def is_by_lanes(words: List[str]) -> bool:
    """Whether a case serves by lanes."""
    return words[:1] == ["lanes"] or words[:2] == ["pod", "lanes"]


def is_of_requests(folder: str, words: List[str]) -> bool:
    """Whether a case plays what another broker's workers ask for: then no legal history need have its report."""
    return words[:1] == ["play"] and has_requests(read(f"{folder}/{words[2]}"))


def audit_failures(program: str, folder: str, files: List[str], report: bytes) -> List[Any]:
    """Whether the program takes a report that the case prints for one, with as many events as its first line says."""
    with tempfile.NamedTemporaryFile() as kept:
        kept.write(report)
        kept.flush()
        ended = subprocess.run([program, "audit-check", *files, kept.name], cwd=folder, stdin=subprocess.DEVNULL, capture_output=True, timeout=120)
    events = report.split(b"\n")[0].replace(b"journal ", b"yes events=")
    return [f"audit-check: {ended.stderr or ended.stdout[:80]!r}"] * (ended.returncode != 0 or not ended.stdout.startswith(events + b" finished="))


def failures(program, folder):
    """What isn't as the case expects it, a text each."""
    status, out, err = run(program, folder)
    wanted = int(read(f"{folder}/status", 0))
    found = [f"status {status}, expected {wanted}"] * (status != wanted)
    word = next(iter(words_of(folder)), None)
    if status == 0 and len(out) <= REPORT_LIMIT and not is_of_requests(folder, words_of(folder)):
        try:
            for files, report in reports_in(out, words_of(folder)):
                found += audit_failures(program, folder, files, report)
                if is_by_lanes(words_of(folder)):
                    found += [f"stdout: not laned at {line!r}" for line in [first_fault(report)] if line is not None]
        except ValueError as wrong:
            found.append(f"stdout: {wrong}")
    if status == 0 and word == "explore":
        found += [f"stdout: {fault}" for fault in faults_in(Broker(program, *(f"{folder}/{name}" for name in words_of(folder)[1:3])), out.decode("latin-1"))]
    if not os.path.exists(f"{folder}/err-full"):
        found += first_difference("stderr", read(f"{folder}/stderr"), err)
    if not os.path.exists(f"{folder}/stdout.lines"):
        return found + first_difference("stdout", read(f"{folder}/stdout"), out)
    lines, statements = out.decode("latin-1").splitlines(), read(f"{folder}/stdout.lines").decode().splitlines()
    return found + [f"stdout: not so: {it}" for it in statements if not holds(it, lines)]


def main() -> bool:
    parser = ToolParser().add_program()
    parser.add_argument("left_out", metavar="LEFT-OUT", nargs="*", help="the name of a case that isn't tried")
    asked = parser.with_program()
    with tempfile.TemporaryDirectory(prefix="cases-") as room:
        copy_cases(room)
        names = sorted(os.path.relpath(folder, room) for folder, _, files in os.walk(room) if "args" in files)
        found = {name: failures(asked.program, f"{room}/{name}") for name in names if name not in asked.left_out}
    return Tally("cases").note_all(found.items()).ended()
