"""The scripts of cases and examples that can be served with threads, and what their reports must have in common."""
from __future__ import annotations

import fnmatch
import re
import tempfile
from argparse import Namespace
from pathlib import Path
from typing import Any, Iterator, Optional, Sequence

from tools.checks import replaced
from tools.checks.tallies import Answer, TrialParser, answer_of
from tools.commands.command_line.top import TOP
from tools.commands.laned import first_fault

SHARED = re.compile(rb"^\s*(kill|thread)\b", re.M)
UNMADE = re.compile(rb"^\d+ t\S* spawn \S+ E", re.M)


def rows(only: str) -> Iterator[Any]:
    """The names and files of the cases and examples that are run."""
    for kind, report in (("examples", "report.txt"), ("cases", "stdout")):
        for folder in sorted(Path(f"{TOP}/{kind}").iterdir()):
            files = [folder / name for name in ("policy.json", "script.txt")]
            whole = all(file.is_file() for file in files) and any((folder / name).is_file() for name in (report, "stdout.lines"))
            if whole and not (folder / "status").exists() and fnmatch.fnmatch(folder.name, only):
                yield f"{kind}/{folder.name}", *map(str, files)


def parser_of(times: int, seconds: float) -> TrialParser:
    """The options of a trial that serves with threads many times."""
    parser = TrialParser().add_seed().add_limits(seconds)
    parser.add_argument("--lanes", action="store_true", help="serve by lanes, in place of workers")
    parser.add_argument("--replaced", action="store_true", help="replace workers on the way")
    parser.add_argument("--times", type=int, default=times, help="how many are served (%(default)s)")
    parser.add_argument("--only", default="*", help="which cases and examples are served")
    return parser.add_built()


def answer(asked: Namespace, *words: str) -> Answer:
    return answer_of([asked.program, *words], asked.seconds)


def refusal(program: str, seconds: float, files: Sequence[str], report: bytes, room: Optional[str] = None) -> Optional[str]:
    """What `audit-check` says against a report, as that of a finished history of a policy and a script; None where it says nothing."""
    with tempfile.NamedTemporaryFile(dir=room) as kept:
        kept.write(report)
        kept.flush()
        checked = answer_of([program, "audit-check", *files, kept.name], seconds)
    is_taken = checked.status == 0 and checked.out.splitlines()[0].endswith(b" finished=yes")
    return None if is_taken else f"audit-check: status {checked.status}, {(checked.err or checked.out)[:80]!r}"


def fault_of_part(asked: Namespace, files: Sequence[str], part: bytes, every: int, wanted: Optional[bytes]) -> Optional[str]:
    """What is wrong with what was printed of a policy and a script. `wanted` has the counts of the summary where these are known."""
    report, ledgers = split(part)
    wrong = replaced.fault(report, ledgers, every) if asked.replaced else "ledgers" if ledgers else None
    wrong = wrong or refusal(asked.program, asked.seconds, files, report)
    if wrong is not None:
        return wrong
    if asked.lanes and (line := first_fault(report)) is not None:
        return f"not laned at {line[:80]!r}"
    return f"{counts(report)!r} where {wanted!r} is right" if wanted is not None and counts(report) != wanted else None


def counts_alone(asked: Namespace, files: Sequence[str]) -> Optional[bytes]:
    """The counts that a script ends with wherever it is served, by the run without threads; None where they may vary. Raises ValueError."""
    alone = answer(asked, "run", *files, "0", "0")
    if alone.trouble:
        raise ValueError(f"0 workers and 0 processors: {alone.trouble}")
    return None if summary_may_vary(Path(files[1]).read_bytes(), alone.out) else counts(alone.out)


def split(out):
    """The report of a run, and what stands after it: nothing, or the ledgers from which workers were replaced."""
    report, title, ledgers = out.partition(b"\nhandovers ")
    return (report + b"\n", (title + ledgers)[1:]) if title else (out, b"")


def counts(report: bytes) -> bytes:
    """The counts of a report's summary that the number of events doesn't matter to."""
    return re.sub(rb"events=\d+ ", b"", report.splitlines()[-1])


def summary_may_vary(script: bytes, report: bytes) -> bool:
    """Whether the order of steps may matter to the summary: a task of the script sends a signal or shares its memory, or a task in the
    report couldn't be created because no PID was free."""
    return bool(SHARED.search(script) or UNMADE.search(report))
