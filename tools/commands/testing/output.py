"""What is printed of results: lines for people, XML for systems that run jobs, and JSON for programs."""
from __future__ import annotations

import json
import os
import textwrap
from typing import TYPE_CHECKING, List

from tools.commands.messages.findings import message, shown
from tools.commands.sharding.shares import fingerprint

if TYPE_CHECKING:
    from tools.commands.testing.results import FileResults, Result

WIDTH, ROOM = 100, " " * 10
GREEN, RED, PLAIN = "\x1b[32m", "\x1b[31m", "\x1b[0m"


def has_colours(out):
    """Whether what is printed there is coloured: on a terminal, unless NO_COLOR is set."""
    return out.isatty() and not os.environ.get("NO_COLOR")


class Lines:
    """The lines of results. `coloured` is whether the words ok and FAILED have colours."""

    def __init__(self, coloured: bool) -> None:
        self.coloured = coloured

    def word(self, text: str, colour: str) -> str:
        return f"{colour}{text}{PLAIN}" if self.coloured else text

    def of_result(self, path: str, result: Result) -> List[str]:
        within = f" ({result.within})" if result.within else ""
        head = f"{path}:{result.line}: {shown(result.text)}"
        if result.passed:
            return [f"{self.word('ok', GREEN)}      {head}{f' -> {shown(result.expected)}' if result.expected else ''}{within}"]
        found = filled("found:    ", shown(result.found))
        expected = [f"{ROOM}expected: {shown(result.expected)}"] if result.expected else []
        return [f"{self.word('FAILED', RED)}  {head}{within if not result.expected else ''}", *expected, *found, *(f"{ROOM}  {it}" for it in result.schedule)]

    @staticmethod
    def of_finding(results, finding):
        return [*message(finding, results.path, results.text, ""), *results.about.get(finding, ())]

    def of_file(self, results: FileResults) -> List[str]:
        if not results.is_understood:
            return [line for it in results.findings for line in self.of_finding(results, it)]
        return [line for it in results.results for line in self.of_result(shown(results.path), it)]


def filled(head: str, text: str) -> List[str]:
    """A text below a head, with room in front."""
    return textwrap.wrap(text, WIDTH, initial_indent=ROOM + head, subsequent_indent=ROOM + " " * len(head), break_on_hyphens=False, break_long_words=False)


def summary_of(passed, failed, not_understood):
    told = f"; {not_understood} {'file' if not_understood == 1 else 'files'} not understood" if not_understood else ""
    return f"{passed} passed, {failed} failed{told}"


def summary(every, share=None):
    """The last line; of a share with its name."""
    told = summary_of(sum(it.passed for it in every), sum(it.failed for it in every), sum(not it.is_understood for it in every))
    return f"{told} (shard {share})" if share else told


# ---- for programs


def fingerprint_of(every):
    """What test files are known by in each of their shares."""
    return fingerprint(part.encode("utf-8", "surrogateescape") for it in every for part in (it.path, it.text.whole))


def document_of_files(files):
    """A document of those of files."""
    passed = [test["passed"] for it in files for test in it["tests"]]
    return {"word": "test", "files": files, "passed": sum(passed), "failed": len(passed) - sum(passed)}


def document_of(every, share=None):
    """The results as a JSON document, which docs/schema/test.json describes."""
    found = document_of_files([file_document(it) for it in every])
    return {**found, "shard": {"index": share.index, "count": share.count, "of": fingerprint_of(every)}} if share else found


def file_document(results):
    faults = [{"line": it.line, "column": it.column, "fault": shown(it.words), "help": shown(it.cure)} for it in results.findings]
    tests = [{"line": it.line, "test": shown(it.text), "expected": shown(it.expected) or None, "found": shown(it.found) or None, "passed": it.passed,
              "within": it.within or None, "schedule": list(it.schedule)} for it in results.results]
    return {"file": shown(results.path), "faults": faults, "tests": tests}


def json_text(document):
    return json.dumps(document, ensure_ascii=False, indent=1)
