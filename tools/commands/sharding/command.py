"""The command merge: what it does with its words."""
from __future__ import annotations

import json
import sys
from argparse import Namespace
from typing import Any, Dict, List, Tuple

from tools.commands.command_line import written
from tools.commands.command_line.arguments import Parser
from tools.commands.command_line.ending import reason
from tools.commands.exploring import telling
from tools.commands.exploring.command import UNDECIDED, WRITE_FAULT, status_of
from tools.commands.sharding import explorations, tests
from tools.commands.sharding.shares import NotJoined, Unlike, missing
from tools.commands.testing import junit, output
from tools.commands.testing.command import FAILED, NOT_UNDERSTOOD, PASSED

NOT_WHOLE = 2
MOST_BYTES = 268_435_456
# what is raised by a document of another form
OF_ANOTHER_FORM = (KeyError, TypeError, ValueError, AttributeError, IndexError)


def asked(words: List[str]) -> Namespace:
    parser = Parser("merge")
    parser.add_argument("-o", "--output", metavar="FILE", help="the file that is written")
    parser.add_argument("files", metavar="FILE", nargs="+", help="the results of parts")
    return parser.parse_args(words)


class Tests:
    """Results of `test --json`."""

    described = staticmethod(tests.described)

    def __init__(self, documents: List[Dict[str, Any]]) -> None:
        self.document = tests.joined(documents)
        self.text = output.json_text(self.document) + "\n"
        files = self.document["files"]
        not_understood = sum(bool(it["faults"]) for it in files)
        self.said = [*tests.lines(self.document), output.summary_of(self.document["passed"], self.document["failed"], not_understood)]
        self.status = NOT_UNDERSTOOD if not_understood else FAILED if self.document["failed"] else PASSED


class TestsAsXML:
    """Results of `test --junit`."""

    described = staticmethod(tests.described_xml)

    def __init__(self, roots: Any) -> None:
        suites, seconds = tests.joined_xml(roots)
        self.text = junit.text(suites, seconds)
        counts = junit.counted([case for it in suites for case in it.cases])
        ran, failed = int(counts["tests"]), int(counts["failures"])
        not_understood = sum(junit.counted(it.cases)["errors"] != "0" for it in suites)
        self.said = [*tests.lines_xml(suites), output.summary_of(ran - failed, failed, not_understood)]
        self.status = NOT_UNDERSTOOD if not_understood else FAILED if failed else PASSED


class Exploration:
    """Results of `explore-broker --json`."""

    described = staticmethod(explorations.described)

    def __init__(self, documents: Any) -> None:
        explored = explorations.joined(documents)
        self.text = json.dumps(explorations.document(explored), ensure_ascii=False, indent=1) + "\n"
        self.said = telling.whole_text(explored).splitlines()
        self.status = status_of(explored)


WORDS = {"test": Tests, explorations.WORD: Exploration}


def bytes_of(path: str) -> bytes:
    with open(path, "rb") as file:
        data = file.read(MOST_BYTES + 1)
    if len(data) > MOST_BYTES:
        raise NotJoined(f"it has more than {MOST_BYTES:,} bytes")
    return data


def read(path: str) -> Tuple[Any, Any, Any]:
    """What joins results as those at a path, the results, and what they say of their share. Raises NotJoined and OSError."""
    data = bytes_of(path)
    kind: Any
    found: Any
    try:
        if data.lstrip()[:1] == b"<":
            kind, found = TestsAsXML, tests.read_xml(data)
        else:
            found = json.loads(data)
            kind = WORDS[found["word"]]
        return kind, found, kind.described(found)
    except (*OF_ANOTHER_FORM, RecursionError):
        raise NotJoined("it isn't the result of a part: give --shard I/N, and --json or --junit, to each") from None


def read_all(paths: List[str]) -> Tuple[Any, List[Any], List[str]]:
    """What joins the results, the results in the order of their shares, and which shares are missing. Raises NotJoined and OSError."""
    known = []
    for path in paths:
        try:
            known.append((path, *read(path)))
        except NotJoined as fault:
            raise NotJoined(f"{path}: {fault}") from None
    if len({kind for _, kind, _, _ in known}) > 1:
        raise NotJoined("the results are of several kinds")
    lost = missing([(path, described) for path, _, _, described in known])
    known.sort(key=lambda it: it[3].share)
    return known[0][1], [found for _, _, found, _ in known], lost


class NotWritten(OSError):
    """A file can't be written."""


def write(path: str, text: str) -> None:
    try:
        written.write(path, text.encode("utf-8", "backslashreplace"))
    except OSError as fault:
        raise NotWritten(fault.errno, fault.strerror, path) from None


def say(text: Any) -> None:
    print(f"merge: {text}", file=sys.stderr)


def run(words: Namespace) -> int:
    kind, results, lost = read_all(words.files)
    try:
        whole = kind(results)
    except OF_ANOTHER_FORM:
        raise NotJoined("a result is damaged") from None
    text = whole.text if words.output is None else "".join(f"{line}\n" for line in whole.said)
    if words.output is not None:
        write(words.output, whole.text)
    sys.stdout.buffer.write(text.encode("utf-8", "backslashreplace"))
    sys.stdout.flush()
    for it in lost:
        say(it)
    return NOT_WHOLE if lost else whole.status


def main(words: List[str]) -> int:
    try:
        return run(asked(words))
    except NotJoined as fault:
        say(fault)
        return UNDECIDED if isinstance(fault, Unlike) else NOT_WHOLE
    except OSError as fault:
        say(f"{fault.filename}: {reason(fault)}")
        return WRITE_FAULT if isinstance(fault, NotWritten) else NOT_WHOLE
