"""Results of test files, as JSON documents or as XML: what joins those of shares."""
from __future__ import annotations

from typing import Any, Dict, Iterable, Iterator, List, Sequence, Tuple, Union
from xml.etree import ElementTree

from tools.commands.sharding.shares import Described, NotJoined, Share, share
from tools.commands.testing import junit
from tools.commands.testing.output import Lines, document_of_files
from tools.commands.testing.results import Result

# ---- JSON


def described(document: Dict[str, Any]) -> Described:
    told = document["shard"]
    return Described(Share(told["index"], told["count"]), told["of"])


def joined(documents: List[Dict[str, Any]]) -> Dict[str, Any]:
    """The document of all tests, of those of the shares. A file that isn't understood in one of them has no tests."""
    return document_of_files([joined_file(parts) for parts in zip(*(it["files"] for it in documents))])


def joined_file(parts: Tuple[Dict[str, Any], ...]) -> Dict[str, Any]:
    faults = unique(fault for it in parts for fault in it["faults"])
    tests = [test for it in parts for test in it["tests"]]
    # (of tests on the same line all are in one share)
    return {"file": parts[0]["file"], "faults": sorted(faults, key=lambda it: (it["line"], it["column"])), "tests": [] if faults else sorted(tests, key=lambda it: it["line"])}


def unique(items: Iterator[Any]) -> List[Dict[str, Union[int, str]]]:
    found = []
    for it in items:
        found += [] if it in found else [it]
    return found


def lines(document: Dict[str, Any]) -> Iterator[str]:
    """What is said of the tests that failed, and of what wasn't understood."""
    for file in document["files"]:
        for it in file["faults"]:
            yield f"{file['file']}:{it['line']}:{it['column']}: {it['fault']}"
            yield from [f"help: {it['help']}"] if it["help"] else []
        for it in file["tests"]:
            if not it["passed"]:
                result = Result(it["line"], it["test"], it["expected"] or "", it["found"] or "", False, it["within"] or "", tuple(it["schedule"]))
                yield from Lines(False).of_result(file["file"], result)


# ---- XML


def read_xml(data: bytes) -> ElementTree.Element:
    """The root of results as XML. Raises NotJoined."""
    if b"<!" in data:
        raise NotJoined("declarations of types aren't read")
    try:
        root = ElementTree.fromstring(data)
    except ElementTree.ParseError as fault:
        raise NotJoined(f"it isn't XML: {fault}") from None
    if root.tag != "testsuites":
        raise NotJoined("it has no results of tests")
    return root


def described_xml(root: Any) -> Described:
    stated = {it.get("name"): it.get("value") for it in root.iter("property")}
    return Described(share(stated[junit.SHARD]), stated[junit.OF])


def joined_xml(roots: List[ElementTree.Element]) -> Tuple[List[junit.Suite], float]:
    """The suites of all tests, and the seconds: those of the share that took longest."""
    suites = [joined_suite(parts) for parts in zip(*(it.findall("testsuite") for it in roots))]
    return suites, longest(roots)


def joined_suite(parts: Sequence[ElementTree.Element]) -> junit.Suite:
    cases = [case for it in parts for case in it.findall("testcase")]
    errors = [it for it in cases if it.find("error") is not None]
    kept = {ElementTree.tostring(it).strip(): it for it in errors}.values() if errors else cases
    return junit.Suite(parts[0].get("name", ""), sorted(kept, key=lambda it: int(it.get("line", "0"))), longest(parts))


def longest(elements: Iterable[ElementTree.Element]) -> float:
    return max(float(it.get("time", "0")) for it in elements)


def lines_xml(suites: List[junit.Suite]) -> Iterator[str]:
    """What is said of the tests that failed, and of what wasn't understood."""
    for suite in suites:
        for case in suite.cases:
            for wrong in (*case.findall("error"), *case.findall("failure")):
                yield from (wrong.text or "").split("\n")
