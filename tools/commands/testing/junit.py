"""The results of test files as XML, in the form that systems for jobs read."""
from typing import Iterable, List, NamedTuple
from xml.etree import ElementTree
from xml.etree.ElementTree import Element, SubElement

from tools.commands.testing.output import Lines, fingerprint_of

SHARD, OF = "shard", "of"


class Suite(NamedTuple):
    """A file's tests, or its faults, as elements, and how long it took by the clock."""

    path: str
    cases: List[Element]
    seconds: float


def printable(text):
    """A text without characters that XML can't have."""
    return "".join(it if it.isprintable() or it in "\n\t" else "\N{REPLACEMENT CHARACTER}" for it in text)


def text_of(every, seconds, share=None):
    """The results as XML; of the whole and of each file with how long it took by the clock. Files are tried side by side. A share says so in the properties of each file."""
    properties = {SHARD: str(share), OF: fingerprint_of(every)} if share else {}
    return text([Suite(it.path, list(cases_of(it)), it.seconds) for it in every], seconds, properties)


def counted(cases):
    """The attributes that count tests, as XML has them."""
    failures, errors = (sum(it.find(name) is not None for it in cases) for name in ("failure", "error"))
    return {"tests": str(len(cases) - errors), "failures": str(failures), "errors": str(errors)}


def text(suites: Iterable[Suite], seconds, properties=None):
    """Suites as XML."""
    root = Element("testsuites", counted([case for it in suites for case in it.cases]), time=f"{seconds:.3f}")
    for it in suites:
        suite = SubElement(root, "testsuite", {"name": printable(it.path), **counted(it.cases)}, time=f"{it.seconds:.3f}")
        if properties:
            stated = SubElement(suite, "properties")
            for name, value in properties.items():
                SubElement(stated, "property", name=name, value=value)
        suite.extend(it.cases)
    # (Python 3.8 has no function for that)
    if hasattr(ElementTree, "indent"):
        ElementTree.indent(root)
    return f'<?xml version="1.0" encoding="utf-8"?>\n{ElementTree.tostring(root, encoding="unicode")}\n'


def cases_of(results):
    """The tests of a file; of one that isn't understood its faults, an error each."""
    for finding in results.findings:
        yield case_of(results.path, "the file is understood", finding.line, "error", finding.words, Lines.of_finding(results, finding))
    for it in results.results:
        yield case_of(results.path, it.name, it.line, *(() if it.passed else ("failure", it.found, Lines(False).of_result(results.path, it))))


def case_of(path, name, line, wrong=None, message="", lines=()):
    """A test; `wrong` is the element that says how it failed."""
    case = Element("testcase", classname=printable(path), name=printable(name), file=printable(path), line=str(line))
    if wrong:
        SubElement(case, wrong, message=printable(message)).text = printable("\n".join(lines))
    return case
