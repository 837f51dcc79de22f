"""A document for each word of the program, made of what the word prints, and the same text made of the document."""
from __future__ import annotations

import re
from typing import Any, Dict, Iterator, List, Pattern

from tools.commands import pods
from tools.commands.json_documents.answers import answer_lines, answers_of
from tools.commands.json_documents.explanations import explanation_lines, explanation_of
from tools.commands.json_documents.explorations import exploration_lines, exploration_of
from tools.commands.json_documents.judgements import judgement_lines, judgement_of
from tools.commands.json_documents.ledgers import handover_lines, handover_of, served_lines, served_of
from tools.commands.json_documents.lines import Lines
from tools.commands.json_documents.policies import comparison_lines, comparison_of, finding_lines, findings_of, standing_lines, standings_of
from tools.commands.json_documents.report import counts_of, counts_words, report_lines, report_of
from tools.commands.json_documents.trails import trail_lines, trail_of
from tools.commands.pages.reports import NotAReport

SUMMARY = re.compile("summary (.*)")
SUMS = re.compile(r"pod containers=(\d+) (.*)")


def counts_at(lines: Lines, form: Pattern[Any]) -> List[Any]:
    """The fields of the next line, the last of which are counts."""
    *fields, words = lines.take(form, "a line of counts")
    counts = counts_of(words)
    if counts is None:
        raise NotAReport(lines.at, "other counts should be here")
    return [*fields, counts]


def pod_of(data: bytes) -> Any:
    try:
        reports, last = pods.parts(data)
    except ValueError as fault:
        raise NotAReport(1, str(fault)) from None
    containers, sums = counts_at(Lines(last), SUMS)
    if int(containers) != len(reports):
        raise NotAReport(data.count(b"\n"), f"{containers} containers are counted, and {len(reports)} stand above")
    return {"containers": [{"number": number, **served_of(report)} for number, report in enumerate(reports)], "sums": sums}


def pod_lines(document: Dict[str, Any]) -> Iterator[str]:
    for container in document["containers"]:
        yield f"container {container['number']}"
        yield from served_lines(container)
    yield f"pod containers={len(document['containers'])} {counts_words(document['sums'])}"


def summary_of(data: bytes) -> Dict[str, Dict[str, int]]:
    lines = Lines(data)
    summary, = counts_at(lines, SUMMARY)
    lines.end("the summary")
    return {"summary": summary}


def summary_lines(document: Dict[str, Any]) -> Iterator[str]:
    yield f"summary {counts_words(document['summary'])}"


# for each word how its output is read, and how it is written
WORDS = {
    "play": (report_of, report_lines),
    "handover": (handover_of, handover_lines),
    "explore": (exploration_of, exploration_lines),
    "explain": (explanation_of, explanation_lines),
    "compare": (comparison_of, comparison_lines),
    "check": (standings_of, standing_lines),
    "lint": (findings_of, finding_lines),
    "step": (answers_of, answer_lines),
    "judge": (judgement_of, judgement_lines),
    "run": (served_of, served_lines),
    "lanes": (served_of, served_lines),
    "pod": (pod_of, pod_lines),
    "audit-check": (trail_of, trail_lines),
    "stress": (summary_of, summary_lines),
}


# the exit statuses with which all is printed: what is said of workers and of policies has others, where a clause is broken, where they differ, or where something is refuted, found or not decided
WHOLE = (0, 11, 12)


def document(word: str, output: bytes) -> Dict[str, Any]:
    """The document of what a word printed with such a status. NotAReport says at which line the bytes are no output of that word."""
    return {"word": word, **WORDS[word][0](output)}


def text(found: Dict[str, Any]) -> bytes:
    """The bytes that the word printed, by their document."""
    return "".join(f"{line}\n" for line in WORDS[found["word"]][1](found)).encode("latin-1")
