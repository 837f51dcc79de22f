"""Checks that JSON and text say the same: tools/checks/check-json [PROGRAM]

The program prints each case and example that ends well, and each word's output on the examples besides. Each output becomes a document, and
the document the same text again, byte for byte; and it is what its schema in docs/schema says. Small documents are damaged, key by key and
value by value, and then no longer are. Last, the command `json` is tried. The greatest inputs are played at a hundredth of their size, since
their lines are no others; the variable DIVIDE has another number.

PROGRAM is the program that is run; without it, the one that ./broker runs. Exit status: 0 where all is so, else 1. The last line is
`json: N passed, N failed`.
"""
from __future__ import annotations

import json
import subprocess
import tempfile
from pathlib import Path
from typing import Any, Iterator, List, Tuple

from tools.checks import known
from tools.checks.json_schemas import Schemas, undetected
from tools.checks.tallies import Tally
from tools.commands.command_line import arguments
from tools.commands.command_line.top import TOP
from tools.commands.json_documents.documents import WHOLE, WORDS, document, text
from tools.commands.pages.reports import NotAReport

FILES = ["policy.json", "script.txt"]
# the words that are run on each example, and one document of each is damaged
ON_EXAMPLES = [["play", *FILES], ["handover", *FILES, "1"], ["handover", *FILES, "3"], ["run", *FILES, "1", "1"], ["lanes", *FILES, "1"],
               ["pod", "1", "1", *FILES], ["run", *FILES, "1", "1", "every", "2"], ["lanes", *FILES, "1", "every", "1"], ["pod", "1", "1", "every", "3", *FILES], ["explore", *FILES, "0", "1"],
               ["step", *FILES], ["judge", *FILES], ["audit-check", *FILES, "report.txt"]]
# what `step` is asked on each example: answers of each kind
REQUESTS = b"able\nt 0\nt 0\nt 0\nable\nw 0 recv\nw 0 open-mem 1\nw 0 check 1\nw 0 read 65536 16\nw 0 addfd 1 9 0 0 0\nw 0 read 0 1\nw 0\n\nt 7\nt 0\nreport\nclose\nable\n"
DAMAGED = "examples/first"
# what a document of a word may lack
OPTIONAL = {"explore": {"/workers is missing", "/delays is missing"}, "run": {"/ledgers is missing"}, "lanes": {"/ledgers is missing"}, "pod": {"/containers/0/ledgers is missing"}}
# schemas of parts, and of tools, which tools/checks/check-tests and check-shards check
NOT_OF_WORDS = {"report", "test", "explore-broker"}
# of each word other outputs that it may print: with the greatest numbers, with nothing, and with texts in which the words of their lines stand
FORMS = TOP / "tests/forms"


def status_of(folder: Path) -> int:
    """The exit status that a case should have."""
    stated = folder / "status"
    return int(stated.read_text(encoding="ascii")) if stated.exists() else 0


def rows(room: str) -> Iterator[Any]:
    """A folder and the words that are run in it, each with a name."""
    for args in sorted(Path(room).glob("cases/**/args")):
        words = args.read_text(encoding="utf-8").splitlines()
        if words and words[0] in WORDS and status_of(args.parent) in WHOLE and not any((args.parent / name).exists() for name in ("err-full", "fsize")):
            yield str(args.parent.relative_to(room)), args.parent, words
    for report in sorted(Path(room).glob("examples/**/report.txt")):
        for words in ON_EXAMPLES if (report.parent / "policy.json").exists() else []:
            yield f"{report.parent.relative_to(room)}: {words[0]}", report.parent, words


def faults(schemas: Schemas, word: str, output: bytes) -> List[Any]:
    """What is wrong with the document of an output, as texts."""
    try:
        found = json.loads(json.dumps(document(word, output)))
    except NotAReport as fault:
        return [f"it can't be read: {fault}"]
    wrong = schemas.fault(word, found)
    return ["its text is another one"] * (text(found) != output) + ([f"it isn't as its schema says: {wrong}"] if wrong else [])


def ended_of(words, folder):
    """How a command ends; `step` is asked what the case asks, or else what stands above."""
    with tempfile.TemporaryFile() as requests:
        stated = Path(folder, "stdin")
        requests.write(stated.read_bytes() if stated.exists() else REQUESTS)
        requests.seek(0)
        return subprocess.run(words, cwd=folder, stdin=requests, stdout=subprocess.PIPE, stderr=subprocess.PIPE)


def command(program: str, folder: str, *words: str) -> Any:
    return ended_of([TOP / "tools/commands/json", "--program", program, *words], folder)


def command_faults(program: str, folder: str) -> Iterator[Any]:
    """Whether the command prints the document, and ends as the program does."""
    for words in (["play", *FILES], ["play", *FILES, "more"], ["play", "none.json", "script.txt"], ["audit-check", *FILES, "script.txt"], ["step", *FILES], ["step", "script.txt", "script.txt"], ["stress", "7", "3"]):
        plain = ended_of([program, *words], folder)
        ended = command(program, folder, *words)
        expected = document(words[0], plain.stdout) if plain.returncode in WHOLE else None
        if (ended.returncode, ended.stderr) != (plain.returncode, plain.stderr) or (json.loads(ended.stdout) if ended.stdout else None) != expected:
            yield f"json {' '.join(words)}: status {ended.returncode}, {ended.stderr!r}"
    ended = command(program, folder, "pley")
    if ended.returncode != 1 or b"'play'" not in ended.stderr or ended.stdout:
        yield f"json pley: status {ended.returncode}, {ended.stderr!r}"


def tried(program: str, room: str) -> Iterator[Tuple[str, List[Any]]]:
    """What was tried: a name, and what is wrong."""
    schemas = Schemas(TOP / "docs/schema")
    yield "a schema for each word", sorted(set(WORDS) ^ (set(schemas.read) - NOT_OF_WORDS))
    for name, folder, words in rows(room):
        ended = ended_of([program, *words], folder)
        # (an example may have a script that only some words take)
        wrong = faults(schemas, words[0], ended.stdout) if ended.returncode in WHOLE else [f"status {ended.returncode}: {ended.stderr!r}"]
        yield name, wrong
        if name.startswith(f"{DAMAGED}: ") and not wrong:
            yield f"{name}, damaged", undetected(schemas, words[0], document(words[0], ended.stdout), OPTIONAL.get(words[0], ()))
    for path in sorted(FORMS.glob("*/*.txt")):
        name, word, output = str(path.relative_to(FORMS)), path.parent.name, path.read_bytes()
        yield name, faults(schemas, word, output)
        yield f"{name}, damaged", undetected(schemas, word, document(word, output), OPTIONAL.get(word, ()))
    yield "the command", list(command_faults(program, f"{room}/{DAMAGED}"))


def main() -> bool:
    program = arguments.program_asked()
    with tempfile.TemporaryDirectory(prefix="check-json-") as room:
        known.copied(room, DIVIDE="100")
        return Tally("json").note_all(tried(program, room)).ended()
