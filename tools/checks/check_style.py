"""Checks how documents are written, by docs/inside/STYLE.md and the table of their pages.

    tools/checks/check-style                 checks all documents, and the subjects of commits
    tools/checks/check-style PAGE ..         prints each finding of these pages with its line; `help` and `messages` are pages, too
    tools/checks/check-style --lower         lowers the figures of the list of exceptions that got better

Of each page it counts: `words`, in hundreds, where they are more than the page's number in tools/checks/style/pages.json by over a tenth; `sentences` and
cells of more than 25 words; `lines` wider than 100 characters, without tables; `breaks`, sentences that don't begin a line; and `replaced`, words for
which the guide has others (tools/checks/style/replaced.json). Blocks of code and generated parts don't count. `user pages` and `internals` have the words of
these pages together, `help` the sentences and replaced words of the table of commands, and `messages` the replaced words of messages in mistakes/ and
tests/. tools/checks/style/exceptions.json has the figures that pages may still have. They only fall: a figure above its exception fails, and so does one
below it, until the list is lowered. A commit that came after this check has a subject of at most 72 characters.

Exit status: 0 where all figures are those of the list, else 1. The last line is `style: N passed, N failed`.
"""
from __future__ import annotations

import json
import re
import subprocess
from pathlib import Path
from typing import Any, Dict, Iterator, List, Tuple, Union

from tools.commands.command_line import table as commands
from tools.commands.command_line.arguments import ToolParser
from tools.checks.style import markdown
from tools.commands.command_line.top import TOP

TABLES = Path(__file__).resolve().parent / "style"
MOST_WORDS, WIDTH, SUBJECT, TOGETHER = 25, 100, 72, 30_000
# what is counted of the texts of help and of messages, which are no lines of a page; a message may have a long list of names
HELP, MESSAGES = "help", "messages"
TEXTS = {HELP: ("sentences", "replaced"), MESSAGES: ("replaced",)}
SAID, MESSAGE = "---- what is said\n", re.compile(r"^help: (.*(?:\n {6}\S.*)*)|^\S+?:\d+:\d+: (.*)", re.M)
# pages that are a list of their own kind: each line of the changelog is an item, and the guide shows the words that it replaces
NOT_CHECKED = {"CHANGELOG.md", "docs/inside/STYLE.md"}
# pages outside of docs/inside that are for contributors alone
FOR_CONTRIBUTORS = {"CONTRIBUTING.md", "tools/README.md", "cases/README.md"}
# words that begin a paragraph or an item as its title
LEAD = re.compile(r"\*\*[^*]+\*\*\s*")
QUESTION = re.compile(r"\?[\")]*(?:\s*\([^)]*\))?\s*\Z")
KINDS = ("words", "sentences", "lines", "breaks", "replaced")


def table(name: str) -> Union[Dict[str, Any], List[Dict[str, str]]]:
    return json.loads((TABLES / f"{name}.json").read_text(encoding="utf-8"))


def pages() -> List[str]:
    """All documents, by their paths in the repository."""
    listed = subprocess.run(["git", "-C", TOP, "ls-files", "-z", "--cached", "--others", "--exclude-standard", "*.md"], capture_output=True, text=True)
    names = listed.stdout.split("\0")[:-1] if listed.returncode == 0 else [str(path.relative_to(TOP)) for path in TOP.rglob("*.md")]
    return [name for name in sorted(names) if name not in NOT_CHECKED and (TOP / name).is_file()]


def words_in(page: str) -> int:
    return sum(len(markdown.words(text.text)) for text in markdown.texts(page))


def long_sentences(page: str) -> Iterator[Tuple[int, str]]:
    for text in markdown.texts(page):
        for sentence in markdown.sentences(text):
            count = len(markdown.words(sentence))
            if count > MOST_WORDS:
                yield text.line, f"{count} words: {' '.join(sentence.split())}"


def wide_lines(page: str) -> Iterator[Tuple[int, str]]:
    for number, line in markdown.prose_lines(page):
        # (a picture's line, and a link that is longer than a line, can't be broken)
        if len(line) > WIDTH and not line.startswith(("|", "#", "![")) and max(map(len, line.split())) <= WIDTH:
            yield number, f"{len(line)} characters"


def missing_breaks(page: str) -> Iterator[Tuple[int, str]]:
    for number, line in markdown.prose_lines(page):
        if not line.startswith(("|", "#")):
            for sentence in markdown.END_OF_SENTENCE.split(LEAD.sub("", markdown.ITEM.sub("", line, count=1), count=1))[1:]:
                yield number, f"a sentence begins within the line: {sentence}"


def replaced_words(page):
    forms = [(re.compile(rf"\b(?:{it['form']})\b"), it["better"]) for it in table("replaced")]
    for text in (it for it in markdown.texts(page) if not it.is_heading):
        for sentence in markdown.sentences(text):
            plain = markdown.plain(sentence)
            for form, better in forms:
                yield from ((text.line, f"`{found[0]}`, better {better}: {' '.join(plain.split())}") for found in form.finditer(plain) if not QUESTION.search(plain))


FINDINGS = {"sentences": long_sentences, "lines": wide_lines, "breaks": missing_breaks, "replaced": replaced_words}


def texts_of_help(part: Any) -> Iterator[str]:
    """The texts of the table of commands, of which help, the man page and COMMANDS are made."""
    for name, value in part.items() if isinstance(part, dict) else enumerate(part) if isinstance(part, list) else ():
        if name in ("summary", "help"):
            yield value
        elif name == "text":
            yield from value
        elif name == "statuses":
            yield from (text for _, text in value)
        else:
            yield from texts_of_help(value)


def texts_of_messages() -> Iterator[str]:
    """The texts of the messages of mistakes/ and tests/, each without its place and the line that it shows."""
    for path in sorted(it for folder in ("mistakes", "tests") for it in (TOP / folder).glob("*/*.t*t")):
        _, mark, said = path.read_bytes().decode("utf-8", "replace").rpartition(SAID)
        yield from (" ".join("".join(parts).split()) for parts in MESSAGE.findall(said) if mark)


def page_of(name: str) -> str:
    """A document, or the texts of help or of messages with a paragraph for each."""
    if name in TEXTS:
        return "\n\n".join(texts_of_help(commands.read()) if name == HELP else texts_of_messages())
    return (TOP / name).read_text(encoding="utf-8")


def hundreds(count: int) -> int:
    return -(-count // 100) * 100


def figures():
    """The figures of each page that aren't 0, and of the pages together."""
    planned, found, together = table("pages"), {}, {}
    for name in pages():
        page = page_of(name)
        count, most = words_in(page), planned.get(name)
        mine = {kind: len(list(find(page))) for kind, find in FINDINGS.items()}
        mine["words"] = hundreds(count) if most and count * 10 > most * 11 else 0
        found[name] = {kind: mine[kind] for kind in KINDS if mine[kind]}
        kind = "internals" if name.startswith("docs/inside/") or name not in planned or name in FOR_CONTRIBUTORS else "user pages"
        together[kind] = together.get(kind, 0) + count
    found.update({name: {kind: len(list(FINDINGS[kind](page_of(name)))) for kind in kinds} for name, kinds in TEXTS.items()})
    return {**{kind: {"words": hundreds(count)} if count > TOGETHER else {} for kind, count in together.items()}, **found}


def long_subjects() -> List[Any]:
    """The commits after this check whose subjects are too long."""
    git = ["git", "-C", str(TOP), "log", "--no-merges", "--format=%h %s"]
    first = subprocess.run([*git[:4], "--follow", "--diff-filter=A", "--format=%H", "--", str(Path(__file__).resolve())], capture_output=True, text=True).stdout.split()
    if not first:
        return []
    subjects = subprocess.run([*git, f"{first[-1]}..HEAD"], capture_output=True, text=True).stdout.splitlines()
    return [line for line in subjects if len(line.split(" ", 1)[1]) > SUBJECT]


def lowered(now, before):
    """The exceptions with the figures that got better; one that got worse stays."""
    found = {name: {kind: min(now.get(name, {}).get(kind, 0), most) for kind, most in figures.items()} for name, figures in before.items()}
    found = {name: {kind: most for kind, most in figures.items() if most} for name, figures in found.items()}
    return {name: figures for name, figures in found.items() if figures}


def write(exceptions):
    rows = [f" {json.dumps(name)}: {json.dumps(figures)}" for name, figures in sorted(exceptions.items())]
    (TABLES / "exceptions.json").write_text("{\n" + ",\n".join(rows) + "\n}\n" if rows else "{}\n", encoding="utf-8")


def compared(now: Any, before: Any) -> Iterator[Any]:
    """Each figure with what is wrong with it, or None."""
    for name in sorted({*now, *before}):
        for kind in KINDS:
            count, most = now.get(name, {}).get(kind, 0), before.get(name, {}).get(kind, 0)
            worse = f"{name} has {count} {kind}, and may have {most}: see tools/checks/check-style {name}" if name in now else f"{name} isn't there any more"
            yield None if count == most else worse if count > most else f"{name} has {count} {kind} instead of {most}: call tools/checks/check-style --lower"


def shown(names):
    for name in names:
        page = page_of(name) if name in TEXTS else Path(name).read_text(encoding="utf-8")
        print(f"{name}: {words_in(page)} words")
        for line, finding in sorted((line, f"{kind}: {finding}") for kind in TEXTS.get(name, FINDINGS) for line, finding in FINDINGS[kind](page)):
            print(f"{name}:{line}: {finding}")


def main() -> bool:
    parser = ToolParser()
    parser.add_argument("--lower", action="store_true", help="lowers the figures of the list of exceptions that got better")
    parser.add_argument("pages", metavar="PAGE", nargs="*")
    asked = parser.parse_args()
    if asked.pages:
        return shown(asked.pages)
    now, before = figures(), table("exceptions")
    if asked.lower:
        before = lowered(now, before)
        write(before)
    tried = [*compared(now, before), *(f"commit {line.split()[0]} has a subject of {len(line.split(' ', 1)[1])} characters" for line in long_subjects())]
    failed = [it for it in tried if it]
    print("".join(f"style: {it}\n" for it in failed), end="")
    print(f"style: {len(tried) - len(failed)} passed, {len(failed)} failed")
    return len(failed) > 0
