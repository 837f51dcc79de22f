"""Checks the links of all documents: that each names a file or folder of the repository, and a heading where it has one.

    tools/checks/check-links [DOCUMENT ..]

Without words it checks every .md file that git knows, or that is there where this is no git checkout. Links to other hosts aren't followed.
It then also checks that links lead from README to each document, that tools/README.md has each program, file and folder of tools/ and bench/, and no other, and that each file
that a page for contributors names by its path is there, as do the rows of RECIPES, in which a name without a folder stands for one of the folder named last.

Exit status: 0 if all links lead somewhere, each document is reached and that page is whole, else 1. The last line is `links: N passed, N failed`.
"""
from __future__ import annotations

import os
import re
import subprocess
from pathlib import Path
from typing import Any, Iterator, List, Set, Tuple

from tools.checks.tallies import Tally
from tools.commands.command_line.arguments import ToolParser
from tools.commands.command_line.top import TOP

FENCED = re.compile(r"^(```+|~~~+).*?^\1\s*$", re.M | re.S)
CODE = re.compile(r"(`+)(?!`).+?(?<!`)\1(?!`)", re.S)
LINK = re.compile(r"\[(?:[^\[\]]|\[[^\]]*\])*\]\(<?([^()\s<>]+)>?(?:\s+\"[^\"]*\")?\)")
REFERENCE = re.compile(r"^ {0,3}\[[^\]]+\]:\s+<?(\S+?)>?(?:\s|$)", re.M)
PATH, NAME = re.compile(r"`((?:crates|tools|docs|tests|cases|examples|lib|include|bench|mistakes|\.ci)/[\w./-]*\w)`"), re.compile(r"`([^`]+)`")
HEADING = re.compile(r"^#{1,6}\s+(.*?)\s*#*\s*$", re.M)


def documents():
    listed = subprocess.run(["git", "-C", TOP, "ls-files", "-z", "--cached", "--others", "--exclude-standard", "*.md"], capture_output=True, text=True)
    names = listed.stdout.split("\0")[:-1] if listed.returncode == 0 else [path.relative_to(TOP) for path in TOP.rglob("*.md")]
    return [TOP / name for name in names if (TOP / name).is_file()]


def text_of(path: Path) -> str:
    """The document without its blocks of code."""
    return FENCED.sub("", path.read_text(encoding="utf-8"))


def anchors(path):
    """What may stand behind # in a link to the document, as GitHub names headings."""
    found = {}
    for heading in HEADING.findall(text_of(path)):
        plain = re.sub(r"\[([^\]]*)\]\([^)]*\)", r"\1", heading)
        slug = re.sub(r"[^\w\- ]", "", plain.lower()).replace(" ", "-")
        found[slug] = found.get(slug, -1) + 1
        if found[slug]:
            found[f"{slug}-{found[slug]}"] = 0
    return found


def links(path: Path) -> List[str]:
    text = CODE.sub("", text_of(path))
    return [link for link in LINK.findall(text) + REFERENCE.findall(text) if not re.match(r"[a-z][a-z0-9+.-]*:", link)]


def fault(path, link):
    """What is wrong with a link of the document; None where it leads somewhere."""
    name, _, anchor = link.partition("#")
    target = Path(os.path.normpath(path.parent / name)) if name else path
    if TOP not in (target, *target.parents):
        return "leaves the repository"
    if not target.exists():
        return "leads to no file"
    if anchor and anchor not in anchors(target):
        return "leads to no heading"
    return None


def linked_pages(path: Path) -> Set[Path]:
    """The documents to which a document links."""
    targets = (Path(os.path.normpath(path.parent / link.partition("#")[0])) for link in links(path))
    return {target for target in targets if target.suffix == ".md" and target.is_file()}


def reached_from_readme() -> Iterator[Tuple[Path, str, Any]]:
    """Each document, with what is wrong if no links lead to it from README."""
    reached, ahead = set(), {TOP / "README.md"}
    while ahead:
        reached |= ahead
        ahead = {page for path in ahead for page in linked_pages(path)} - reached
    for page in sorted(documents()):
        yield page, "the page", None if page in reached else "isn't reached from README"


def rows_of_tools() -> Iterator[Tuple[Path, str, Any]]:
    """The programs, files and folders in those of tools/ and in bench/, and the names in the first cells of tools/README.md: each with what is wrong with it."""
    page = TOP / "tools/README.md"
    stated = set(re.findall(r"^\| `([^`/]+)`(?: of `bench/`)? \|", page.read_text(encoding="utf-8"), re.M))
    folders = [*(path for path in (TOP / "tools").iterdir() if path.is_dir()), TOP / "bench"]
    there = {path.name for folder in folders for path in folder.iterdir() if not path.name.startswith("__")}
    # the module of an executable goes by the executable's name
    there = {name for name in there if not name.endswith(".py") or name[:-3].replace("_", "-") not in there}
    for name in sorted(stated | there):
        yield page, name, "isn't on the page" if name not in stated else "isn't there" if name not in there else None


def paths_of_contributors():
    """Each path that a page for contributors has, with what is wrong with it."""
    for page in (it for it in documents() if it.parent == TOP / "docs/inside" or it.name == "CONTRIBUTING.md"):
        yield from ((page, path, None if (TOP / path).exists() else "isn't there") for path in PATH.findall(text_of(page)))


def files_of_recipes():
    """Each file in the first cells of RECIPES, with what is wrong with it."""
    page = TOP / "docs/inside/RECIPES.md"
    for row in (it for it in page.read_text(encoding="utf-8").split("\n") if it.startswith("| `")):
        folder = TOP
        for name in NAME.findall(row.split(" | ")[0]):
            path = (TOP if (TOP / name.split("/")[0]).exists() else folder) / name
            folder = path if path.is_dir() else path.parent
            yield page, name, None if path.exists() or "." not in path.name else "isn't there"


def main() -> bool:
    parser = ToolParser()
    parser.add_argument("names", metavar="DOCUMENT", nargs="*")
    asked = parser.parse_args()
    names = asked.names
    tried = [(path, link, fault(path, link)) for path in ([Path(name).resolve() for name in names] or documents()) for link in links(path)]
    tried += [] if names else [*reached_from_readme(), *rows_of_tools(), *paths_of_contributors(), *files_of_recipes()]
    return Tally("links").note_all((f"{path.relative_to(TOP)}", why and f"{link} {why}") for path, link, why in tried).ended()
