"""A page of Markdown, as its readers see it: paragraphs, items, cells of tables and headings, without blocks of code and generated parts."""
from __future__ import annotations

import re
from typing import Iterator, List, NamedTuple, Tuple

FENCE = re.compile(r"\s*(```+|~~~+)")
GENERATED, END = re.compile(r"<!-- (?:from|begin of) .* -->"), re.compile(r"<!-- end\b.* -->")
ITEM = re.compile(r"\s*(?:[-*+]|\d+[.)])\s+")
RULE = re.compile(r"\|[\s|:-]+\|")
IMAGE = re.compile(r"!\[[^\]]*\]\([^)]*\)")
LINK = re.compile(r"\[((?:[^\[\]]|\[[^\]]*\])*)\]\([^)]*\)")
CODE = re.compile(r"(`+)(?!`).+?(?<!`)\1(?!`)", re.S)
COMMENT = re.compile(r"<!--.*?-->", re.S)
# a sentence ends at a full stop, before a blank and a word that begins one
END_OF_SENTENCE = re.compile(r"(?<=[^.][.!?])[\"')*]*\s+(?=[\"'*\[]*[A-Z`]|\([A-Z])")


class Text(NamedTuple):
    """A paragraph, an item of a list, a heading, or a cell of a table."""

    line: int
    text: str
    is_cell: bool = False
    is_heading: bool = False


def prose_lines(page: str) -> Iterator[Tuple[int, str]]:
    """The numbered lines of a page outside of blocks of code and generated parts; the others are empty."""
    fence, generated = None, False
    for number, line in enumerate(page.split("\n"), 1):
        mark = FENCE.match(line)
        if generated:
            generated = not END.fullmatch(line.strip())
        elif fence:
            fence = None if mark and mark[1].startswith(fence) and not line.strip().strip("`~") else fence
        elif GENERATED.fullmatch(line.strip()):
            generated = True
        elif mark:
            fence = mark[1]
        elif not line.startswith("    "):
            yield number, line
            continue
        yield number, ""


def cells(row: str) -> List[str]:
    return [it.strip().replace("\\|", "|") for it in re.split(r"(?<!\\)\|", row.strip())[1:-1]]


def texts(page: str) -> Iterator[Text]:
    """The page's paragraphs, items and cells, with the number of the line in which each begins."""
    begin = 0
    parts: List[str] = []
    for number, line in [*prose_lines(page), (0, "")]:
        is_row, is_heading = line.startswith("|"), line.startswith("#")
        if parts and (not line.strip() or is_row or is_heading or ITEM.match(line)):
            yield Text(begin, "\n".join(parts))
            parts = []
        if is_row and not RULE.fullmatch(line.strip()):
            yield from (Text(number, cell, is_cell=True) for cell in cells(line) if cell)
        elif is_heading:
            yield Text(number, line.lstrip("# "), is_heading=True)
        elif line.strip() and not is_row:
            begin = begin if parts else number
            parts.append(ITEM.sub("", line, count=1).strip().removeprefix("> "))


def plain(text: str, code: str = "code") -> str:
    """A text without marks: of a link its label, and a span of code as one word."""
    return LINK.sub(r"\1", CODE.sub(code, IMAGE.sub("", COMMENT.sub("", text)))).replace("**", "").replace("*", "")


def words(text: str) -> List[str]:
    return re.findall(r"\S*\w\S*", plain(text))


def sentences(text: Text) -> List[str]:
    """The sentences of a text; a cell is one."""
    return [text.text] if text.is_cell else END_OF_SENTENCE.split(text.text)
