"""Makes man(7) of the Markdown that the documents are written in: headings, paragraphs, lists, tables and blocks of code."""
from __future__ import annotations

import re
import textwrap
from typing import Iterator, List, Tuple

INLINE = re.compile(r"(`+)(.+?)\1|\*\*(.+?)\*\*|!?\[((?:[^\[\]]|\[[^\]]*\])*)\]\([^)]*\)", re.S)
END_OF_SENTENCE = re.compile(r"(?<=[^.][.!?:;]) +|(?<=[.!?][)\"]) +")
SPECIAL = {"\\": "\\e", "-": "\\-", "'": "\\(aq", "`": "\\(ga", "^": "\\(ha", "~": "\\(ti"}
WIDTH = 76


def escaped(text: str, is_code: bool = False) -> str:
    special = SPECIAL if is_code else {name: SPECIAL[name] for name in ("\\", "`", "^", "~")}
    return "".join(special.get(letter, letter) for letter in text)


def plain(text: str) -> str:
    """A text without marks, as headings have it."""
    return INLINE.sub(lambda found: found[2] or found[3] or plain(found[4] or ""), text)


def inline(text: str) -> str:
    """A text with its marks as fonts."""
    parts, at = [], 0
    for found in INLINE.finditer(text):
        parts.append(escaped(text[at:found.start()]))
        if found[2] is not None:
            parts.append("\\fB" + escaped(found[2].strip(), True) + "\\fR" if found[2].strip() else "")
        elif found[3] is not None:
            parts.append(f"\\fB{inline(found[3])}\\fR")
        else:
            parts.append(inline(found[4]))
        at = found.end()
    return "".join([*parts, escaped(text[at:])])


def line(text: str) -> str:
    """A line of text that isn't taken for a request."""
    return f"\\&{text}" if text[:1] in (".", "'") else text


def sentences(text: str) -> List[str]:
    """The lines of a paragraph: each sentence begins one."""
    found = []
    for sentence in END_OF_SENTENCE.split(" ".join(inline(text).split(" "))):
        # (a word that doesn't end, as a long code span, may be longer)
        found += textwrap.wrap(sentence.strip(), WIDTH, break_long_words=False, break_on_hyphens=False)
    return [line(it) for it in found]


def code(lines: List[str]) -> List[str]:
    return [".IP", ".EX", *(line(escaped(it.rstrip(), True)) or "\\&" for it in lines), ".EE"]


def cells(row: str) -> List[str]:
    return [it.strip().replace("\\|", "|") for it in re.split(r"(?<!\\)\|", row.strip())[1:-1]]


def told(head: List[str], row: List[str]) -> List[str]:
    """What a row says of its first cell: of more than two cells each with the head of its column. Nothing is said of empty ones."""
    texts = [text if len(row) == 2 else f"{plain(name)}: {text}" for name, text in zip(head[1:], row[1:]) if text]
    return [it for at, text in enumerate(texts) for it in [".br"] * (at > 0) + sentences(text)]


def item(tag: str, lines: List[str]) -> List[str]:
    """An item of a list. A tag is one line of the source, so a longer one is a paragraph."""
    if not lines:
        return [".PP", *sentences(tag)]
    marked = line(inline(tag))
    return [".TP", marked, *lines] if len(marked) <= WIDTH else [".PP", *sentences(tag), ".RS", *lines, ".RE"]


def table(rows: List[str]) -> List[str]:
    """A table as a list: the first column is the tag. A row without one goes on with the item before it."""
    found: List[str] = []
    head, *body = [cells(row) for row in rows if not re.fullmatch(r"[|\s:-]+", row)]
    for row in body:
        lines = told(head, row)
        if row[0] or not found:
            found += item(row[0] or "\\&", lines)
        elif lines:
            at = len(found) - (found[-1] == ".RE")
            found[at:at] = [".br", *lines]
    return found


def blocks(lines: List[str]) -> Iterator[Tuple[str, List[str]]]:
    """The blocks of a document's part: their kind and their lines."""
    at = 0
    while at < len(lines):
        text, begin = lines[at], at
        if not text.strip():
            at += 1
        elif text.startswith("```"):
            at = next(it for it in range(at + 1, len(lines)) if lines[it].startswith("```")) + 1
            yield "code", lines[begin + 1:at - 1]
        elif text.startswith("#"):
            at += 1
            yield "heading", [text]
        elif text.startswith("|"):
            while at < len(lines) and lines[at].startswith("|"):
                at += 1
            yield "table", lines[begin:at]
        elif text.startswith("    "):
            while at < len(lines) and (lines[at].startswith("    ") or not lines[at].strip() and at + 1 < len(lines) and lines[at + 1].startswith("    ")):
                at += 1
            yield "code", [it[4:] for it in lines[begin:at]]
        else:
            item = re.match(r"(-|\d+\.) +", text)
            at += 1
            while at < len(lines) and lines[at].strip() and not re.match(r"(-|\d+\.) |```|\||#", lines[at]):
                at += 1
            yield ("item" if item else "text"), [it.strip() for it in lines[begin:at]]


def man(lines: List[str], top: int) -> List[str]:
    """The lines of a document's part as man(7); headings of the level `top` are sections."""
    found = []
    for kind, block in blocks(lines):
        if kind == "heading":
            level, _, text = block[0].partition(" ")
            name = plain(text)
            found.append(f".SH {escaped(name.upper())}" if len(level) <= top else f".SS {escaped(name)}")
        elif kind == "code":
            found += code(block)
        elif kind == "table":
            found += table(block)
        elif kind == "item":
            mark, _, text = " ".join(block).partition(" ")
            found += [".IP " + ("\\(bu 2" if mark == "-" else f"{mark} 4"), *sentences(text.lstrip(" "))]
        else:
            found += [".PP", *sentences(" ".join(block))]
    # a section's first paragraph needs no mark
    return [it for at, it in enumerate(found) if it != ".PP" or at and not found[at - 1].startswith((".SH", ".SS"))]


def section(document: str, heading: str) -> List[str]:
    """The lines of a document from a heading of the second level to the next one, without comments."""
    lines = [line for line in document.split("\n") if not line.startswith("<!-- ")]
    begin = lines.index(f"## {heading}")
    fenced = False
    for at in range(begin + 1, len(lines)):
        fenced ^= lines[at].startswith("```")
        if lines[at].startswith("## ") and not fenced:
            return lines[begin:at]
    return lines[begin:]
