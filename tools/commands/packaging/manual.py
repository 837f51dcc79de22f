"""The man pages: seccomp-broker(1) of the table of words, the others of the documents' own sections."""
from __future__ import annotations

import textwrap
import time as clock
from typing import Any, Dict, Iterable, List

from tools.commands.command_line import pages as texts
from tools.commands.command_line import place, table
from tools.commands.packaging import roff
from tools.commands.packaging.roff import escaped, line, sentences

COMMAND = "seccomp-broker"
EXAMPLES = "/usr/share/seccomp-broker/examples"


def document(name: str) -> str:
    with open(f"{place.HOME}/{name}", encoding="utf-8") as file:
        return file.read()


def head(name: str, number: int, summary: str, version: str, time: int) -> List[str]:
    date = clock.strftime("%Y-%m-%d", clock.gmtime(time))
    return [f".TH {escaped(name.upper(), True)} {number} {date} \"seccomp-broker {version}\"", ".SH NAME", *textwrap.wrap(f"{escaped(name, True)} \\- {escaped(summary)}", roff.WIDTH)]


def filled(text: str) -> str:
    return texts.filled(text, COMMAND, EXAMPLES)


def bold(text: str) -> str:
    return "\\fB" + escaped(filled(text), True) + "\\fR"


def listed(rows: Iterable[Any]) -> List[str]:
    """Rows of two columns as a list."""
    found = []
    for name, text in rows:
        found += [".TP", bold(name), *sentences(filled(text))]
    return found


def word(known: Dict[str, Any], entry: Dict[str, Any]) -> List[str]:
    """What the page of the command says of one word."""
    found = [f".SS {escaped(entry['word'], True)}"]
    for at, form in enumerate(entry["forms"]):
        found += [".br"] * (at > 0) + [line(bold(f"{entry['word']} ").rstrip() + escaped(form, True))]
    for text in entry["text"]:
        found += [".PP", *sentences(filled(text))]
    found += listed(texts.rows_of(known, entry))
    if entry.get("statuses"):
        found += [".PP", "Exit status:", *listed(entry["statuses"])]
    if entry.get("examples"):
        found += roff.code([filled(it) for it in entry["examples"]])
    return found


def see_also(known: Dict[str, Any], name: str, number: int) -> List[str]:
    pages = [(COMMAND, 1), *((it["name"], it["section"]) for it in known["manual"])]
    others = sorted((it for it in pages if it != (name, number)), key=lambda it: (it[1], it[0]))
    lines = [f".BR {escaped(it, True)} ({at})," for it, at in others]
    return [".SH SEE ALSO", *lines, ".BR seccomp_unotify (2)"]


def of_command(known: Dict[str, Any], version: str, time: int) -> List[str]:
    found = [*head(COMMAND, 1, known["summary"], version, time), ".SH SYNOPSIS", ".B seccomp\\-broker", ".I COMMAND", "\\&..", ".br", ".B seccomp\\-broker help", ".RI [ COMMAND ]",
             ".br", ".B seccomp\\-broker \\-\\-version", ".SH DESCRIPTION"]
    for at, text in enumerate(known["text"]):
        found += [".PP"] * (at > 0) + sentences(filled(text))
    kinds = {"program": "COMMANDS OF THE PROGRAM", "tool": "TOOLS"}
    for kind, title in kinds.items():
        found.append(f".SH {title}")
        for entry in known["words"]:
            found += word(known, entry) if entry["kind"] == kind else []
    found += [".SH OPTIONS", *listed((texts.shown(it), it["help"]) for it in known["options"] if "only" not in it)]
    statuses = roff.man(roff.section(document("docs/reference/STATUSES.md"), "Exit statuses"), 2)
    found += [".SH EXIT STATUS", "A tool's own statuses are in its section.", "Those of the program\\(aqs commands are:", *statuses[1:]]
    return [*found, *see_also(known, COMMAND, 1)]


def of_document(known: Dict[str, Any], page: Dict[str, Any], version: str, time: int) -> List[str]:
    found = head(page["name"], page["section"], page["summary"], version, time)
    for heading in page["headings"]:
        # (a heading of another document stands after its name)
        name, _, title = heading.rpartition("#")
        found += roff.man(roff.section(document(name or page["document"]), title), 2)
    return [*found, *see_also(known, page["name"], page["section"])]


def pages(version: str, time: int, of: str = "command") -> Dict[str, str]:
    """The pages that stand with the command, or with the C library, by the names of their files."""
    known = table.read()
    found = {f"{COMMAND}.1": of_command(known, version, time)} if of == "command" else {}
    for page in known["manual"]:
        if page.get("of", "command") == of:
            found[f"{page['name']}.{page['section']}"] = of_document(known, page, version, time)
    return {name: "\n".join(lines) + "\n" for name, lines in found.items()}
