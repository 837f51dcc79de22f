"""The commands, as COMMANDS has them: of the table that `help` and the man page are made of."""
from __future__ import annotations

from typing import Any, Dict

from tools.commands.command_line import pages, table
from tools.upkeep.tables.page import rows

KINDS = {"program": "Commands of the program", "tool": "Tools"}


def filled(text: str) -> str:
    return pages.filled(text, "seccomp-broker", "examples")


def section(known: Dict[str, Any], entry: Dict[str, Any]) -> str:
    forms = "\n".join(filled(f"    {{command}} {entry['word']} {form}").rstrip() for form in entry["forms"])
    parts = [f"### `{entry['word']}`", forms, filled(f"{entry['summary'][0].upper()}{entry['summary'][1:]}."), *(filled(text) for text in entry["text"])]
    of_all = {known[name]["names"][0] for name in ("explain", "plain")}
    arguments = [(f"`{name}`", filled(text)) for name, text in pages.rows_of(known, entry) if name not in of_all]
    parts += [rows(("argument", "meaning"), arguments).rstrip("\n")] if arguments else []
    statuses = [(status, filled(text)) for status, text in entry.get("statuses", [])]
    parts += [rows(("status", "meaning"), statuses).rstrip("\n")] if statuses else []
    return "\n\n".join(parts) + "\n"


def sections() -> str:
    known = table.read()
    return "\n".join(f"## {title}\n\n" + "\n".join(section(known, entry) for entry in known["words"] if entry["kind"] == kind) for kind, title in KINDS.items())
