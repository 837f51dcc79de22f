"""The pages of `help`, as text for a terminal."""
from __future__ import annotations

import textwrap
from typing import Any, Dict, List, Tuple

from tools.commands.command_line import table

WIDTH = 100
# where the second column begins
COLUMN = 26


def filled(text: str, command: str, examples: str) -> str:
    return text.replace("{command}", command).replace("{examples}", examples)


def paragraph(text: str) -> str:
    return textwrap.fill(text, WIDTH, break_on_hyphens=False, break_long_words=False)


def row(name: str, text: str) -> str:
    """A line of a table of two columns; a long name has a line of its own."""
    room = " " * COLUMN
    lines = textwrap.wrap(text, WIDTH - COLUMN, break_on_hyphens=False, break_long_words=False) or [""]
    first = f"  {name:<{COLUMN - 2}}" if len(name) < COLUMN - 3 else f"  {name}\n{room}"
    return (first + f"\n{room}".join(lines)).rstrip()


def shown(option: Dict[str, Any]) -> str:
    """An option as a page shows it: -o, --output FILE."""
    return ", ".join(option["names"]) + (f" {option['value']}" if "value" in option else "")


def span(item: Dict[str, Any]) -> str:
    """What numbers a word takes, as a text behind its help."""
    if item["takes"] != "number":
        return ""
    return ", ".join([f"{item['from']} to {item['to']}", *[f"or {word}" for word in item.get("also", [])]]).replace(", or", " or")


def described(item: Dict[str, Any]) -> str:
    """The help of an operand, with its numbers."""
    return "; ".join(part for part in (item.get("help", ""), span(item)) if part)


def rows_of(known: Dict[str, Any], entry: Dict[str, Any]) -> List[Tuple[str, ...]]:
    told = [(it["name"], described(it)) for it in entry.get("operands", []) if described(it)]
    return told + [(shown(it), it["help"]) for it in table.options(known, entry)]


def word_page(known: Dict[str, Any], entry: Dict[str, Any], command: str, examples: str) -> str:
    """The page of one word."""
    parts = [paragraph(f"{command} {entry['word']}: {entry['summary']}"),
             "\n".join(f"  {command} {entry['word']} {form}".rstrip() for form in entry["forms"]),
             *(paragraph(text) for text in entry["text"])]
    if rows_of(known, entry):
        parts.append("\n".join(row(*it) for it in rows_of(known, entry)))
    if entry.get("examples"):
        parts.append("\n".join(["For example:", *(f"  {text}" for text in entry["examples"])]))
    if entry.get("statuses"):
        parts.append("\n".join(["Exit status:", *(row(*it) for it in entry["statuses"])]))
    return filled("\n\n".join(parts), command, examples) + "\n"


def list_page(known: Dict[str, Any], command: str, examples: str, is_checkout: bool, documents: str) -> str:
    """The page that lists all words."""
    kinds = {kind: "\n".join(row(it["word"], it["summary"]) for it in known["words"] if it["kind"] == kind) for kind in ("program", "tool")}
    options = [it for it in known["options"] if is_checkout or it.get("only") != "checkout"]
    parts = [paragraph(f"{command} {known['summary']}. It intercepts nothing on this machine."),
             f"  {command} COMMAND ..", f"Commands of the program:\n{kinds['program']}", f"Tools:\n{kinds['tool']}",
             "\n".join([row("help [COMMAND]", "prints this list, or the page of a command"), *(row(shown(it), it["help"]) for it in options)]),
             "To begin with:\n\n  {command} play {examples}/first/policy.json {examples}/first/script.txt", documents]
    return filled("\n\n".join(parts), command, examples) + "\n"
