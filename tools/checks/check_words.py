"""Checks that the table of words is what the program and the tools take: tools/checks/check-words [PROGRAM]

The version in include/seccomp_broker.h, and the newest one in CHANGELOG.md, have to be that of VERSION, too.

PROGRAM is the program whose usage line is compared; without it, the one that ./broker runs.

Exit status: 0 where all agree, else 1. The last line is `words: N passed, N failed`.
"""
from __future__ import annotations

import re
import subprocess
from typing import Any, Dict, Iterator, Set, Tuple

from tools.checks.tallies import Tally
from tools.commands.command_line import arguments, pages, table
from tools.commands.command_line.top import TOP


def usage_of(program: str) -> Set[str]:
    """The forms of words that the program takes, by its usage line."""
    said = subprocess.run([program], stdin=subprocess.DEVNULL, stderr=subprocess.PIPE, universal_newlines=True).stderr
    line = next((it for it in said.splitlines() if it.startswith("usage: ")), "usage: ")
    return set(line[len("usage: "):].split(" | "))


def versions_in(path: str, form: str) -> Set[str]:
    """The first version that a file states, as a set; none where it states none."""
    return set(re.findall(form, (TOP / path).read_text(encoding="utf-8"), re.M)[:1])


def options_of(tool: str) -> Set[str]:
    """The options of a tool's parser, by the usage that it answers to an unknown one."""
    said = subprocess.run([str(TOP / "broker"), tool, "--no-such-option"], stdin=subprocess.DEVNULL, stderr=subprocess.PIPE, universal_newlines=True)
    return set(re.findall(r"\[(-[-a-z]+)", said.stderr)) - {"-h"}


def checks(known: Dict[str, Any], program: str) -> Iterator[Tuple[str, Set[str], Set[str]]]:
    """What is compared: a text, what the table has, and what is found."""
    forms = {f"{it['word']} {form}" for it in known["words"] if it["kind"] == "program" for form in it["forms"]}
    yield "forms in the program's usage line", forms, usage_of(program)
    version = {(TOP / "VERSION").read_text(encoding="ascii").strip()}
    yield "version in include/seccomp_broker.h", version, versions_in("include/seccomp_broker.h", r'^#define BROKER_VERSION "(.*)"$')
    yield "version in CHANGELOG.md", version, versions_in("CHANGELOG.md", r"^## \[([^\]]+)\]")
    for entry in known["words"]:
        if entry["kind"] == "tool":
            yield f"options of {entry['word']}", {it["names"][0] for it in entry.get("options", [])}, options_of(entry["word"])
        named = {it["name"] for it in entry.get("operands", [])} | {name for it in entry.get("options", []) for name in (it["names"][0],)}
        yield f"words in the forms of {entry['word']}", {name for name in named if name in " ".join(entry["forms"])} | optional(entry), named
        yield f"marks in the page of {entry['word']}", set(), set(re.findall(r"\{\w+\}", pages.word_page(known, entry, "it", "examples")))


def optional(entry: Dict[str, Any]) -> Set[str]:
    """Options that a form leaves to the page: those of a tool with many."""
    return {it["names"][0] for it in entry.get("options", []) if entry["word"] == "on-linux"}


def main() -> bool:
    program = arguments.program_asked()
    count = Tally("words")
    for what, here, there in checks(table.read(), program):
        count.note(what, None if here == there else f"only the table (or VERSION) has {sorted(here - there)}; only there is {sorted(there - here)}")
    return count.ended()
