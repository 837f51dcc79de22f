"""Files that a test file names: policies, filters and profiles."""
from __future__ import annotations

import json
import os
from typing import TYPE_CHECKING, Any, Dict, List

from tools.commands.command_line.ending import reason
from tools.commands.messages.findings import advice, listed, meant
from tools.commands.messages.script_words import MOST_BROKER
from tools.commands.real_workloads.script_text import CALLS

if TYPE_CHECKING:
    from tools.commands.testing.lines import Word

GREATEST_OF_BROKER = 1023
# what a trace may have, the longest of the files that are named
MOST_BYTES = 268_435_456


def path_of(folder: str, word: Word) -> str:
    return os.path.join(folder, word.content.decode("utf-8", "surrogateescape"))


def data_of(folder: str, word: Word) -> bytes:
    """The bytes of the file that a word names."""
    path = path_of(folder, word)
    try:
        with open(path, "rb") as file:
            data = file.read(MOST_BYTES + 1)
    except OSError as fault:
        from tools.commands.messages.refusals import read_fault
        near = [it[len("help: "):] for it in read_fault(path)[1:]]
        raise word.fault(f"{path}: {reason(fault)}", near[0] if near else "a file is named from the folder of the test file on") from None
    if len(data) > MOST_BYTES:
        raise word.fault(f"{path} has more than {MOST_BYTES:,} bytes", "name a policy, filters, a profile or a trace")
    return data


def filter_lines(folder, filters):
    """The lines of the filters that a `filter` line names, for a script, and what is likely a mistake in a profile."""
    # (what most test files don't need isn't read for them)
    from tools.commands.messages.profiles import is_profile
    from tools.commands.real_workloads import bpf
    from tools.commands.testing import profiles
    word, data = filters.file, data_of(folder, filters.file)
    text = data.decode("utf-8", "replace")
    if is_profile(text):
        return profiles.lines_of(path_of(folder, word), data, filters)
    if filters.options:
        name = next(iter(filters.options))
        raise filters.word_of(name).fault(f"{name}= is for a profile, and {word.text} has filters as a script has them", "leave it out: a filter's lines have its answers")
    forms = "the file is a seccomp profile, or has blocks `filter` and `filter listener`, as `filter-of-profile` and `filter-of-process` write them"
    try:
        found = bpf.read_blocks(text)
    except (ValueError, KeyError, IndexError) as fault:
        raise word.fault(f"{word.text}: {fault}", forms) from None
    if not found:
        raise word.fault(f"{word.text} has no filter", forms)
    return text.splitlines(), []


def rules_of(data: bytes) -> List[Dict[str, Any]]:
    """The rules of a policy's own, as they stand in its file; none where it isn't JSON, which the program then tells."""
    try:
        found = json.loads(data)
    except ValueError:
        return []
    rules = found.get("rules") if isinstance(found, dict) else None
    return [it for it in rules if isinstance(it, dict)] if isinstance(rules, list) else []


def descriptors_of(rules: List[Dict[str, Any]]) -> List[int]:
    """The descriptors of the broker that rules put into callers, as far as a script can open them."""
    numbers = {it["then"].get("inject") for it in rules if isinstance(it.get("then"), dict)}
    return sorted(it for it in numbers if isinstance(it, int) and it <= GREATEST_OF_BROKER)[:MOST_BROKER]


def check_rule(word: Word, rules: List[Dict[str, Any]]) -> None:
    """Raises what is wrong with the name of a rule that the policy can't have. Those that LXD's keys make aren't known here."""
    own = [it["name"] for it in rules if isinstance(it.get("name"), str)]
    defaults = [f"default.{it}" for it in (*CALLS, "other")]
    if word.text in own or word.text in defaults or word.text.startswith("lxd."):
        return
    rest = "those of LXD's keys begin with `lxd.`, and those that come last with `default.`"
    raise word.fault(f"the policy has no rule {word.text}", advice(meant(word.text, (*own, *defaults)), f"its own are {listed(own)}; {rest}" if own else f"it has none of its own; {rest}"))
