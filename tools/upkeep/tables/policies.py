"""The parts of a rule, as POLICY has them: of the table by which refusals are explained."""
from __future__ import annotations

from typing import Tuple

from tools.commands.messages import policy_words as words
from tools.upkeep.tables.page import listed, rows


def calls(names: Tuple[str, ...]) -> str:
    return "all" if names == tuple(words.CALLS) else ", ".join(names)


def conditions() -> str:
    return rows(("condition", "calls", "value", "holds if"),
                [(f"`{name}`{' (with a profile)' if it.profile else ''}", calls(it.calls), it.value, it.meaning) for name, it in words.CONDITIONS.items()])


def answers() -> str:
    return rows(("`then`", "calls", "effect"), [(it.form, calls(it.calls), it.meaning) for it in words.ANSWERS.values()])


def flags() -> str:
    return "".join(f"- Flags of {call}: {listed(names)}.\n" for call, names in words.FLAGS.items())


def errors() -> str:
    return listed(words.ERRORS) + ".\n"
