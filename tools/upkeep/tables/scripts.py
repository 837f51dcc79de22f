"""The lines of a script, as SCRIPT has them: of the table by which refusals are explained."""
from __future__ import annotations

from typing import TYPE_CHECKING, Dict, List, Optional

from tools.commands.messages import script_words as words
from tools.upkeep.tables.page import rows

if TYPE_CHECKING:
    from tools.commands.messages.script_words import Form, Operand


def number(value: int) -> str:
    """A number as people read it: 1,024, and 2^64 - 1 for the largest."""
    powers = {2**31 - 1: "2^31 - 1", 2**32 - 1: "2^32 - 1", words.WIDE: "2^64 - 1", -(2**63): "-2^63"}
    return powers.get(value, f"{value:,}")


def span(operand: Operand) -> Optional[str]:
    """The range of an operand, or None if its kind says all."""
    limits = f"{number(operand.least)} to {number(operand.most)}"
    spans = {"number": limits, "text": f"{limits} bytes{'' if operand.zeros else ' without zeros'}", "page": "a multiple of 4,096", "call": f"or a number up to {number(operand.most)}"}
    return spans.get(operand.kind)


def usages(form: Form) -> str:
    return ", ".join(f"`{it}`" for it in (words.KILL_FORMS if form.word == "kill" else [form.usage]))


def ranges(form: Form) -> str:
    operands = [*form.operands, *(it for whom in words.KILL_WITH_NUMBER.values() for it in whom.operands if form.word == "kill")]
    spans: Dict[Optional[str], List[str]] = {}
    for operand in operands:
        spans.setdefault(span(operand), []).append(operand.name)
    return "; ".join(f"{', '.join(names)} {text}" for text, names in spans.items() if text)


def of_part(part: str) -> str:
    return rows(("line", "ranges", "meaning", "example"), [(usages(it), ranges(it), words.MEANINGS[it.word], f"`{it.example}`") for it in words.ALL_FORMS if it.part == part])


def settings() -> str:
    return of_part(words.SETTINGS)


def programs() -> str:
    return of_part(words.PROGRAM)
