"""How two policies differ: each pair of rules that decide a call, one in each, whose answers differ; and calls that one policy counts together, and the other apart."""
from __future__ import annotations

from typing import TYPE_CHECKING, Any, Dict, List, NamedTuple, Optional, Tuple

from tools.references.deciding.cells import cells
from tools.references.stepping.facts import quoted

if TYPE_CHECKING:
    from tools.references.stepping.rules import Rule

WIDER, NARROWER, OTHER = "wider", "narrower", "other"
RANKS = {"deny": 0, "pass": 1, "grant": 2, "inject": 2}


class Pair(NamedTuple):
    """The rules that decide a call, by their places."""

    old: int
    new: int


def pairs(old: List[Rule], new: List[Rule]) -> List[Tuple[Pair, Any]]:
    """The pairs of rules that decide, each with a call of which that is so, in the order of the old rule's place, then the new one's."""
    found: Dict[Pair, Any] = {}
    for cell in cells([*old, *new]):
        found.setdefault(Pair(cell.first(0, len(old)), cell.first(len(old), len(old) + len(new))), cell.request)
    return sorted(found.items())


# ---- answers


def once(rule: Rule) -> Tuple[str, int, int, Optional[int], bytes, bool]:
    """What a rule answers, but for how often."""
    return rule.verdict, rule.error, rule.source, rule.place, rule.via, rule.shift


def is_same(one: Rule, other: Rule) -> bool:
    return once(one) == once(other) and one.times == other.times


def is_fewer(times: Optional[int], other: Optional[int]) -> bool:
    return times is not None and (other is None or times < other)


def grants_less(one: Rule, other: Rule) -> bool:
    """Whether a rule's answer grants less than another's: a denial less than a pass, and that less than a grant; fewer times less than more."""
    return RANKS[one.verdict] < RANKS[other.verdict] or (once(one) == once(other) and is_fewer(one.times, other.times))


def way_of(old: Rule, new: Rule) -> str:
    return WIDER if grants_less(old, new) else NARROWER if grants_less(new, old) else OTHER


def answer_text(rule: Rule) -> str:
    """A rule's answer, as a line has it."""
    times, details = (rule.answer, "") if rule.verdict == "grant" else ("", rule.answer)
    return rule.verdict + details.replace(" ", ",") + (f",via={quoted(rule.via)}" if rule.via else "") + (",shift" if rule.shift else "") + times.replace(" ", ",")


# ---- the lines


class Change(NamedTuple):
    """The line of a pair whose answers differ: the way, the names of the rules, and their answers."""

    way: str
    old_rule: str
    old: str
    new_rule: str
    new: str


class Count(NamedTuple):
    """A line of two pairs whose calls are answered alike, and counted together in the one policy alone."""

    pair: Pair
    other: Pair
    is_together_in_old: bool


def is_alike(old: List[Rule], new: List[Rule], pair: Pair) -> bool:
    return is_same(old[pair.old], new[pair.new])


def changes(old: Any, new: Any, found: Any) -> Any:
    """The pairs whose answers differ, in their order, with what their lines say."""
    return [(pair, Change(way_of(old[pair.old], new[pair.new]), old[pair.old].name, answer_text(old[pair.old]), new[pair.new].name, answer_text(new[pair.new])))
            for pair in found if not is_alike(old, new, pair)]


def counts(old: Any, new: Any, found: Any) -> Any:
    """What is counted otherwise: each pair beside the first one whose calls the same rule counts, of the old policy or of the new one, and which another rule of the other policy decides."""
    counted = [pair for pair in found if is_alike(old, new, pair) and old[pair.old].times is not None]
    lines = []
    for pair in counted:
        first = next(it for it in counted if it.old == pair.old)
        lines += [Count(first, pair, True)] if first.new != pair.new else []
        first = next(it for it in counted if it.new == pair.new)
        lines += [Count(first, pair, False)] if first.old != pair.old else []
    return lines
