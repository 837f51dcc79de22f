"""Which rules of a policy's own are for nothing: those that fit no call, that decide none, and without which all calls are decided the same."""
from __future__ import annotations

from typing import TYPE_CHECKING, Any, Iterator, List, NamedTuple, Set, Tuple

from tools.references.deciding.cells import cells
from tools.references.deciding.comparing import once
from tools.commands.messages.findings import Text
from tools.commands.messages.json_places import Scanner
from tools.commands.messages.policies import finding_of, refused_at

if TYPE_CHECKING:
    from tools.references.stepping.rules import Rule

NEVER, SHADOWED, NEEDLESS = "never", "shadowed", "needless"
WORDS = {NEVER: "no call meets these conditions", SHADOWED: "this rule decides no call", NEEDLESS: "without this rule every call has the same answer"}


class Finding(NamedTuple):
    """What is said of the rule at a place, and the names of the rules that take its calls."""

    name: str
    place: int
    by: tuple


def is_alike(rule: Rule, other: Rule) -> bool:
    """Whether two rules answer alike, and neither counts."""
    return once(rule) == once(other) and rule.times is None and other.times is None


def finding(rules: Any, place: int, found: Any) -> Any:
    """What is said of a rule; None where nothing is."""
    fitting = [cell for cell in found if cell.fitting >> place & 1]
    if not fitting:
        return Finding(NEVER, place, ())
    takers = {cell.first(0, len(rules)) for cell in fitting}
    if place not in takers:
        return Finding(SHADOWED, place, names(rules, takers))
    behind = {place + 1 + cell.first(place + 1, len(rules)) for cell in fitting if cell.first(0, len(rules)) == place}
    return Finding(NEEDLESS, place, names(rules, behind)) if all(is_alike(rules[place], rules[it]) for it in behind) else None


def names(rules: List[Rule], places: Set[int]) -> Tuple[str, ...]:
    return tuple(rules[place].name for place in sorted(places))


def findings(rules: Any, own: int) -> Any:
    """What is said of the first rules, of which there are so many, in their order."""
    found = cells(rules)
    return [it for it in (finding(rules, place, found) for place in range(own)) if it]


# ---- the lines


def place_text(it: Finding) -> str:
    """The place of a finding, as a refusal has it."""
    return f"rules[{it.place}]{'.when' if it.name == NEVER else ''}"


def lines_of(data: bytes, found: Any) -> Iterator[Any]:
    """What is told of findings on a policy's bytes: each with the line and the column of its place."""
    text = Text(data)
    top = Scanner(text.whole).document()
    for it in found:
        at = text.finding("", refused_at(top, place_text(it)).value.start, 0, "", "")
        yield f"{it.name} {place_text(it)} {at.line}:{at.column} {WORDS[it.name]}" + (f" by={','.join(it.by)}" if it.by else "")


def refusal_line(data: bytes, refusal: str) -> str:
    """What is told of a policy that is refused, but for what would be right: `refusal` is what stands behind `policy: `."""
    kind, _, place = refusal.partition(" at ")
    at = finding_of(data, refusal)
    return f"{kind.lower().replace(' ', '-')} {place or {'not JSON': '(top)', 'too many rules': 'rules'}[refusal]} {at.line}:{at.column} it is refused"
