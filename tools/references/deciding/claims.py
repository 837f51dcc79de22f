"""Claims about all calls (docs/reference/OUTPUTS.md, Claims): how they are read, and which hold of a policy."""
from __future__ import annotations

import re
from typing import TYPE_CHECKING, Any, Dict, List, Tuple

from tools.references.deciding.cells import cells
from tools.references.stepping.facts import quoted
from tools.references.stepping.policies import Refused, members, read_rules, refuse_key, value_of

if TYPE_CHECKING:
    from tools.references.stepping.rules import Rule

EXPECT, NEVER = "expect", "never"
# claims have the conditions of the profile, and no number of times
VERSION, PROFILE = 1, True
HELD, VACUOUS, REFUTED = "held", "vacuous", "refuted"


class Claim:
    """A claim: whether it says how its calls are decided, or how none is, and the rule that it is read as."""

    def __init__(self, sense: str, rule: Rule) -> None:
        self.sense, self.rule = sense, rule

    def is_borne_out_by(self, rule: Rule) -> bool:
        """Whether a rule answers as the claim has it: of a grant and a pass that alone counts, of a denial the error too, and of an injection the descriptors."""
        return (answer_of(rule) == answer_of(self.rule)) == (self.sense == EXPECT)


def answer_of(rule: Any) -> Any:
    return rule.verdict, rule.error, rule.source, rule.place


def read_list(name: str, value: Any) -> Any:
    try:
        return [Claim(name, rule) for rule in read_rules(value, VERSION, PROFILE)]
    except Refused as refused:
        raise Refused(re.sub(r"( at )rules", rf"\g<1>{name}", str(refused))) from None


def read_claims(data: bytes) -> List[Claim]:
    """The claims of a file's bytes: those that expect something, and then the others. Raises Refused."""
    found = []
    for key, value in members(value_of(data), "(top)"):
        if key not in (EXPECT, NEVER):
            refuse_key(quoted(key.encode()))
        found += read_list(key, value)
    return found


def standing(rules: List[Rule], claim: Claim) -> Tuple[str, Dict[int, Any]]:
    """What a claim comes to, and the places of the rules that refute it, each with a call that it decides."""
    fitting = [cell for cell in cells([*rules, claim.rule]) if cell.fitting >> len(rules)]
    against: Dict[int, Any] = {}
    for cell in fitting:
        place = cell.first(0, len(rules))
        if not claim.is_borne_out_by(rules[place]):
            against.setdefault(place, cell.request)
    return REFUTED if against else HELD if fitting else VACUOUS, against
