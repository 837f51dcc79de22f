"""Says which claims hold of a policy, as `check` does, by brute force over the calls that rules and claim tell apart.

    tools/references/reference-check POLICY CLAIMS

The calls are others than those that `check` prints, and so may be the rules. Exit status: 0 where all claims hold, 11 where one is refuted, 4 where a file is refused.
"""
from __future__ import annotations

from collections import Counter
from typing import Dict, List

from tools.commands.command_line.arguments import ToolParser
from tools.references.deciding.claims import HELD, REFUTED, VACUOUS, Claim, read_claims, standing
from tools.references.stepping import inputs
from tools.references.stepping.explaining import asked_text
from tools.references.stepping.policies import Refused
from tools.references.stepping.rules import Rule

REFUTING = 11


def line_of(rules: List[Rule], claim: Claim, comes_to: str, against: Dict) -> str:
    if comes_to != REFUTED:
        return f"{HELD} {claim.rule.name}{' vacuous' if comes_to == VACUOUS else ''}"
    place, request = min(against.items())
    return f"{REFUTED} {claim.rule.name} {asked_text(request)} rule={rules[place].name}"


def check(policy: str, claims: str) -> int:
    """Prints which claims hold, and answers the exit status. Raises inputs.Ended."""
    rules = inputs.rules_of(policy)
    found = [(claim, *standing(rules, claim)) for claim in inputs.taken("claims", claims, read_claims, Refused, inputs.BAD_POLICY)]
    for it in found:
        print(line_of(rules, *it))
    counted = Counter(comes_to for _, comes_to, _ in found)
    print(f"claims={len(found)} held={counted[HELD] + counted[VACUOUS]} refuted={counted[REFUTED]}")
    return REFUTING if counted[REFUTED] else 0


def main() -> int:
    parser = ToolParser()
    parser.add_argument("policy", metavar="POLICY")
    parser.add_argument("claims", metavar="CLAIMS")
    asked = parser.parse_args()
    return inputs.status_of(check, asked.policy, asked.claims)
