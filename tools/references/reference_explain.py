"""Says which rule decides each call of a file, and why none before it does, by what the documents say alone.

    tools/references/reference-explain POLICY CALLS

Statuses and lines on standard error are those of `explain`. tools/checks/check-explain compares both.
"""
from __future__ import annotations

from tools.commands.command_line.arguments import ToolParser
from tools.references.stepping import inputs
from tools.references.stepping.explaining import Refused, explanation

BAD_CALLS = 5


def explain(policy: str, calls: str) -> int:
    """Prints what is told of the calls. Raises inputs.Ended."""
    rules = inputs.rules_of(policy)
    print(inputs.taken("calls", calls, lambda data: explanation(rules, data), Refused, BAD_CALLS), end="")
    return 0


def main() -> int:
    parser = ToolParser()
    parser.add_argument("policy", metavar="POLICY")
    parser.add_argument("calls", metavar="CALLS")
    asked = parser.parse_args()
    return inputs.status_of(explain, asked.policy, asked.calls, says_why=False)
