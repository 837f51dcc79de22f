"""Says which rules of a policy's own are for nothing: those findings of `lint` that are exact and about rules, by brute force over the calls that rules tell apart.

    tools/references/reference-lint POLICY

Of a policy that is refused that is told, and not what would be right. Exit status: 0 where nothing is found, 11 where something is.
"""
from __future__ import annotations

import json

from tools.commands.command_line.arguments import ToolParser
from tools.references.deciding.linting import findings, lines_of, refusal_line
from tools.references.stepping import inputs
from tools.references.stepping.policies import Refused, read_policy

FOUND = 11


def lint(policy: str) -> int:
    """Prints what is found, and answers the exit status. Raises inputs.Ended."""
    data = inputs.bytes_of(policy, "policy")
    try:
        rules = read_policy(data)
    except Refused as refused:
        print(f"findings=1\n{refusal_line(data, str(refused))}")
        return FOUND
    found = findings(rules, len(json.loads(data).get("rules", ())))
    print("\n".join([f"findings={len(found)}" if found else "clean", *lines_of(data, found)]))
    return FOUND if found else 0


def main() -> int:
    parser = ToolParser()
    parser.add_argument("policy", metavar="POLICY")
    return inputs.status_of(lint, parser.parse_args().policy)
