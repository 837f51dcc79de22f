"""Tells how two policies differ, as `compare` does, by brute force over the calls that their rules tell apart.

    tools/references/reference-compare OLD NEW
    tools/references/reference-compare --pairs OLD NEW

With --pairs each line has the place of the deciding rule in OLD, that in NEW, counted from 0, and a call for which they decide, also where both
answer alike. The calls are others than those that `compare` prints. Exit status: 0 where the policies are equal, 11 where they differ, 4 where one is refused.
"""
from __future__ import annotations

from tools.commands.command_line.arguments import ToolParser
from tools.references.deciding.comparing import changes, counts, pairs
from tools.references.stepping import inputs
from tools.references.stepping.explaining import asked_text

DIFFERENT = 11


def compare(old_path: str, new_path: str, shows_pairs: bool) -> int:
    """Prints how the policies differ, and answers the exit status. Raises inputs.Ended."""
    old, new = inputs.rules_of(old_path), inputs.rules_of(new_path, "new policy")
    calls = dict(pairs(old, new))
    if shows_pairs:
        for pair, request in calls.items():
            print(*pair, asked_text(request))
        return 0
    changed, counted = changes(old, new, calls), counts(old, new, calls)
    if not changed and not counted:
        print("equal")
        return 0
    print(f"differ classes={len(changed)} counts={len(counted)} whole=yes")
    for pair, it in changed:
        print(f"{it.way} {asked_text(calls[pair])} old-rule={it.old_rule} old={it.old} new-rule={it.new_rule} new={it.new}")
    for it in counted:
        print(f"counts {asked_text(calls[it.pair])} and {asked_text(calls[it.other])} {'old=together new=apart' if it.is_together_in_old else 'old=apart new=together'}")
    return DIFFERENT


def main() -> int:
    parser = ToolParser()
    parser.add_argument("--pairs", action="store_true")
    parser.add_argument("old")
    parser.add_argument("new")
    asked = parser.parse_args()
    return inputs.status_of(compare, asked.old, asked.new, asked.pairs)
