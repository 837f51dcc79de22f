"""The areas that scripts are drawn from, and the differences that scripts of an area may not show."""
from __future__ import annotations

from tools.commands.linux_stage import comparison, drawn_files, drawn_orders, drawn_scripts, journal
from tools.commands.linux_stage.comparison import Bench
from tools.commands.linux_stage.folders import Pair
from tools.references.stepping import drawn, policies, scripts
from tools.references.stepping.sessions import Session

AREAS = {draw.__name__.replace("_", "-"): draw for draw in (
    drawn_files.arguments, drawn_orders.cuts, drawn_files.descriptors, drawn_orders.filters, drawn_files.memory, drawn_files.mounts, drawn_files.paths,
    drawn_files.plain_mounts, drawn_files.plain_paths, drawn_orders.races, drawn_orders.rewrites, drawn_orders.signals,
)}
# another broker's requests, drawn over the scripts of the others
REQUESTS = "requests"
BASES = ("races", "signals", "descriptors", "cuts", "paths", "memory", "arguments", "mounts")
NAMES = (*AREAS, REQUESTS)
# They have no path by which these could come, so that no other difference hides behind their names.
EXCLUDED = dict.fromkeys(("plain-mounts", "plain-paths"), ("trailing-slash", "dot-dot-under-mount"))


def pair(bench: Bench, area: str, seed: int, number: int) -> Pair:
    """A drawn policy and script, without most of the steps that change nothing."""
    if area == REQUESTS:
        return with_requests(seed, number)
    draft, chance = drawn_scripts.drawn(AREAS, area, seed, number)
    policy, script = draft.policy(), draft.script()
    status, report, _ = comparison.played(bench, policy, script)
    if status == 0:
        script = drawn_scripts.without_skips(script, list(map(journal.event, journal.journal(report))), chance)
    return Pair(f"{area} {number}", policy, script)


def with_requests(seed: int, number: int) -> Pair:
    """A drawn policy, and the script of a session that was drawn over a script."""
    draft, _ = drawn_scripts.drawn(AREAS, BASES[number % len(BASES)], seed, number // len(BASES))
    session = Session(policies.read_policy(draft.policy()), scripts.read_script(draft.script()))
    script, _ = drawn.script_and_report(drawn.drawn(session, f"{seed} {number}"))
    return Pair(f"{REQUESTS} {number}", draft.policy(), script)
