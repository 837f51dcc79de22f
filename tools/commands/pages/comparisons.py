"""How the policy that stands in the page differs from another one, and what is likely a mistake in a policy or a script: what the program says of them, for a page."""
from __future__ import annotations

from typing import Any, Dict

from tools.commands.json_documents.documents import WHOLE
from tools.commands.json_documents.policies import ANSWER, CALL, comparison_of, findings_of
from tools.commands.messages import likely, policies, scripts
from tools.commands.messages.findings import Text
from tools.commands.messages.refusals import SCRIPT
from tools.commands.pages.reports import NotAReport
from tools.commands.pages.runs import Program, told_of

COMPARE, LINT, LINT_SCRIPT = "compare", "lint", "lint-script"
OF_POLICIES = (COMPARE, LINT)
# how the program ends that is given an empty file as a report, where it takes the script
TAKEN = 9
# what would be right in place of each finding on a policy; a refusal says it itself
CURES = {
    "never": "leave out one of its conditions, or the rule",
    "shadowed": "put it before the rules that decide its calls, or leave it out",
    "needless": "leave the rule out",
    "no-effect": "leave it out, or switch on what it belongs to",
    "undecided": "test its calls by `explain`; of fewer rules it is found",
    "repeated-key": "remove one of them",
    "gone-around": "deny by `kind`, `dev`, `fstype` or `source`, or grant only the paths that you mean",
    "wide-device": "state `kind` and `dev` of the devices that you mean",
    "not-as-lxd": 'add `"profile": "lxd"` to the policy',
    "risky-type": "let `mount.fuse` mount it by a program, or deny the type",
}


def side(told: Dict[str, Any]) -> Dict[str, str]:
    return {"rule": told["rule"], "answer": ANSWER.write(told["answer"]).replace(",", ", ")}


def comparison(output: bytes) -> Dict[str, Any]:
    """What a page shows of a comparison."""
    found = comparison_of(output)
    changes = [{"way": it["way"], "call": CALL.write(it["call"]), "old": side(it["old"]), "new": side(it["new"])} for it in found["changes"]]
    counted = [{"calls": list(map(CALL.write, it["calls"])), "old": it["old"], "new": it["new"]} for it in found["counted"]]
    return {**found, "changes": changes, "counted": counted}


def words_of(found: Dict[str, Any]) -> str:
    by = f" (by {', '.join(found['by'])})" if found["by"] else ""
    return f"{found['finding']}: {found['says']}{by}{': ' + CALL.write(found['call']) if found['call'] else ''}"


def notes(output: bytes, policy: bytes) -> Any:
    """What a page notes of a policy: of each finding its line, its column, its words, and the cure."""
    near = {it.line: it.cure for it in policies.foreign_keys(policy)}
    return {"findings": [{"line": it["line"], "column": it["column"], "words": words_of(it), "cure": CURES.get(it["finding"]) or near.get(it["line"], "")}
                         for it in findings_of(output)["findings"]]}


def of_script(program: Program, texts: Dict[str, bytes]) -> Dict[str, Any]:
    """What a page notes of a script: why the program refuses it, or else what is likely a mistake in a play of it."""
    ended = program.run("audit-check", {"policy": b"{}", **texts, "report": b""}, [])
    told = SCRIPT.fullmatch(ended.line)
    if told is None and ended.status != TAKEN:
        return told_of(program, ended)
    data = texts["script"]
    found = [scripts.finding_of(data, int(told[1]), told[2])] if told else likely.findings(Text(data), likely.PLAY)
    return {**told_of(program, ended), "line": "", "findings": [{"line": it.line, "column": it.column, "words": f"{it.name}: {it.words}", "cure": it.cure} for it in found if it and it.line]}


def of_policies(program: Any, form: str, texts: Any) -> Any:
    """What the program says of two policies, or of one."""
    ended = program.run(form, texts, [])
    told = told_of(program, ended)
    if ended.status not in WHOLE:
        return told
    try:
        shown = {"comparison": comparison(ended.output)} if form == COMPARE else notes(ended.output, texts["policy"])
    except NotAReport as fault:
        return {**told, "status": None, "line": f"What the program printed isn't understood: {fault}"}
    return {**told, "line": "", **shown, "output": ended.output.decode("latin-1")}
