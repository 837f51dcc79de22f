"""What `compare`, `check` and `lint` print of policies, for all calls."""
from __future__ import annotations

import re
from typing import Any, Dict, Iterator, List, Optional

from tools.commands.json_documents.explanations import CALLS, compiled, part_of, read_of, written
from tools.commands.json_documents.lines import Lines
from tools.commands.json_documents.values import Form, Kind, NUMBER, TEXT, WORD, or_dash
from tools.commands.pages.reports import ERRNO, NUMBER as DIGITS, NotAReport, TEXT as QUOTED

EQUAL, DIFFER, UNDECIDED = "equal", "differ", "undecided"
TOGETHER, APART = "together", "apart"


def optional(front: str, kind: Kind) -> Kind:
    """A kind behind its name, or nothing for null."""
    return Kind(lambda words: kind.read(words[len(front):]) if words else None, lambda value: "" if value is None else f"{front}{kind.write(value)}")


GRANT = rf"grant(,via={QUOTED})?(,shift)?(,times={DIGITS})?"
SHIFTED = Kind(bool, lambda value: ",shift" if value else "")
ANSWERS = compiled({
    "grant": (GRANT, Form("grant{via}{shifted}{times}", via=optional(",via=", TEXT), shifted=SHIFTED, times=optional(",times=", NUMBER))),
    "deny": (rf"deny,error=({ERRNO})", Form("deny,error={error}", error=WORD)),
    "pass": ("pass", Form("pass")),
    "inject": (rf"inject,src=({DIGITS}),at=({DIGITS}|-)", Form("inject,src={descriptor},at={at}", descriptor=NUMBER, at=or_dash(NUMBER))),
})
CALL = Kind(lambda words: read_of(CALLS, words), lambda call: written(CALLS, call))
ANSWER = Kind(lambda words: read_of(ANSWERS, words), lambda answer: written(ANSWERS, answer))

# ---- a comparison

HEAD_LINE = re.compile(rf"differ classes=({DIGITS}) counts=({DIGITS}) whole=(yes|no)")
# (an answer has no blank outside of a text between quotes)
ANSWER_WORDS = rf"[a-z]+(?:,(?:via={QUOTED}|[^ \"])*)*"
CHANGE_LINE = re.compile(rf"(wider|narrower|other) (.*) old-rule=(\S+) old=({ANSWER_WORDS}) new-rule=(\S+) new=({ANSWER_WORDS})( notified=no)?")
COUNT_LINE = re.compile(rf"counts (.*) old=({TOGETHER}|{APART}) new=({TOGETHER}|{APART})( notified=no)?")
UNNOTIFIED = " notified=no"


def known(lines: Any, kind: Any, words: str, what: str) -> Any:
    """What a part of the line above is."""
    found = kind.read(words)
    if found is None:
        raise NotAReport(lines.at, f"{what} has another form")
    return found


def marked(unnotified: Optional[str]) -> Dict[str, bool]:
    """That the filters don't notify it; nothing where they do, or where there are none."""
    return {"notified": False} if unnotified else {}


def mark_of(document: Dict[str, Any]) -> str:
    return "" if document.get("notified", True) else UNNOTIFIED


def change_of(lines: Lines) -> Dict[str, Any]:
    way, call, old_rule, old, new_rule, new, unnotified = lines.take(CHANGE_LINE, "a class of calls that the policies decide otherwise")
    sides = {name: {"rule": rule, "answer": known(lines, ANSWER, answer, "an answer")} for name, rule, answer in (("old", old_rule, old), ("new", new_rule, new))}
    return {"way": way, "call": known(lines, CALL, call, "the call"), **sides, **marked(unnotified)}


def two_calls(lines: Any, words: str) -> Any:
    """The two calls that stand on either side of ` and `, which may stand in their texts too."""
    for at in (it.start() for it in re.finditer(" and ", words)):
        calls = [CALL.read(words[:at]), CALL.read(words[at + len(" and "):])]
        if None not in calls:
            return calls
    raise NotAReport(lines.at, "two calls should be here")


def count_of(lines: Lines) -> Dict[str, Any]:
    words, old, new, unnotified = lines.take(COUNT_LINE, "two calls that the policies count otherwise")
    return {"calls": two_calls(lines, words), "old": old, "new": new, **marked(unnotified)}


def comparison_of(data: bytes) -> Any:
    lines = Lines(data)
    if lines.next_is(EQUAL) or lines.next_is(UNDECIDED):
        outcome, = lines.take(re.compile(f"({EQUAL}|{UNDECIDED})"), "what comes of the comparison")
        found = {"outcome": outcome, "classes": 0, "counts": 0, "whole": outcome == EQUAL, "changes": [], "counted": []}
    else:
        classes, counts, whole = lines.take(HEAD_LINE, "how many classes and counts differ")
        found = {"outcome": DIFFER, "classes": int(classes), "counts": int(counts), "whole": whole == "yes", "changes": [], "counted": []}
        while lines.are_left and not lines.next_is("counts "):
            found["changes"].append(change_of(lines))
        while lines.next_is("counts "):
            found["counted"].append(count_of(lines))
    lines.end("the comparison")
    return found


def comparison_lines(document: Dict[str, Any]) -> Iterator[str]:
    if document["outcome"] != DIFFER:
        yield document["outcome"]
        return
    yield f"differ classes={document['classes']} counts={document['counts']} whole={'yes' if document['whole'] else 'no'}"
    for it in document["changes"]:
        yield f"{it['way']} {CALL.write(it['call'])}" + "".join(f" {side}-rule={it[side]['rule']} {side}={ANSWER.write(it[side]['answer'])}" for side in ("old", "new")) + mark_of(it)
    for it in document["counted"]:
        yield f"counts {' and '.join(map(CALL.write, it['calls']))} old={it['old']} new={it['new']}{mark_of(it)}"


# ---- claims

STANDINGS = compiled({
    "vacuous": (r"held (\S+) vacuous", Form("held {name} vacuous", name=WORD)),
    "held": (r"held (\S+)", Form("held {name}", name=WORD)),
    "refuted": (r"refuted (\S+) (.*) rule=(\S+)", Form("refuted {name} {call} rule={rule}", name=WORD, call=CALL, rule=WORD)),
    "undecided": (r"undecided (\S+)", Form("undecided {name}", name=WORD)),
})
STANDING_LINE = re.compile(r"((?:held|refuted|undecided) .*)")
CLAIMS_LINE = re.compile(rf"(claims={DIGITS} .*)")


def claims_line(claims: List[Dict[str, Any]]) -> str:
    """The last line."""
    counted = {kind: sum(it["kind"] == kind for it in claims) for kind in STANDINGS}
    return f"claims={len(claims)} held={counted['held'] + counted['vacuous']} refuted={counted['refuted']}" + (f" undecided={counted['undecided']}" if counted["undecided"] else "")


def standings_of(data: bytes) -> Dict[str, List[Dict[str, Any]]]:
    lines, claims = Lines(data), []
    while not lines.next_is("claims="):
        words, = lines.take(STANDING_LINE, "what a claim comes to")
        claims.append(part_of(lines, STANDINGS, words, "what a claim comes to"))
        if claims[-1].get("call", "") is None:
            raise NotAReport(lines.at, "the call has another form")
    counts, = lines.take(CLAIMS_LINE, "how many claims there are")
    if counts != claims_line(claims) or lines.are_left:
        raise NotAReport(lines.at, "other counts should be here, at the end")
    return {"claims": claims}


def standing_lines(document: Dict[str, Any]) -> Iterator[str]:
    yield from (written(STANDINGS, it) for it in document["claims"])
    yield claims_line(document["claims"])


# ---- findings

PLACE = rf"(?:[^ \"]|{QUOTED})+"
FINDING_LINE = re.compile(rf"([a-z-]+) ({PLACE}) ({DIGITS}):({DIGITS}) (.*?)(?: by=(\S+)(?: call=((?:[^\"]|{QUOTED})*?)(?: denied=(\S+) other=(.*))?)?)?")
FINDINGS_LINE = re.compile(rf"findings=({DIGITS})")
NAMES = Kind(lambda word: word.split(",") if word else [], lambda names: f" by={','.join(names)}" if names else "")
ITS_CALL = Kind(lambda words: CALL.read(words) if words else None, lambda call: "" if call is None else f" call={CALL.write(call)}")
OTHER_CALL = Kind(ITS_CALL.read, lambda call: "" if call is None else f" other={CALL.write(call)}")
FINDING = Form(
    "{finding} {place} {line}:{column} {says}{by}{call}{denied}{other}", finding=WORD, place=WORD, line=NUMBER, column=NUMBER, says=WORD, by=NAMES, call=ITS_CALL,
    denied=Kind(lambda word: word or None, lambda name: "" if name is None else f" denied={name}"), other=OTHER_CALL)


def finding_of(lines: Lines) -> Dict[str, Any]:
    fields = ["" if it is None else it for it in lines.take(FINDING_LINE, "a finding")]
    found = FINDING.read(fields)
    if any(text and found[name] is None for text, name in ((fields[6], "call"), (fields[8], "other"))):
        raise NotAReport(lines.at, "the call has another form")
    return found


def findings_of(data: bytes) -> Any:
    lines, found = Lines(data), []
    if lines.next_is("clean"):
        lines.skip("clean")
    else:
        count, = lines.take(FINDINGS_LINE, "how many findings there are")
        found = [finding_of(lines) for _ in range(int(count))]
    lines.end("the findings")
    return {"findings": found}


def finding_lines(document: Dict[str, Any]) -> Iterator[str]:
    found = document["findings"]
    yield f"findings={len(found)}" if found else "clean"
    yield from map(FINDING.write, found)
