"""What `explain` prints: each call with the rule that decides it, and what it misses of the rules before that one."""
from __future__ import annotations

import re
from typing import Any, Dict, Iterator, List, Pattern, Tuple

from tools.commands.json_documents.lines import Lines
from tools.commands.json_documents.requests import NODES, REQUESTS
from tools.commands.json_documents.values import QUOTED_BYTES, Form, Kind, NUMBER, TEXT, WORD, or_dash
from tools.commands.pages.reports import CALL, ERRNO, NODE, NUMBER as DIGITS, NotAReport, SIGNED, TEXT as QUOTED

FLAGS = r"-|[A-Z]+(?:,[A-Z]+)*"
HEAD_LINE = re.compile(rf"({DIGITS}) (.*) rule=(\S+) verdict=((?:grant|deny|pass|inject)(?: .*)?)")
MISS_LINE = re.compile(r"  (\S+) misses (.*)")

FLAG_NAMES = Kind(lambda word: [] if word == "-" else word.split(","), lambda names: ",".join(names) or "-")
CALLS_OF_RULE = Kind(lambda words: words.split(" or "), " or ".join)
SET = Kind(lambda word: word == "is", lambda value: "is" if value else "is not")
NUMBERS = Kind(lambda words: dict(zip(("major", "minor"), words.split(":"))), lambda value: f"{value['major']}:{value['minor']}")
LAST_TEXT = Kind(lambda word: TEXT.read(word[1:]) if word else "", lambda text: f" {TEXT.write(text)}" if text else "")
LIMIT = Kind(lambda word: int(word[len(" times="):]) if word else None, lambda times: "" if times is None else f" times={times}")


def compiled(rows: Dict[str, Tuple[str, Form]]) -> Dict[str, Any]:
    return {kind: (re.compile(line), form) for kind, (line, form) in rows.items()}


def read_of(rows: Any, words: str) -> Any:
    """The fields of words by the row whose form they have, behind the row's kind; None where no row fits."""
    for kind, (line, form) in rows.items():
        found = line.fullmatch(words)
        if found:
            return {"kind": kind, **form.read(["" if field is None else field for field in found.groups()])}
    return None


def written(rows: Dict[str, Tuple[Pattern[Any], Form]], value: Dict[str, Any]) -> str:
    return rows[value["kind"]][1].write(value)


# what is asked for: the call as a line of the file has it
CALLS = {
    "mknod": REQUESTS["mknod"], "mknodat": REQUESTS["mknodat"],
    **compiled({
        "mount": (rf"mount ({QUOTED}) ({QUOTED}) ({QUOTED}) ({FLAGS})( {QUOTED})?",
                  Form("mount {source} {target} {filesystem_type} {flags}{data}", source=TEXT, target=TEXT, filesystem_type=TEXT, flags=FLAG_NAMES, data=LAST_TEXT)),
        "setxattr": (rf"setxattr ({QUOTED}) ({QUOTED}) ({QUOTED}) ({FLAGS})", Form("setxattr {path} {name} {value} {flags}", path=TEXT, name=TEXT, value=QUOTED_BYTES, flags=FLAG_NAMES)),
        "openat": (rf"openat ({SIGNED}) ({QUOTED})", Form("openat {directory_descriptor} {path}", directory_descriptor=NUMBER, path=TEXT)),
        "other": (rf"other ({DIGITS})", Form("other {number}", number=NUMBER)),
        **{name: (name, Form(name)) for name in ("sysinfo", "close", "getpid")},
    }),
}
VERDICTS = compiled({
    "grant": (rf"grant( times={DIGITS})?", Form("grant{times}", times=LIMIT)),
    "deny": (rf"deny error=({ERRNO})", Form("deny error={error}", error=WORD)),
    "pass": (r'pass reason="([^"]*)"', Form('pass reason="{reason}"', reason=WORD)),
    "inject": (rf"inject src=({DIGITS}) at=({DIGITS}|-)", Form("inject src={descriptor} at={at}", descriptor=NUMBER, at=or_dash(NUMBER))),
})


def unlike(key: str, found: str, wanted: str, form: Tuple[Kind, ...]) -> Tuple[str, Form]:
    """What is missed where a call has something else than a rule asks for."""
    return rf"{key}: ({found}) is not ({wanted})", Form(f"{key}: {{found}} is not {{wanted}}", found=form[0], wanted=form[-1])


MISSES = compiled({
    "call": unlike("call", CALL, rf"(?:{CALL})(?: or (?:{CALL}))*", (WORD, CALLS_OF_RULE)),
    "kind": unlike("kind", "[a-z]+", "[a-z]+", (WORD,)),
    "dev": unlike("dev", NODE, rf"{DIGITS}:{DIGITS}", (NODES, NUMBERS)),
    **{key: unlike(key, QUOTED, QUOTED, (TEXT,)) for key in ("path", "fstype", "source", "name")},
    "value": unlike("value", QUOTED, QUOTED, (QUOTED_BYTES,)),
    "dirfd": unlike("dirfd", SIGNED, SIGNED, (NUMBER,)),
    "under": (rf"under: ({QUOTED}) is not under ({QUOTED})", Form("under: {found} is not under {wanted}", found=TEXT, wanted=TEXT)),
    "flag": (r"flags: ([A-Z]+) (is|is not) set", Form("flags: {flag} {is_set} set", flag=WORD, is_set=SET)),
    "plain_mount": ("flags: REMOUNT, BIND or MOVE is set", Form("flags: REMOUNT, BIND or MOVE is set")),
    "short_device": ("dev: its number has more than 32 bits", Form("dev: its number has more than 32 bits")),
})


def part_of(lines: Any, rows: Any, words: str, what: str) -> Any:
    found = read_of(rows, words)
    if found is None:
        raise NotAReport(lines.at, f"{what} has another form")
    return found


def call_of(lines: Any) -> Any:
    number, call, rule, verdict = lines.take(HEAD_LINE, "a call with the rule that decides it")
    found = {"line": int(number), "call": part_of(lines, CALLS, call, "the call"), "rule": rule, "verdict": part_of(lines, VERDICTS, verdict, "the verdict"), "before": []}
    while lines.next_is("  "):
        before, missed = lines.take(MISS_LINE, "a rule, and what the call misses of it,")
        found["before"].append({"rule": before, "misses": part_of(lines, MISSES, missed, "what is missed")})
    return found


def explanation_of(data: bytes) -> Dict[str, List[Dict[str, Any]]]:
    lines, calls = Lines(data), []
    while lines.at < len(lines.lines):
        calls.append(call_of(lines))
    return {"calls": calls}


def explanation_lines(document: Dict[str, Any]) -> Iterator[str]:
    for call in document["calls"]:
        yield f"{call['line']} {written(CALLS, call['call'])} rule={call['rule']} verdict={written(VERDICTS, call['verdict'])}"
        for before in call["before"]:
            yield f"  {before['rule']} misses {written(MISSES, before['misses'])}"
