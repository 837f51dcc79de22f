"""What a look of `step` sees."""
from __future__ import annotations

import re
from typing import Any, Callable, Dict, Optional, Pattern, Tuple

from tools.commands.json_documents.values import text_of, quoted_of
from tools.commands.pages.reports import ERRNO, NAME, NUMBER as DIGITS, TEXT as QUOTED

TASK = re.compile(rf"look task ({NAME}) ppid ({DIGITS}) state (running|sleeping|disk-sleep|zombie)")
FILE, ERROR, LISTENER = re.compile(rf"look file ({DIGITS})"), re.compile(rf"look error ({ERRNO})"), re.compile(r"look in=([01]) out=([01])")
NODE = re.compile(rf"look node ({DIGITS}) (?:(dir|reg|fifo|sock)|(chr|blk) ({DIGITS}):({DIGITS})|link ({QUOTED}))")


def node_of(ordinal: str, plain: Optional[str], device: Optional[str], major: Optional[str], minor: Optional[str], target: Optional[str]) -> Dict[str, Any]:
    node: Dict[str, Any] = {"kind": plain or device or "link", **({"major": major, "minor": minor} if device else {}), **({"target": text_of(target)} if target else {})}
    return {"kind": "node", "ordinal": int(ordinal), "node": node}


def node_words(seen: Dict[str, Any]) -> str:
    node = seen["node"]
    device, target = f" {node['major']}:{node['minor']}" if "major" in node else "", f" {quoted_of(node['target'])}" if "target" in node else ""
    return f"node {seen['ordinal']} {node['kind']}{device}{target}"


FORMS: Tuple[Tuple[Pattern[str], Callable[..., Dict[str, Any]]], ...] = (
    (TASK, lambda name, parent, state: {"kind": "task", "name": name, "parent": int(parent), "state": state}),
    (re.compile("look none"), lambda: {"kind": "none"}),
    (re.compile("look console"), lambda: {"kind": "console"}),
    (FILE, lambda number: {"kind": "file", "number": int(number)}),
    (NODE, node_of),
    (ERROR, lambda error: {"kind": "error", "error": error}),
    (LISTENER, lambda readable, writable: {"kind": "listener", "can_read": readable == "1", "can_write": writable == "1"}),
)
WORDS = {
    "task": lambda seen: f"task {seen['name']} ppid {seen['parent']} state {seen['state']}",
    "none": lambda _: "none", "console": lambda _: "console",
    "file": lambda seen: f"file {seen['number']}",
    "node": node_words,
    "error": lambda seen: f"error {seen['error']}",
    "listener": lambda seen: f"in={int(seen['can_read'])} out={int(seen['can_write'])}",
}


def look_of(line: str) -> Optional[Dict[str, Any]]:
    """What the answer to a look tells; None of another line."""
    for form, read in FORMS:
        found = form.fullmatch(line)
        if found:
            return read(*found.groups())
    return None


def look_line(seen: Any) -> str:
    return f"look {WORDS[seen['kind']](seen)}"
