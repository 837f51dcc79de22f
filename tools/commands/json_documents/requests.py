"""What a worker does for a call: the requests of a journal, and of an outcome."""
from __future__ import annotations

import re
from typing import Any, Dict

from tools.commands.json_documents.values import Form, HEX_OR_DASH, Kind, LARGE, NUMBER, TEXT, WORD, or_dash
from tools.commands.pages.reports import NODE, NUMBER as DIGITS, SIGNED, SOME_HEX, TEXT as QUOTED


def node_of(words: str) -> Dict[str, str]:
    kind, *device = re.split("[ :]", words)
    return {"kind": kind, **dict(zip(("major", "minor"), device))}


def node_words(node: Dict[str, str]) -> str:
    return node["kind"] + (f" {node['major']}:{node['minor']}" if "major" in node else "")


NODES = Kind(node_of, node_words)
SHIFTED = Kind(lambda word: word == "1", lambda value: "1" if value else "0")
# each with the form of its line
REQUEST_LINES = {
    "mknod": (rf"mknod ({QUOTED}) ({NODE})", Form("mknod {path} {node}", path=TEXT, node=NODES)),
    "mknodat": (rf"mknodat ({SIGNED}) ({QUOTED}) ({NODE})", Form("mknodat {directory_descriptor} {path} {node}", directory_descriptor=NUMBER, path=TEXT, node=NODES)),
    "mount": (rf"mount ({QUOTED}) ({QUOTED}) ({QUOTED}) flags=({DIGITS}) data=({QUOTED}) via=(\S+) shift=([01])",
              Form("mount {source} {target} {filesystem_type} flags={flags} data={data} via={program} shift={shifted}", source=TEXT, target=TEXT,
                   filesystem_type=TEXT, flags=LARGE, data=TEXT, program=or_dash(WORD), shifted=SHIFTED)),
    "setxattr": (rf"setxattr ({QUOTED}) ({QUOTED}) ({SOME_HEX}) flags=({DIGITS})",
                 Form("setxattr {path} {name} {value} flags={flags}", path=TEXT, name=TEXT, value=HEX_OR_DASH, flags=LARGE)),
}
REQUESTS = {kind: (re.compile(line), form) for kind, (line, form) in REQUEST_LINES.items()}


def request_of(words: str) -> Dict[str, Any]:
    """A request; one of another call has the call's name alone."""
    kind = words.split(" ", 1)[0]
    if kind not in REQUESTS or kind == words:
        return {"kind": "other", "call": words}
    line, form = REQUESTS[kind]
    found = line.fullmatch(words)
    if found is None:
        raise ValueError(words)
    return {"kind": kind, **form.read(found.groups())}


def request_words(request: Dict[str, Any]) -> str:
    return request["call"] if request["kind"] == "other" else REQUESTS[request["kind"]][1].write(request)


REQUEST = Kind(request_of, request_words)
