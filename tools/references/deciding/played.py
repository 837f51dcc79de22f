"""A script in which one task makes a call, and one worker answers it."""
from __future__ import annotations

from typing import Any, Dict

from tools.references.stepping.facts import quoted
from tools.references.stepping.rules import Mknod, Mount, OpenAt, Other, SetXattr, Sysinfo

CALLS_NOTIFIED = ("filter listener", "ret 0x7fc00000", "end")
# each text has two pages of its own
FIRST_ADDRESS, ROOM = 0x10000, 0x2000
# more steps than the task and the worker take
STEPS = 40


def texts_of(request: Any) -> Dict[str, bytes]:
    """The texts of a call with their names, with the zero where one ends them."""
    if isinstance(request, Mount):
        return {"source": request.source + b"\0", "path": request.target + b"\0", "fstype": request.fstype + b"\0", "data": request.options + b"\0"}
    if isinstance(request, SetXattr):
        return {"path": request.path + b"\0", "name": request.name + b"\0", **({"value": request.value} if request.value else {})}
    return {"path": request.path + b"\0"} if isinstance(request, (Mknod, OpenAt)) else {}


def call_line(request: Any, at: Dict[str, int]) -> str:
    """The call with its arguments; `at` has the addresses of its texts."""
    if isinstance(request, Mknod):
        node = f"{at['path']} {request.mode} {request.device}"
        return f"mknod {node}" if request.dirfd is None else f"mknodat {request.dirfd} {node}"
    if isinstance(request, Mount):
        return f"mount {at['source']} {at['path']} {at['fstype']} {request.flags} {at['data']}"
    if isinstance(request, SetXattr):
        return f"setxattr {at['path']} {at['name']} {at.get('value', 0)} {len(request.value)} {request.flags}"
    if isinstance(request, OpenAt):
        return f"openat {request.dirfd} {at['path']} {request.flags}"
    return f"sysinfo {FIRST_ADDRESS}" if isinstance(request, Sysinfo) else str(request.number)


def script_of(request: Any) -> bytes:
    """The script, as bytes."""
    assert isinstance(request, (Mknod, Mount, SetXattr, OpenAt, Sysinfo, Other))
    texts = texts_of(request)
    at = {name: FIRST_ADDRESS + place * ROOM for place, name in enumerate(texts)}
    pokes = [f"poke {at[name]} {quoted(content)}" for name, content in texts.items()]
    lines = [*CALLS_NOTIFIED, "prog main", *pokes, f"call {call_line(request, at)}", "end", "schedule", f"t 0 {len(pokes) + 1}", f"w 0 {STEPS}", f"t 0 {STEPS}", "end"]
    return "".join(f"{line}\n" for line in lines).encode("ascii")
