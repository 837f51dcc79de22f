"""The script that plays a history again: behind the lines of the script itself a schedule with each step of a task and each request of a worker."""
from __future__ import annotations

from typing import Any, List, Union

from tools.commands.real_workloads.script_text import MOST_STEPS
from tools.references.stepping.facts import CONTINUE, Event, Fail, quoted
from tools.references.stepping.rules import Mknod, Mount, SetXattr

# the container's start, and all steps of a schedule; the closing of the listener is one event more
MOST_EVENTS = 1 + MOST_STEPS
MOST_BYTES = 8_388_608


def act_text(request: Union[Mknod, Mount, SetXattr]) -> str:
    """A call that a worker makes itself, with its texts in place."""
    if isinstance(request, Mknod):
        maker = "mknod" if request.dirfd is None else f"mknodat {request.dirfd}"
        return f"{maker} {quoted(request.path)} {request.mode} {request.device}"
    if isinstance(request, Mount):
        via = f" via {quoted(request.via)}" if request.via else ""
        texts = " ".join(map(quoted, (request.source, request.target, request.fstype)))
        return f"mount {texts} {request.flags} {quoted(request.options)}{via}{' shift' if request.shift else ''}"
    return f"setxattr {quoted(request.path)} {quoted(request.name)} {quoted(request.value)} {request.flags}"


def back_text(back: Any) -> str:
    """The value, the error and the flags of an answer."""
    return "0 0 1" if back == CONTINUE else f"0 -{back.number} 0" if isinstance(back, Fail) else f"{back} 0 0"


# what a worker asked for, by the kind of the event and what belongs to that
ASKED = {
    "recv": lambda _: "recv",
    "open-mem": lambda pid, _: f"open-mem {pid}",
    "open-base": lambda pid, dirfd, _: f"open-base {pid} {dirfd}",
    "check": lambda identifier, _: f"check {identifier}",
    "read": lambda address, length, _: f"read {address} {length}",
    "act": lambda request, _: f"act {act_text(request)}",
    "plant": lambda address, content, _: f"plant {address} {content.hex()}",
    "addfd-put": lambda asked, _: "addfd " + " ".join(map(str, asked)),
    "addfd-take": lambda _: "addfd-result",
    "send": lambda identifier, back, _: f"send {identifier} {back_text(back)}",
    "let-go": lambda: "let-go",
}


def turn_text(event):
    """The line of an event; none of the container's start and of the close."""
    if event.actor[0] == "t":
        return f"t {event.actor[1:]}\n"
    return f"w {event.actor[1:]} {ASKED[event.kind](*event.facts)}\n" if event.actor[0] == "w" else ""


def script_text(front: bytes, events: List[Event]) -> str:
    return front.decode("latin-1") + "schedule\n" + "".join(map(turn_text, events)) + "end\n"
