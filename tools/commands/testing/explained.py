"""`call` lines of which the decision alone is asked. No decision depends on the tree, so nothing is played for them: the program explains them, all of a policy at once."""
from __future__ import annotations

import re
from dataclasses import dataclass
from typing import TYPE_CHECKING

from tools.commands.messages.policy_words import FLAGS
from tools.commands.real_workloads.script_text import NAME_LIMIT, quoted
from tools.commands.real_workloads.tree import split_device
from tools.commands.testing import words
from tools.commands.testing.calls import Stored
from tools.commands.testing.found import Found

if TYPE_CHECKING:
    from tools.commands.testing.calls import Call

DECISION = re.compile(r"(\d+) .* rule=(\S+) verdict=(grant|deny|pass|inject)(?: error=(\S+))?(?: .*)?")
BELOW = b"  "
KIND_OF_NODE = 0o170000
NAMES_OF_KINDS = {bits: name for name, bits in words.KINDS.items()}


@dataclass(frozen=True)
class Calls:
    """A file of calls as `explain` takes them: a line for each of some `call` lines."""

    singles: tuple

    @property
    def data(self) -> bytes:
        """The bytes of the file."""
        return "".join(f"{line_of(it.call)}\n" for it in self.singles).encode("ascii")

    @property
    def shown(self):
        """Its lines, each below a comment with the line of the test file that it stands for."""
        return [text for it in self.singles for text in (f"# line {it.line.number}: {it.line.text}", line_of(it.call))]


def is_enough(single):
    """Whether the decision is all that is asked of a call, and the broker gets as far as that: the name of an attribute may be too long to be read."""
    return not single.expected.asks_tree and not (single.call.name == "setxattr" and len(single.call.texts[1]) >= NAME_LIMIT)


def line_of(call: Call) -> str:
    """A call as `explain` takes it. Permissions, data and addresses matter to no rule, and are left out."""
    texts = [quoted(it.content if call.name == "setxattr" and at == 2 else it.content[:-1]) if isinstance(it, Stored) else it for at, it in enumerate(call.arguments)]
    if call.name in ("mknod", "mknodat"):
        *place, mode, device = texts
        kind = NAMES_OF_KINDS[mode & KIND_OF_NODE]
        numbers = ["{}:{}".format(*split_device(device))] if kind in words.DEVICES else []
        return " ".join(map(str, (call.name, *place, kind, *numbers)))
    if call.name == "mount":
        source, target, filesystem_type, flags, _ = texts
        return f"mount {source} {target} {filesystem_type} {flag_names(call.name, flags)}"
    if call.name == "setxattr":
        path, name, value, _, flags = texts
        return f"setxattr {path} {name} {value or quoted(b'')} {flag_names(call.name, flags)}"
    return f"openat {texts[0]} {texts[1]}" if call.name == "openat" else call.name


def flag_names(name: str, flags: int) -> str:
    """The names of a call's flags, as rules have them."""
    return ",".join(it for it in FLAGS[name] if flags & words.FLAGS_OF[name][it]) or "-"


def found_of(calls, output):
    """What the program says of each call; None where it isn't one decision for each."""
    heads = [DECISION.fullmatch(it.decode("utf-8", "replace")) for it in output.splitlines() if not it.startswith(BELOW)]
    if None in heads or [int(it[1]) for it in heads] != list(range(1, len(calls.singles) + 1)):
        return None
    return [Found("notify", error or "", rule, verdict, "sent") for _, rule, verdict, error in (it.groups() for it in heads)]
