"""Which rule of a policy decides each call of a file, and what the call misses of each rule before it, by what docs/reference/OUTPUTS.md says (An explanation)."""
from __future__ import annotations

from typing import Any, List, Tuple, Union

from tools.commands.messages.calls import BITS, fault_of
from tools.commands.messages.policy_words import FLAGS
from tools.commands.messages.script_lines import Line, Token, number_of
from tools.commands.real_workloads.script_text import CALLS
from tools.references.stepping import rules as known
from tools.references.stepping.facts import AT_FDCWD, call_text, quoted
from tools.references.stepping.lexing import LineFault, tokens_of
from tools.references.stepping.rules import MEETS, OTHER_CALLS, Mknod, Mount, OpenAt, Other, Rule, SetXattr, Sysinfo, call_of, decide, dirfd_of, has_flag, kind_of, path_of

TYPES = {"reg": 0o100000, "chr": 0o020000, "blk": 0o060000, "fifo": 0o010000, "sock": 0o140000}
# why LXD's rules pass a call (Why a call is passed)
CAUSES = {
    "lxd.mknod.not-a-known-device": "LXD makes no such node", "lxd.mknodat.directory-descriptor": "the directory descriptor isn't AT_FDCWD",
    **{f"lxd.mount.{name}": "LXD's filter doesn't notify it" for name in ("remount", "bind", "move")},
    "lxd.mount.propagation": "mount(2) changes how a mount propagates, and mounts nothing", "lxd.mount.type": "the type isn't mounted",
    "lxd.setxattr.value": "the value isn't y", "lxd.setxattr.name": "the attribute has another name",
}


class Refused(Exception):
    """A file of calls that isn't taken; the text is what stands behind `calls: `."""


# ---- the calls


def descriptor_of(token):
    return AT_FDCWD if token.text == "AT_FDCWD" else number_of(token.text)


def device_number(text: str) -> int:
    major, minor = map(int, text.split(":"))
    return minor % 256 + major * 256 + minor // 256 * 1048576


def node_of(dirfd, path, kind, *rest):
    """A node: behind its kind stand its numbers, where it is a device, and its permissions."""
    is_device = kind.text in ("chr", "blk")
    mode = rest[is_device:]
    return Mknod(dirfd, path.content, TYPES[kind.text] + (number_of(mode[0].text[len("mode="):]) if mode else 0), device_number(rest[0].text) if is_device else 0)


def bits_of(call: str, tokens: Tuple[Token, ...]) -> int:
    names = tokens[0].text.split(",") if tokens and tokens[0].text != "-" else []
    return sum({BITS[call][name] for name in names if name})


READ = {
    "mknod": lambda *rest: node_of(None, *rest),
    "mknodat": lambda dirfd, *rest: node_of(descriptor_of(dirfd), *rest),
    "mount": lambda source, target, fstype, *rest: Mount(source.content, target.content, fstype.content, rest[1].content if len(rest) > 1 else b"", b"", bits_of("mount", rest), False),
    "setxattr": lambda path, name, value, *rest: SetXattr(path.content, name.content, value.content, bits_of("setxattr", rest)),
    "openat": lambda dirfd, path: OpenAt(descriptor_of(dirfd), path.content, 0),
    "sysinfo": lambda: Sysinfo(0),
    "close": lambda: Other(CALLS["close"]), "getpid": lambda: Other(CALLS["getpid"]), "other": lambda number: Other(number_of(number.text)),
}


def calls_of(data):
    """The calls of a file: the number of each line, and the request. Raises Refused."""
    for number, content in enumerate(data.split(b"\n"), 1):
        try:
            tokens = tokens_of(content)
        except LineFault as fault:
            raise Refused(f"line {number}: {fault}") from None
        if tokens:
            line = Line(number, tuple(tokens))
            wrong = fault_of(line)
            if wrong:
                raise Refused(f"line {number}: {wrong.reason}")
            yield number, READ[line.word](*line.operands)


# ---- what is told of them


def number_in(request):
    """The number of a request's call."""
    return request.number if isinstance(request, Other) else CALLS[call_of(request)]


def node_text(request: Mknod) -> str:
    kind, device = kind_of(request.mode), known.device_of(request)
    return f"{kind} {device[0]}:{device[1]}" if device else kind


def flags_text(request):
    return ",".join(flag for flag in FLAGS[call_of(request)] if has_flag(request, flag)) or "-"


def asked_text(request: Any) -> str:
    """A call as a line of the file has it."""
    if isinstance(request, Mknod):
        return " ".join(["mknod"] if request.dirfd is None else ["mknodat", str(request.dirfd)]) + f" {quoted(request.path)} {node_text(request)}"
    if isinstance(request, Mount):
        return " ".join(["mount", *map(quoted, (request.source, request.target, request.fstype)), flags_text(request), *([quoted(request.options)] if request.options else [])])
    if isinstance(request, SetXattr):
        return " ".join(["setxattr", *map(quoted, request[:3]), flags_text(request)])
    if isinstance(request, OpenAt):
        return f"openat {request.dirfd} {quoted(request.path)}"
    return call_of(request) or f"other {request.number}"


def unlike(found: Union[int, str], wanted: Union[int, str]) -> str:
    return f"{found} is not {wanted}"


def flags_missed(request: Any, every: Any, none: Any) -> str:
    unset = next((flag for flag in every if not has_flag(request, flag)), None)
    return f"{unset} is not set" if unset else f"{next(flag for flag in none if has_flag(request, flag))} is set"


MISSED = {
    "path": lambda request, text: unlike(quoted(path_of(request)), quoted(text)),
    "under": lambda request, text: f"{quoted(path_of(request))} is not under {quoted(text)}",
    "kind": lambda request, kind: unlike(kind_of(request.mode), kind),
    "dev": lambda request, major, minor: unlike(node_text(request), f"{major}:{minor}"),
    **{key: lambda request, text, key=key: unlike(quoted(getattr(request, key)), quoted(text)) for key in ("fstype", "source", "name", "value")},
    "dirfd": lambda request, number: unlike(dirfd_of(request), number),
    "flags": flags_missed,
    "plain flags": lambda request: "REMOUNT, BIND or MOVE is set",
    "short device": lambda request: "its number has more than 32 bits",
}
SHOWN = {"plain flags": "flags", "short device": "dev"}


def missed(rule, request):
    """What a call misses first of a rule."""
    call = call_of(request)
    if call is None if rule.calls == OTHER_CALLS else call in rule.calls:
        unmet = next(it for it in rule.conditions if not MEETS[it.name](request, *it.values))
        return f"{SHOWN.get(unmet.name, unmet.name)}: {MISSED[unmet.name](request, *unmet.values)}"
    return f"call: {unlike(call_text(number_in(request)), ' or '.join(rule.calls))}"


def reason_of(rule: Any) -> str:
    if rule.verdict != "pass":
        return ""
    return f' reason="{CAUSES.get(rule.name) or ("no other rule fits" if rule.name.startswith("default.") else "the rule says so")}"'


def explanation(rules: List[Rule], data: bytes) -> str:
    """What is told of the calls of a file. Raises Refused."""
    found = []
    for number, request in list(calls_of(data)):
        rule = decide(rules, request)
        found.append(f"{number} {asked_text(request)} rule={rule.name} verdict={rule.verdict}{rule.answer}{reason_of(rule)}\n")
        found += [f"  {before.name} misses {missed(before, request)}\n" for before in rules[:rules.index(rule)]]
    return "".join(found)
