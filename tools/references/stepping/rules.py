"""Which rule of a policy decides a request, and how far the copy of a call's arguments has come (docs/reference/POLICY.md, and REPORT.md, Audit)."""
from __future__ import annotations

import errno
from typing import Any, NamedTuple, Optional, Tuple, Union

from tools.commands.messages import policy_words as words
from tools.commands.real_workloads.script_text import NAME_LIMIT, PATH_LIMIT, PIECE, VALUE_LIMIT
from tools.references.stepping.facts import AT_FDCWD, CALL_NAMES, Fail, major_of, minor_of, signed

OTHER_CALLS = "other"
MAGIC_MASK, MAGIC = 0xFFFF0000, 0xC0ED0000
BITS = {
    **{name: bit for name, bit in zip(words.FLAGS["mount"], (1, 2, 4, 8, 16, 32, 64, 128, 256, 1024, 2048, 4096, 8192, 16384, 32768, 131072, 262144, 524288, 1048576, 2097152, 16777216, 33554432))},
    "CREATE": 1, "REPLACE": 2,
}
NEVER_GRANTED = BITS["REMOUNT"] | BITS["BIND"] | BITS["MOVE"]
E2BIG, EFAULT, EINVAL, ERANGE, ENAMETOOLONG = 7, 14, 22, 34, 36
ADDRESSES = 2**64
KINDS = {0: "reg", 8: "reg", 1: "fifo", 2: "chr", 4: "dir", 6: "blk", 12: "sock"}


class Mknod(NamedTuple):
    dirfd: Optional[int]
    path: bytes
    mode: int
    device: int


class Mount(NamedTuple):
    source: bytes
    target: bytes
    fstype: bytes
    options: bytes
    via: bytes
    flags: int
    shift: bool


class SetXattr(NamedTuple):
    path: bytes
    name: bytes
    value: bytes
    flags: int


class OpenAt(NamedTuple):
    dirfd: int
    path: bytes
    flags: int


class Sysinfo(NamedTuple):
    address: int


class Other(NamedTuple):
    number: int


# what a call asks for
Request = Union[Mknod, Mount, SetXattr, OpenAt, Sysinfo, Other]


def kind_of(mode: int) -> str:
    """The kind of node that a mode asks for."""
    return KINDS.get(mode // 4096 % 16, "bad")


def request_of(number, args, texts):
    """What a call asks for, with the texts that were read for it."""
    call = CALL_NAMES.get(number)
    if call == "sysinfo":
        return Sysinfo(args[0])
    if call == "mknod":
        return Mknod(None, texts[0], args[1] % 2**16, args[2])
    if call == "mknodat":
        return Mknod(signed(args[0], 32), texts[0], args[2] % 2**16, args[3])
    if call == "mount":
        return Mount(*texts, b"", args[3], False)
    if call == "setxattr":
        return SetXattr(*texts, args[4] % 2**32)
    if call == "openat":
        return OpenAt(signed(args[0], 32), texts[0], args[2] % 2**32)
    return Other(number)


def base_of(number: int, args: Tuple[int, ...]) -> Optional[int]:
    """The descriptor from which the relative paths of a call go; None of a call without paths."""
    call = CALL_NAMES.get(number)
    if call in ("mknod", "mount", "setxattr"):
        return AT_FDCWD
    return signed(args[0], 32) if call in ("openat", "mknodat") else None


# ---- the copy


class Part(NamedTuple):
    """A text of a call, up to its zero or of a length. The fault is that of a text that doesn't end."""

    address: int
    limit: int
    fault: int
    is_text: bool


def text_at(address: int, limit: int, fault: int) -> Part:
    return Part(address, limit, fault, True)


def option_at(address: int) -> Part:
    return text_at(address, PATH_LIMIT, EINVAL) if address else Part(0, 0, 0, False)


def plan(number: int, args: Any) -> Any:
    """What is read for a call, in order."""
    call = CALL_NAMES.get(number)
    if call == "mknod":
        return [text_at(args[0], PATH_LIMIT, ENAMETOOLONG)]
    if call in ("mknodat", "openat"):
        return [text_at(args[1], PATH_LIMIT, ENAMETOOLONG)]
    if call == "mount":
        return [option_at(args[0]), text_at(args[1], PATH_LIMIT, ENAMETOOLONG), option_at(args[2]), option_at(args[4])]
    if call == "setxattr":
        return [text_at(args[0], PATH_LIMIT, ENAMETOOLONG), text_at(args[1], NAME_LIMIT, ERANGE), Part(args[2], args[3], 0, False)]
    return []


class Copy:
    """The copy of a call's arguments, as far as its pieces were read: the texts, or the fault, and the piece that is wanted next."""

    def __init__(self, number, args):
        self.parts, self.texts, self.fault, self.wanted = plan(number, args), [], None, None
        self.begin()

    def begin(self):
        """Begins the next part; one without a byte is whole at once."""
        self.wanted, self.content = None, b""
        while len(self.texts) < len(self.parts):
            part = self.parts[len(self.texts)]
            if not part.is_text and part.limit > VALUE_LIMIT:
                self.fault = Fail(E2BIG)
                return
            if part.limit:
                self.want(part)
                return
            self.texts.append(b"")

    def want(self, part):
        address = (part.address + len(self.content)) % ADDRESSES
        self.wanted = (address, min(PIECE - address % PIECE, part.limit - len(self.content)))

    def hear(self, answer: bytes) -> None:
        """Takes the answer of a read, where it answers the piece that is wanted: some bytes, or EFAULT."""
        if self.wanted is None or self.fault:
            return
        if isinstance(answer, Fail):
            if answer.number == EFAULT:
                self.fault, self.wanted = answer, None
        elif 1 <= len(answer) <= self.wanted[1]:
            self.take(self.parts[len(self.texts)], answer)

    def take(self, part, content):
        self.content += content
        if part.is_text and b"\0" in content:
            self.texts.append(self.content[:self.content.index(b"\0")])
            self.begin()
        elif len(self.content) < part.limit:
            self.want(part)
        elif part.is_text:
            self.fault, self.wanted = Fail(part.fault), None
        else:
            self.texts.append(self.content)
            self.begin()

    @property
    def is_whole(self) -> bool:
        return self.fault is None and len(self.texts) == len(self.parts)


# ---- the decision


class Condition(NamedTuple):
    name: str
    values: tuple


class Rule(NamedTuple):
    """A rule: what it fits, and what it says. `error` is that of a denial, `source` and `place` those of an injection, `times` is how often it grants, `via` and `shift` say how a mount is made."""

    name: str
    calls: Any
    conditions: tuple
    verdict: str
    error: int = 0
    source: int = 0
    place: Optional[int] = None
    times: Optional[int] = None
    via: bytes = b""
    shift: bool = False

    @property
    def answer(self) -> str:
        """What stands behind the verdict where the rule is explained: how often it grants, the error, or the descriptors."""
        if self.verdict == "grant":
            return "" if self.times is None else f" times={self.times}"
        if self.verdict == "deny":
            return f" error={next(name for name in words.ERRORS if getattr(errno, name) == self.error)}"
        return f" src={self.source} at={'-' if self.place is None else self.place}" if self.verdict == "inject" else ""


def condition(name: str, *values: Any) -> Condition:
    return Condition(name, values)


def call_of(request: Any) -> Optional[str]:
    """The name of a request's call; None of a call without one."""
    if isinstance(request, Mknod):
        return "mknod" if request.dirfd is None else "mknodat"
    if isinstance(request, Other):
        return CALL_NAMES.get(request.number)
    return {Mount: "mount", SetXattr: "setxattr", OpenAt: "openat", Sysinfo: "sysinfo"}[type(request)]


def path_of(request):
    return request.target if isinstance(request, Mount) else getattr(request, "path", None)


def lies_under(path: bytes, directory: bytes) -> bool:
    return path is not None and path.startswith(directory + b"/") and b".." not in path.split(b"/")


def device_of(request: Mknod) -> Optional[Tuple[int, int]]:
    """The numbers of the device that is asked for, of a request for one."""
    if isinstance(request, Mknod) and kind_of(request.mode) in ("chr", "blk"):
        low = request.device % 2**32
        return (major_of(low), minor_of(low))
    return None


def dirfd_of(request: Union[Mknod, OpenAt]) -> int:
    found = getattr(request, "dirfd", AT_FDCWD) if isinstance(request, (Mknod, OpenAt)) else None
    return AT_FDCWD if isinstance(request, Mknod) and found is None else found


def flags_of(request):
    """The flags of a request that has some, without the magic number of old programs."""
    if isinstance(request, Mount):
        return request.flags % 2**16 if request.flags & MAGIC_MASK == MAGIC else request.flags
    return request.flags


def has_flag(request: Union[Mount, SetXattr], flag: str) -> bool:
    call = "mount" if isinstance(request, Mount) else "setxattr" if isinstance(request, SetXattr) else None
    return call is not None and flag in words.FLAGS[call] and flags_of(request) & BITS[flag] != 0


MEETS = {
    "path": lambda request, text: path_of(request) == text,
    "under": lambda request, text: lies_under(path_of(request), text),
    "kind": lambda request, kind: isinstance(request, Mknod) and kind_of(request.mode) == kind,
    "dev": lambda request, major, minor: device_of(request) == (major, minor),
    "fstype": lambda request, text: isinstance(request, Mount) and request.fstype == text,
    "source": lambda request, text: isinstance(request, Mount) and request.source == text,
    "name": lambda request, text: isinstance(request, SetXattr) and request.name == text,
    "value": lambda request, text: isinstance(request, SetXattr) and request.value == text,
    "dirfd": lambda request, number: dirfd_of(request) == number,
    "flags": lambda request, every, none: all(has_flag(request, it) for it in every) and not any(has_flag(request, it) for it in none),
    "short device": lambda request: not isinstance(request, Mknod) or request.device < 2**32,
    "plain flags": lambda request: not isinstance(request, Mount) or request.flags & NEVER_GRANTED == 0,
}


def covers(rule: Any, request: Any) -> bool:
    """Whether the request's call is one of the rule's."""
    call = call_of(request)
    return call is None if rule.calls == OTHER_CALLS else call in rule.calls


def meets(request, stated):
    return MEETS[stated.name](request, *stated.values)


def fits(rule: Rule, request: Any) -> bool:
    return covers(rule, request) and all(meets(request, it) for it in rule.conditions)


def decide(rules: Any, request: Any) -> Any:
    """The first rule that fits; the defaults leave no request without one."""
    return next(rule for rule in rules if fits(rule, request))
