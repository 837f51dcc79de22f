"""What a policy says of a call: by its texts, and by its registers alone."""
from __future__ import annotations

from typing import List, NamedTuple, Optional, Tuple

from tools.references.stepping.facts import AT_FDCWD, CALL_NAMES, O_CLOEXEC, SEND, SETFD, signed
from tools.references.stepping.rules import Mknod, Mount, base_of, covers, decide, meets, plan, request_of

# the conditions that look at texts; all others look at registers
OF_TEXTS = {"path", "under", "fstype", "source", "name", "value"}
NAMES_OF_TEXTS = {
    "mknod": ("path",), "mknodat": ("path",), "openat": ("path",), "mount": ("source", "target", "type", "data"), "setxattr": ("path", "name", "value"),
}


def names_of_texts(number):
    """What the texts of a call are called, in the order of its plan."""
    return NAMES_OF_TEXTS.get(CALL_NAMES.get(number), ())


def texts_of(request):
    """The texts that an effect names, in the order of the plan of its call."""
    if isinstance(request, Mknod):
        return (request.path,)
    if isinstance(request, Mount):
        return (request.source, request.target, request.fstype, request.options)
    return (request.path, request.name, request.value)


def path_of(request):
    """The path that an effect walks."""
    return request.target if isinstance(request, Mount) else request.path


class Numbers(NamedTuple):
    """What registers say of an effect; None where a call has no such number."""

    call: str
    descriptor: Optional[int] = None
    mode: Optional[int] = None
    device: Optional[int] = None
    flags: Optional[int] = None
    address: Optional[int] = None

    def differences(self, asked: Numbers) -> List[str]:
        """The names of the numbers in which an effect differs from its call."""
        return [name for name, mine, other in zip(self._fields, self, asked) if mine != other]


def device_numbers(dirfd: int, mode: int, device: int) -> Numbers:
    """Of mknod(2), which is mknodat(2) of AT_FDCWD. It takes 16 bits of the mode, and 32 of the device."""
    return Numbers("mknodat", descriptor=dirfd, mode=mode % 2**16, device=device % 2**32)


def numbers_of_call(number: int, args: Tuple[int, ...]) -> Numbers:
    call = CALL_NAMES.get(number)
    if call == "mknod":
        return device_numbers(AT_FDCWD, args[1], args[2])
    if call == "mknodat":
        return device_numbers(signed(args[0], 32), args[2], args[3])
    if call == "mount":
        return Numbers(call, flags=args[3])
    if call == "setxattr":
        return Numbers(call, flags=args[4] % 2**32)
    if call == "sysinfo":
        return Numbers(call, address=args[0])
    if call == "openat":
        return Numbers(call, flags=args[2] & O_CLOEXEC)
    return Numbers(call or str(number))


def numbers_of_act(request):
    if isinstance(request, Mknod):
        return device_numbers(AT_FDCWD if request.dirfd is None else request.dirfd, request.mode, request.device)
    if isinstance(request, Mount):
        return Numbers("mount", flags=request.flags)
    return Numbers("setxattr", flags=request.flags)


def is_just_so(rule, request):
    """Whether a mount is made as its rule says; other effects have no such choice."""
    return not isinstance(request, Mount) or (request.via, request.shift) == (rule.via, rule.shift)


def is_just_put(rule, asked):
    """Whether a request for a descriptor is the one of the rule, answering the call or not."""
    wanted = (rule.source, SETFD if rule.place is not None else 0, rule.place or 0)
    return wanted == (asked.srcfd, asked.flags & SETFD, asked.newfd) and asked.flags & ~(SETFD | SEND) == 0


def rule_for(rules, call, texts):
    """The rule that decides a call with these texts."""
    return decide(rules, request_of(call.number, call.args, texts))


def rule_by_registers(rules, call):
    """The rule by which a call is decided whatever its texts are, or one that says the same; None where texts may make a difference."""
    request, possible = request_of(call.number, call.args, [b""] * len(plan(call.number, call.args))), []
    for rule in rules:
        if not covers(rule, request) or not all(meets(request, it) for it in rule.conditions if it.name not in OF_TEXTS):
            continue
        possible.append(rule)
        if not any(it.name in OF_TEXTS for it in rule.conditions):
            break
    said = {(rule.verdict, rule.error, *((rule.source, rule.place) if rule.verdict == "inject" else ())) for rule in possible}
    return possible[-1] if len(said) == 1 else None


def dirfd_of(call):
    """The descriptor from which the relative paths of a call go."""
    return base_of(call.number, call.args)
