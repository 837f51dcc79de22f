"""The words of a report's events, as a picture shows them: what a line says, with names in place of numbers."""
from __future__ import annotations

import re
from typing import Any, Union

from tools.commands.pages.reports import TEXT

SIGNALS = {"9": "SIGKILL", "10": "SIGUSR1", "12": "SIGUSR2", "15": "SIGTERM"}
WORKING_DIRECTORY = -100
# the arguments of the calls: a name, and how the number is shown
ARGUMENTS = {
    "close": (("descriptor", "int"),),
    "getpid": (),
    "sysinfo": (("answer", "address"),),
    "mknod": (("path", "address"), ("mode", "mode"), ("device", "device")),
    "mknodat": (("directory", "directory"), ("path", "address"), ("mode", "mode"), ("device", "device")),
    "mount": (("source", "address"), ("target", "address"), ("type", "address"), ("flags", "flags"), ("data", "address")),
    "setxattr": (("path", "address"), ("name", "address"), ("value", "address"), ("size", "int"), ("flags", "flags")),
    "openat": (("directory", "directory"), ("path", "address"), ("flags", "flags"), ("mode", "mode")),
}
OTHER_ARGUMENTS = tuple((f"argument {number}", "flags") for number in range(6))
KINDS = {"reg": "file", "fifo": "FIFO", "sock": "socket", "dir": "directory", "bad": "node of no kind"}
LONGEST = 56
# how many bytes of a text are shown at most, before it is shortened
LONGEST_TOLD = 128


def address(number: Union[int, str]) -> str:
    return hex(int(number))


def lower_half(number: str) -> int:
    """The number's lower 32 bits, with their sign."""
    return (int(number) + 2**31) % 2**32 - 2**31


def device(number: str) -> str:
    """The two numbers that makedev(3) packs into one."""
    packed = int(number)
    return f"{(packed >> 8) & 0xfff | (packed >> 32) & ~0xfff}:{packed & 0xff | (packed >> 12) & ~0xff & 0xffffffff}"


def directory(number):
    return "AT_FDCWD" if lower_half(number) == WORKING_DIRECTORY else str(lower_half(number))


SHOWN = {"int": str, "address": address, "flags": address, "mode": lambda number: f"0o{int(number):o}", "device": device, "directory": directory}


def arguments(name, numbers):
    """The arguments of a call: a name, the number, and how it is read, each."""
    known = ARGUMENTS.get(name, OTHER_ARGUMENTS)
    return [[label, number, SHOWN[form](number)] for (label, form), number in zip(known, numbers)]


def bytes_text(data: bytes) -> str:
    """Bytes between quotes, as a report writes a text."""
    written = (f"\\{chr(byte)}" if byte in b'"\\' else chr(byte) if 32 <= byte < 127 else "\\0" if byte == 0 else f"\\x{byte:02x}" for byte in data)
    return f'"{"".join(written)}"'


def shortened(text: str) -> str:
    return text if len(text) <= LONGEST else f"{text[:LONGEST - 8]} … {text[-6:]}"


def short_text(digits: str) -> str:
    """Bytes given as digits of base 16, as a text that isn't too long."""
    return shortened(bytes_text(bytes.fromhex(digits[:2 * LONGEST_TOLD]))) + (" and more" if len(digits) > 2 * LONGEST_TOLD else "")


def signal(number):
    return SIGNALS.get(number, f"signal {number}")


def failed(result: str) -> str:
    return "" if result == "ok" else f": {result}"


def is_error(answer: str) -> bool:
    return answer.startswith("E")


def spawned(name: str, pid: str, kind: str, error: Any) -> str:
    if error is not None:
        return f"can't start task {name}: {error}"
    return {"new": f"starts, as process {pid}", "copy": f"starts process {pid}, task {name}", "share": f"starts thread {pid}, task {name}"}[kind]


def handled(number: str, mode: str) -> str:
    what = {"default": "ends the task, as by default", "restart": "gets a handler that restarts calls", "plain": "gets a handler that interrupts calls"}[mode]
    return f"{signal(number)} {what}"


def called(name: str, numbers: str, verdict: str) -> str:
    told = {"allow": "allowed", "log": "allowed and logged", "nosys": "ENOSYS by a filter", "kill": "killed by a filter"}
    said = f"notification {verdict[10:]}" if verdict.startswith("notify") else f"error {verdict[6:]} by a filter" if "=" in verdict else told[verdict]
    known = arguments(name, numbers.split())
    return f"calls {name if known is not OTHER_ARGUMENTS else 'number ' + name}({', '.join(shown for _, _, shown in known)}): {said}"


def ran(answer: str) -> str:
    return f"the call runs without the broker: {'fails with ' if is_error(answer) else 'returns '}{answer}"


def installed(answer: str) -> str:
    return f"gets no descriptor: {answer}" if is_error(answer) else f"gets descriptor {answer}"


def resumed(back: str) -> str:
    if back == "continue":
        return "the call goes on without the broker"
    return f"the call fails with {back}" if is_error(back) else f"the call returns {back}"


def delivered(number: str, effect: str) -> str:
    return {
        "end": f"dies of {signal(number)}",
        "run": f"the handler of {signal(number)} runs",
        "restart": f"{signal(number)} interrupts the call, which is made again",
        "eintr": f"{signal(number)} interrupts the call, which fails with EINTR",
    }[effect]


def received(notification: str, pid: str, error: Any) -> str:
    return f"finds nothing to receive: {error}" if error else f"receives notification {notification} of process {pid}"


def opened_base(pid: str, number: str, result: str) -> str:
    what = f"the working directory of process {pid}" if int(number) == WORKING_DIRECTORY else f"the directory that process {pid} has as descriptor {number}"
    return f"opens {what}{failed(result)}"


def checked(notification: str, result: str) -> str:
    told = {"ok": "still valid", "ENOENT": "gone"}
    return f"checks notification {notification}: {told.get(result, result)}"


def was_read(place, length, data):
    if is_error(data):
        return f"reads at {address(place)}: {data}"
    return f"reads {'zero bytes' if data == '-' else short_text(data)} at {address(place)}"


def unquoted(text: str) -> str:
    """A quoted text without its quotes where it needs none."""
    inner = text[1:-1]
    return shortened(inner if re.fullmatch(r"[!#-\[\]-~]+", inner) else text)


def node(kind: str) -> str:
    word, _, numbers = kind.partition(" ")
    return f"{ {'chr': 'character device', 'blk': 'block device'}[word] } {numbers}" if numbers else KINDS[word]


def effect(request):
    """What a request asks for."""
    word, _, rest = request.partition(" ")
    texts = re.findall(TEXT, rest)
    if word in ("mknod", "mknodat"):
        behind = rest[rest.rindex('"') + 2:]
        base = f", from descriptor {rest.split(' ')[0]}" if word == "mknodat" and not rest.startswith(f"{WORKING_DIRECTORY} ") else ""
        return f"make {unquoted(texts[0])}, {node(behind)}{base}"
    if word == "mount" and texts:
        via, shift = re.search(r"via=(\S+) shift=([01])$", rest).groups()
        more = f", by {via}" * (via != "-") + ", ids shifted" * (shift == "1")
        return f"mount {unquoted(texts[0])} on {unquoted(texts[1])} as {unquoted(texts[2])}{more}"
    if word == "setxattr" and texts:
        value = rest.rsplit(" ", 2)[1]
        return f"set {unquoted(texts[1])} of {unquoted(texts[0])} to {'nothing' if value == '-' else short_text(value)}"
    return f"do {request}"


def acted(request: str, result: str) -> str:
    verb, _, rest = effect(request).partition(" ")
    done = {"make": "makes", "mount": "mounts", "set": "sets", "do": "does"}[verb]
    return f"{done} {rest}" if result == "ok" else f"tries to {verb} {rest}: {result}"


def put(_: str, source: str, target: str, nosend: Any, result: str) -> str:
    place, sending = "" if target == "-" else f", at {target}", ", without an answer" if nosend else ""
    return f"puts its descriptor {source} into the caller{place}{sending}{failed(result)}"


def taken(answer: str) -> str:
    return f"learns that the descriptor wasn't put in: {answer}" if is_error(answer) else f"learns that the descriptor is {answer} there"


def sent(notification: str, back: str, result: str) -> str:
    answer = "go on without the broker" if back == "continue" else back
    return f"answers {notification}: {answer}" + {"ok": "", "ENOENT": ", but nobody waits for it"}.get(result, f", refused with {result}")


WORDS = {
    "spawn": spawned,
    "poke": lambda place, data: f"stores {short_text(data)} at {address(place)}",
    "handler": handled,
    "call": called,
    "native": ran,
    "install": installed,
    "resume": resumed,
    "kill": lambda pid, number, result: f"sends {signal(number)} to process {pid}{failed(result)}",
    "deliver": delivered,
    "wait": lambda child: f"waits for a child: {child}" if is_error(child) else f"reaps task {child}",
    "exit": lambda: "exits",
    "recv": received,
    "open-mem": lambda pid, result: f"opens the memory of process {pid}{failed(result)}",
    "open-base": opened_base,
    "check": checked,
    "read": was_read,
    "act": acted,
    "plant": lambda place, result: f"writes the answer into the caller's memory{failed(result)}",
    "addfd-put": put,
    "addfd-take": taken,
    "send": sent,
    "let-go": lambda: "lets go of the notification",
    "skip": lambda: "has no step to take",
    "close": lambda: "is closed",
}


def words_of(event):
    """What happened in an event, without its actor."""
    return WORDS[event.word](*event.fields)
