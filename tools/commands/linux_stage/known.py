"""Which of the known differences one is: the names are those of differences.json.

A difference has a name only if both answers and its cause are there: the answer of the written kernel is the one that the script's step has to have, Linux's
is one that the cause gives, and the cause is present in this very step. So another difference isn't taken for a known one.
"""
from __future__ import annotations

import os
from typing import Callable, NamedTuple, Optional, Tuple

from tools.commands.linux_stage import attributes
from tools.commands.linux_stage.machine import KINDS, SET_NUMBER, error_name
from tools.commands.linux_stage.scenes import SYSINFO_SIZE, Put, Step
from tools.commands.real_workloads.script_text import END_OF_ADDRESSES
from tools.references.stepping import filters
from tools.references.stepping.facts import CALL_NAMES
from tools.references.stepping.kernel import MOST_DESCRIPTORS
from tools.references.stepping.rules import BITS, MAGIC, MAGIC_MASK, NEVER_GRANTED

WALK = ("ENOENT", "ENOTDIR", "ELOOP", "ENAMETOOLONG")
OF_PROBES = {335: "dead", 336: "ENXIO"}
# of the flags of a mount: those that have a source; those that mount nothing; no user, and the bits above
FROM_SOURCE = BITS["BIND"] | BITS["MOVE"]
OTHER_ACTS = NEVER_GRANTED | BITS["UNBINDABLE"] | BITS["PRIVATE"] | BITS["SLAVE"] | BITS["SHARED"]
REFUSED_FLAGS = 2**64 - 2**31
# the flags of openat for which it has this error of its own
OPENING = {"EEXIST": os.O_CREAT | os.O_EXCL, "EISDIR": os.O_CREAT | os.O_ACCMODE, "ENOTDIR": os.O_DIRECTORY, "ELOOP": os.O_NOFOLLOW}
RESTARTS = ("E512", "E513", "E514", "E516")


class Known(NamedTuple):
    name: str
    apart: bool = False  # the two kernels differ from here on, and what follows isn't compared


class Place(NamedTuple):
    """What is so in the play on Linux, beside the facts of the step."""

    instruction_pointer: int = 0
    as_init: bool = False  # the first task is PID 1
    is_init: bool = False  # and it is the one that steps
    is_orphan: bool = False  # the step is about a task whose parent has ended


class Seen(NamedTuple):
    """Two answers that differ, and where."""

    linux: str
    here: str
    step: Step
    place: Place

    @property
    def pair(self) -> Tuple[str, str]:
        return self.linux, self.here

    @property
    def is_done(self) -> bool:
        """Whether one of the two succeeded."""
        return any(answer == "ok" or answer.isdigit() for answer in self.pair)


class Rule(NamedTuple):
    """A name, where it is given, and when. `apart` is None where the kernels differ from here on if one of the two succeeded."""

    at: Tuple[str, ...]
    name: str
    apart: Optional[bool]
    is_cause: Callable[[Seen], object]


def find(line: str, what: str, linux: str, here: str, step: Step, place: Place) -> Optional[Known]:
    """The known difference of a step, or None; `what` says what was compared. None too if the journal has another line than the step has to have."""
    seen = Seen(linux, here, step, place)
    rule = rule_of(what, seen) if line == step.line else None
    return rule and Known(rule.name, seen.is_done if rule.apart is None else rule.apart)


def rule_of(what: str, seen: Seen) -> Optional[Rule]:
    """The first rule that fits, or None."""
    at = f"native {name_of_call(seen.step)}" if what.startswith("native call") else what
    return next((rule for rule in RULES if at.startswith(rule.at) and rule.is_cause(seen)), None)


# ---- what filters say

def name_of_call(step: Step) -> str:
    return CALL_NAMES.get(step.number, "probe" if step.number in OF_PROBES else "other")


def is_of_probes(seen: Seen) -> bool:
    return seen.linux == OF_PROBES.get(seen.step.number)


def is_seen_otherwise(seen: Seen) -> bool:
    """Whether the filters say this of the call for the address of its instruction, and something else for the address 0."""
    step = seen.step
    if step.call is None or step.number in OF_PROBES:
        return False
    told, plain = (filters.verdict(step.filters, step.number, step.arguments, address) for address in (seen.place.instruction_pointer, 0))
    if told == plain:
        return False
    answers = {"notify": "notify", "kill": "dead", "nosys": "ENOSYS", "errno": error_name(told[-1]) if told[-1] else "0"}
    return seen.linux == answers[told[0]] if told[0] in answers else seen.linux != "notify"


# ---- walks and native calls

def is_onto_mount(seen: Seen) -> bool:
    return seen.step.walked.onto_mount and (seen.linux.isdigit() or seen.linux in (*WALK, "ok", "EEXIST", "EPERM", "EBUSY"))


def is_data_alone(seen: Seen) -> bool:
    """Whether the data of a mount is all that can't be read."""
    of_data = seen.step.error_of(3)
    return seen.pair == ("EPERM", of_data) and seen.step.errors == {of_data} and of_data in ("EFAULT", "EINVAL")


def is_error_of_mount(seen: Seen) -> bool:
    causes = {"EPERM", *seen.step.errors, seen.step.walked.error}
    return seen.linux in causes and seen.here in causes


def is_error_of_setxattr(seen: Seen) -> bool:
    """Whether both answers are errors that this setxattr may have."""
    linux, here, step, _ = seen
    name, flags = step.attribute, step.arguments[4]
    causes = {*step.errors, step.walked.error} - {""} | ({"EINVAL"} if flags & 0xFFFFFFFC else set()) | ({"EFAULT"} if step.is_cut else set())
    causes |= {"EPERM"} if name is not None and not name.startswith(b"user.") else set()
    refused = name is not None and (attributes.is_refused_for_its_name(name, linux) or attributes.is_refused_for_its_value(name, linux, step.size))
    return here in causes and (linux in causes or refused)


def is_size_of_attribute(seen: Seen) -> bool:
    linux, here, step, _ = seen
    if here != "E2BIG" or step.size > attributes.MOST_OF_A_VALUE:
        return False
    return step.size > 4096 and linux in ("0", "ENOSPC") or is_error_of_setxattr(seen) and linux not in step.errors


def is_name_of_attribute(seen: Seen) -> bool:
    """Whether Linux refuses the name of an attribute, which is set here, or is in the way."""
    linux, here, step, _ = seen
    if step.attribute is None or here not in (step.done, "EEXIST", "ENODATA", *WALK) or here in WALK and linux != "ERANGE":
        return False
    is_special = step.walked.kind not in ("reg", "dir")
    return attributes.is_refused_for_its_name(step.attribute, linux) and (linux != "EPERM" or is_special)


def is_value_of_attribute(seen: Seen) -> bool:
    linux, here, step, _ = seen
    return step.attribute is not None and here == step.done and attributes.is_refused_for_its_value(step.attribute, linux, step.size)


def node_of(step: Step) -> Tuple[int, int]:
    """The kind of node and the device that mknod or mknodat asks for."""
    mode, device = step.arguments[1:3] if CALL_NAMES[step.number] == "mknod" else step.arguments[2:4]
    return mode & 0o170000, device & 0xFFFFFFFF


def is_kind_first(seen: Seen) -> bool:
    """Whether Linux refuses the kind of a node, and here its path can't be read."""
    step = seen.step
    mode, _ = node_of(step)
    is_node = mode == 0 or mode in (KINDS[kind] for kind in ("reg", "chr", "blk", "fifo", "sock"))
    of_kind, of_path = "EPERM" if mode == KINDS["dir"] else "" if is_node else "EINVAL", step.error_of(0)
    return seen.pair == (of_kind, of_path) and of_path != ""


def is_for_its_flags(seen: Seen) -> object:
    """Whether Linux opens otherwise for flags of openat."""
    linux, here, flags = seen.linux, seen.here, seen.step.arguments[2]
    return here.isdigit() and flags & OPENING.get(linux, 0) or here == "ENOENT" and linux.isdigit() and flags & os.O_CREAT


# ---- workers

def mount_flags(flags: int) -> int:
    """The flags as mount(2) takes them: those of the old magic number don't count."""
    return flags & ~MAGIC_MASK if flags & MAGIC_MASK == MAGIC else flags


def is_other_mount(seen: Seen) -> bool:
    linux, here, request = seen.linux, seen.here, seen.step.request
    flags = mount_flags(request.flags)
    answers = ("EINVAL", "nothing mounted") * bool(flags & (OTHER_ACTS | REFUSED_FLAGS)) + WALK * bool(flags & FROM_SOURCE)
    return linux in answers and (here in ("ok", "ENOTDIR") or here == "EINVAL" and not request.fstype)


def is_without_type(seen: Seen) -> bool:
    return seen.here == "EINVAL" and not seen.step.request.fstype and seen.linux in (seen.step.walked.error or "ENODEV", "ENODEV")


def has_number(put: Put) -> bool:
    return bool(put.asked.flags & SET_NUMBER)


def is_limit(seen: Seen) -> bool:
    put = seen.step.put
    if has_number(put):
        return seen.pair == ("EBADF", "EMFILE") and put.asked.newfd >= MOST_DESCRIPTORS
    return seen.pair == ("EMFILE", "EBADF") and put.is_full


def is_order(seen: Seen) -> bool:
    put = seen.step.put
    return not has_number(put) and put.has_others and seen.here.isdigit() and (seen.linux.isdigit() or seen.linux == "EMFILE")


def is_tried(seen: Seen, lost_by: str) -> bool:
    """Whether a request for a descriptor that was lost here by this is tried there, where it may fail."""
    linux, put = seen.linux, seen.step.put
    is_told = linux.isdigit() or (linux, put.is_full) == ("EMFILE", True) or (linux, put.is_beyond) == ("EBADF", True)
    return seen.here == "ENOENT" and is_told and put.lost_by == lost_by


# ---- signals, tasks and their numbers

def is_held_for_another(seen: Seen) -> object:
    step = seen.step
    return seen.pair == ("notify", "dead") and step.is_held and step.caught and 9 not in step.pending


def runs_out(seen: Seen) -> bool:
    """Whether the numbers of the script have run out: they are given again, or none is left."""
    linux, here, last = seen.linux.removeprefix("pid="), seen.here, seen.step.last_pid
    has_run_out = here == "EAGAIN" or here.startswith("pid=") and int(here.removeprefix("pid=")) <= last
    return seen.place.as_init and has_run_out and linux.isdigit() and int(linux) > last


def is_group(pid: int) -> bool:
    """Whether kill(2) takes a number for more than one process: 0, and those that are negative in 32 bits."""
    return pid == 0 or pid >= 2**31


EFFECTS = ("effect of mknod", "effect of mount", "effect of setxattr")
SET_ATTRIBUTE = ("native setxattr", "effect of setxattr")
INSTALLED = ("install", "take of a descriptor")
RULES = (
    Rule(("verdict", "native"), "calls-no-filter-sees", True, is_of_probes),
    Rule(("verdict", "native"), "instruction-pointer", True, is_seen_otherwise),
    Rule(("native",), "sysinfo-part", True, lambda it: it.step.is_torn and it.linux not in ("notify", "dead")),
    Rule(("native other",), "other-calls", True, lambda it: it.pair == ("dead", "ENOSYS")),
    Rule(("native other",), "other-calls", False, lambda it: it.here == "ENOSYS" and it.linux != "notify"),
    Rule(("native openat", "native mknodat"), "dirfd-not-a-directory", False, lambda it: it.pair == ("ENOTDIR", "EBADF") and it.step.is_other_node),
    Rule(("native mount",), "mount-data", False, is_data_alone),
    Rule(("native mount",), "native-mount", False, is_error_of_mount),
    Rule(("native setxattr",), "attribute-size", None, is_size_of_attribute),
    Rule(("native setxattr",), "attribute-without-rights", True, lambda it: it.pair == ("0", "EPERM") and it.step.attribute in attributes.WITHOUT_RIGHTS),
    Rule(("native setxattr",), "setxattr-order", False, is_error_of_setxattr),
    Rule(("native mknod",), "whiteout-device", True, lambda it: it.pair == ("0", "EPERM") and node_of(it.step) == (KINDS["chr"], 0)),
    Rule(("native mknod",), "mknod-kind-first", False, is_kind_first),
    Rule(("native openat",), "openat-full-table", False, lambda it: it.linux == "EMFILE" and it.step.is_full and it.here in (*WALK, "EBADF")),
    Rule(("native openat",), "openat-only-walks", True, is_for_its_flags),
    Rule(("effect of mknod", "effect of setxattr"), "mount-options", True, lambda it: it.pair == ("EROFS", "ok") and it.step.walked.read_only),
    Rule(SET_ATTRIBUTE, "attribute-names", None, is_name_of_attribute),
    Rule(SET_ATTRIBUTE, "attribute-values", True, is_value_of_attribute),
    Rule(("effect of mount",), "mount-flags", True, is_other_mount),
    Rule(("effect of mount",), "mount-without-type", False, is_without_type),
    Rule(("native", *EFFECTS), "dot-dot-under-mount", True, is_onto_mount),
    Rule(("native", *EFFECTS), "trailing-slash", None, lambda it: it.step.walked.slash and it.linux in ("ENOENT", "ENOTDIR")),
    Rule(("read", "write"), "memory-after-end", False, lambda it: it.linux == "end of file" and it.step.has_ended),
    Rule(("read",), "read-of-nothing", False, lambda it: it.pair == ("-", "EFAULT") and it.step.length == 0),
    Rule(("read",), "sysinfo-part", True, lambda it: it.step.is_torn and it.linux != "end of file" and it.linux[:1] != "E"),
    Rule(("write",), "plant-part", True, lambda it: it.pair == (f"wrote {it.step.fitting}", "EFAULT") and 0 < it.step.fitting < SYSINFO_SIZE),
    Rule(("receive",), "receive-without-tasks", False, lambda it: it.pair == ("ENOENT", "waits") and it.step.has_ended),
    Rule(INSTALLED, "request-order", True, is_order),
    Rule(INSTALLED, "descriptor-limit-errors", False, is_limit),
    Rule(("take of a descriptor",), "descriptor-before-signal", True, lambda it: is_tried(it, "signal")),
    Rule(("take of a descriptor",), "answer-behind-a-request", True, lambda it: is_tried(it, "answer")),
    Rule(("take of a descriptor",), "request-of-a-gone-call", False, lambda it: it.pair == ("ESRCH", "ENOENT") and it.step.put.lost_by == "answer"),
    Rule(("send", "request for a descriptor"), "return-behind-an-installation", False,
         lambda it: it.pair == ("ENOENT", "EINPROGRESS") and it.step.is_installed),
    Rule(("deliver",), "fatal-signal-at-once", True, lambda it: it.linux == "dead" != it.here and it.step.fatal and not it.step.is_queued),
    Rule(("deliver",), "init-is-killed-by-its-child", True,
         lambda it: it.here == "dead" and it.place.is_init and it.linux in ("notify", "idle") and not it.step.caught),
    Rule(("deliver",), "second-fatal-signal", True, is_held_for_another),
    Rule(("deliver",), "descriptor-before-signal", True, lambda it: it.here == "dead" and it.step.is_queued and it.linux.startswith("handler")),
    Rule(("effect of the signal",), "descriptor-before-signal", True,
         lambda it: it.step.is_queued and it.here in ("eintr", "restart") and it.linux == "run"),
    Rule(("resume",), "restart-errors", True, lambda it: it.here in RESTARTS and it.linux in ("EINTR", "restarts") and it.step.caught),
    Rule(("spawn",), "process-numbers", True, runs_out),
    Rule(("kill",), "kill-of-a-group", True, lambda it: it.pair == ("ok", "ESRCH") and is_group(it.step.whom)),
    Rule(("kill",), "init-reaps-orphans", True, lambda it: it.pair == ("ok", "ESRCH") and it.place.is_orphan and not is_group(it.step.whom)),
    Rule(("wait", "skip of a wait"), "init-reaps-orphans", True, lambda it: it.place.is_orphan and it.linux.isdigit()),
    Rule(("the other tasks",), "init-ends", True, lambda it: it.place.is_init and it.pair == ("ended", "alive")),
    Rule(("map",), "last-page", True, lambda it: it.pair == ("ENOMEM", f"mapped up to {END_OF_ADDRESSES}")),
)
