"""The words of a test file: its lines, its calls, what is expected of them, and the names of numbers."""
from __future__ import annotations

import re
from dataclasses import dataclass

from tools.commands.messages.policy_words import FLAGS
from tools.commands.messages.script_words import FORMS, NAMES_OF_SIGNALS, SETTINGS
from tools.commands.real_workloads.named_numbers import value_of
from tools.commands.real_workloads.script_text import CALLS

KINDS = {"reg": 0o100000, "chr": 0o020000, "blk": 0o060000, "fifo": 0o010000, "sock": 0o140000}
OTHER_KINDS = {"f": "reg", "file": "reg", "c": "chr", "char": "chr", "u": "chr", "b": "blk", "block": "blk", "p": "fifo", "pipe": "fifo", "s": "sock", "socket": "sock"}
DEVICES = ("chr", "blk")
USUAL_MODE = "0666"
HERE = -100
OPEN_FLAGS = ("RDONLY", "WRONLY", "RDWR", "CREAT", "EXCL", "NOCTTY", "TRUNC", "APPEND", "NONBLOCK", "DIRECTORY", "NOFOLLOW", "CLOEXEC", "PATH")


def numbers_of(prefix, names):
    """The number of each name, with a prefix and without it."""
    numbers = {name: value_of(f"{prefix}{name}") for name in names}
    return {**numbers, **{f"{prefix}{name}": number for name, number in numbers.items()}}


# those that are named where another one is unknown, and words of the command mount(8)
USUAL_FLAGS = {"mount": ("RDONLY", "NOSUID", "NODEV", "NOEXEC", "REMOUNT", "BIND", "MOVE"), "setxattr": FLAGS["setxattr"], "openat": ("RDONLY", "WRONLY", "RDWR", "CREAT", "CLOEXEC")}
OPTIONS_OF_MOUNT = {"ro": "RDONLY", "rw": "0", "defaults": "0", "rbind": "BIND,REC"}
# the flags of each call that has some, by their names
FLAGS_OF = {"mount": numbers_of("MS_", FLAGS["mount"]), "setxattr": numbers_of("XATTR_", FLAGS["setxattr"]), "openat": numbers_of("O_", OPEN_FLAGS)}
SIGNALS = {**NAMES_OF_SIGNALS, **{name[len("SIG"):]: number for name, number in NAMES_OF_SIGNALS.items()}, **{str(number): number for number in NAMES_OF_SIGNALS.values()}}


@dataclass(frozen=True)
class Operand:
    """What stands at a place behind a call's name."""

    name: str
    kind: str
    is_optional: bool = False


@dataclass(frozen=True)
class Form:
    """How a call is written: its operands in their order, and an example."""

    operands: tuple
    example: str

    @property
    def usage(self) -> str:
        return " ".join(f"[{it.name}]" if it.is_optional else it.name for it in self.operands)


PATH = Operand("PATH", "path")
NODE = (PATH, Operand("KIND", "kind"), Operand("MAJOR:MINOR", "device", True), Operand("MODE", "mode", True))
FORMS_OF_CALLS = {
    "mknod": Form(NODE, "mknod /dev/null c 1:3"),
    "mknodat": Form((Operand("DIRFD", "directory"), *NODE), "mknodat AT_FDCWD /dev/null c 1:3"),
    "mount": Form((Operand("SOURCE", "text"), Operand("TARGET", "path"), Operand("TYPE", "text"), Operand("FLAGS", "flags", True), Operand("data=TEXT", "data", True)),
                  "mount /dev/sda1 /mnt ext4 RDONLY,NODEV"),
    "setxattr": Form((PATH, Operand("NAME", "text"), Operand("VALUE", "value"), Operand("FLAGS", "flags", True)), "setxattr /log trusted.overlay.opaque y"),
    "openat": Form((Operand("DIRFD", "directory", True), PATH, Operand("FLAGS", "flags", True), Operand("MODE", "mode", True)), "openat /log RDONLY"),
    "close": Form((Operand("NUMBER", "descriptor"),), "close 3"),
    "getpid": Form((), "getpid"),
    "sysinfo": Form((), "sysinfo"),
}
CALL_NAMES = tuple(CALLS)
# calls that no policy decides, and that are near to one that it does
NOT_NAMED = ("umount", "umount2")
OTHER_CALLS = {"open": "openat", "openat2": "openat", "lsetxattr": "setxattr", "fsetxattr": "setxattr", "mkfifo": "mknod"}

# what is expected of a call, and the verdict that the audit then has
VERDICTS = {"granted": "grant", "passed": "pass", "denied": "deny", "injected": "inject", "spent": "spent", "faulted": "fault", "gone": "gone"}
NAMES_OF_VERDICTS = {verdict: name for name, verdict in VERDICTS.items()}
# what the filters alone decide
ALLOWED, REFUSED, KILLED = "allowed", "refused", "killed"
EXPECTED = (*VERDICTS, ALLOWED, REFUSED, KILLED)
OTHER_EXPECTED = {"grant": "granted", "grants": "granted", "pass": "passed", "passes": "passed", "continue": "passed", "continued": "passed", "deny": "denied",
                  "denies": "denied",
                  "inject": "injected", "allow": "allowed", "ok": "0", "success": "0", "succeeds": "0", "fail": "EPERM", "ended": "killed", "dead": "killed", "error": "EPERM"}

# lines outside of a container, and those that stand in one beside its settings
POLICY, FILTER, CALL, CONTAINER, TASK, TRACED, EXPLORE = "policy", "filter", "call", "container", "task", "traced", "explore"
LINES = (POLICY, FILTER, CALL, CONTAINER)
EXAMPLES_OF_FILES = {POLICY: "../policy.json", FILTER: "profile.json", TRACED: "trace.txt"}
# what stands below `traced` in front of what is expected, beside calls: a line of the trace, all calls, and the name that a process of it has
LINE_OF_TRACE, EVERY, PROCESS_OF_TRACE = "line", "every", re.compile(r"p\d{1,9}(?:-\d{1,9})?", re.ASCII)
AS_TRACED = "as-traced"
CLAIMS = ("never:", "always:", "some:")
NOT_SETTINGS = ("filter", "map", "prog", "schedule")
SETTINGS_OF_CONTAINERS = tuple(word for word, form in FORMS.items() if form.part == SETTINGS and word not in NOT_SETTINGS)
# what stands in a task beside its calls: the operands, and an example
STEPS = {"spawn": (("TASK",), "spawn helper"), "thread": (("TASK",), "thread helper"), "kill": (("TASK", "SIGNAL"), "kill helper 9"),
         "overwrite": (("TASK", "PATH"), "overwrite main /dev/zero"), "handler": (("SIGNAL", "MODE"), "handler USR1 restart"), "wait": ((), "wait"), "exit": ((), "exit")}
OTHER_LINES = {"policies": "policy", "seccomp": "filter", "profile": "filter", "container:": "container", "explores": "explore", "never": "never:",
               "always": "always:", "some": "some:", "sometimes:": "some:", "sometimes": "some:", "fork": "spawn", "clone": "spawn", "waitpid": "wait",
               "mkdir": "dir", "file": "reg", "test": "call", "trace": "traced", "strace": "traced"}
# the numbers that may stand behind `explore`, each with what stands without it, the least and the greatest
BOUNDS = {"workers": ("1", 1, 16), "delays": ("3", 0, 8)}
ALL = "all"
REPLIES = ("sent", "lost", "none")
OUTCOMES = ("ended", "restarted", "open")
AFTERWARDS = ("covered", "replaced")
DONE = "done"
