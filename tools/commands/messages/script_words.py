"""The lines of a script, as docs/reference/SCRIPT.md has them: for each word its part, its operands and an example."""
from __future__ import annotations

import re
from dataclasses import dataclass

from tools.commands.real_workloads.script_text import CALLS, SIGNALS

SETTINGS, FILTER, PROGRAM, SCHEDULE = "settings", "filter", "program", "schedule"
NAMES_OF_SIGNALS = {"SIGKILL": 9, "SIGUSR1": 10, "SIGUSR2": 12, "SIGTERM": 15}
HANDLED = SIGNALS - {9}
DISPOSITIONS = ("restart", "plain", "default")
WHOM = ("self", "parent", "child", "pid")
GREATEST_PID, WIDE, MOST_TREE_LINES, MOST_PROGRAMS, MOST_BROKER = 4_194_304, 2**64 - 1, 10_000, 4096, 64
MOST_NUMBERED_CALL = 2**31 - 1


@dataclass(frozen=True)
class Operand:
    """What stands at a place behind a word. A number has its least and its greatest value, a text its least and its greatest length."""

    name: str
    kind: str = "number"
    least: int = 0
    most: int = WIDE
    zeros: bool = True

    @property
    def is_quoted(self) -> bool:
        return self.kind in ("path", "root", "text")

    @property
    def called(self) -> str:
        """What it is called in a sentence."""
        return "the path" if self.kind in ("path", "root") else self.name


@dataclass(frozen=True)
class Form:
    """A line: its part, its operands, of which so many have to be there, and an example. The last operand may stand up to `repeats` times."""

    word: str
    part: str
    operands: tuple
    example: str
    least: int = -1
    repeats: int = 1

    @property
    def fewest(self) -> int:
        return len(self.operands) if self.least < 0 else self.least

    @property
    def most(self) -> int:
        return len(self.operands) - 1 + self.repeats if self.operands else 0

    def operand(self, place: int) -> Operand:
        return self.operands[min(place, len(self.operands) - 1)]

    @property
    def usage(self) -> str:
        """The line with its operands' names."""
        names = [it.name if at < self.fewest else f"[{it.name}]" for at, it in enumerate(self.operands)]
        return " ".join([self.word, *names]) + (" .." if self.repeats > 1 else "")


PATH, COUNT = Operand("P", "path"), Operand("COUNT", least=1, most=200_000)
K = Operand("K", most=2**32 - 1)
JUMP = (K, Operand("JT", most=255), Operand("JF", most=255))
ADDRESS = Operand("ADDRESS")
NAME_OF_PROGRAM = Operand("NAME", "program", 1, 64)


def device(word: str) -> Form:
    return Form(word, SETTINGS, (PATH, Operand("MAJOR", most=4095), Operand("MINOR", most=1_048_575)), f'{word} "/dev/{"null" if word == "chr" else "sda"}" {"1 3" if word == "chr" else "8 0"}')


def instruction(word: str, *operands: Operand) -> Form:
    return Form(word, FILTER, operands, " ".join([word, *("0" for _ in operands)]))


ALL_FORMS = [
    *(Form(word, SETTINGS, (PATH,), f'{word} "/{place}"') for word, place in (("dir", "dev"), ("reg", "log"), ("fifo", "pipe"), ("sock", "socket"))),
    device("chr"), device("blk"),
    Form("link", SETTINGS, (PATH, Operand("TARGET", "text", 1, 4095, False)), 'link "/tmp" "var/tmp"'),
    Form("attr", SETTINGS, (PATH, Operand("NAME", "text", 1, 255, False), Operand("VALUE", "text", 0, 4096)), 'attr "/log" "user.origin" "build"'),
    Form("root", SETTINGS, (Operand("P", "root"),), 'root "/c"'),
    Form("pidmax", SETTINGS, (Operand("N", least=1, most=GREATEST_PID),), "pidmax 64"),
    Form("pidbase", SETTINGS, (Operand("N", most=GREATEST_PID - 1),), "pidbase 100"),
    Form("firstid", SETTINGS, (Operand("N"),), "firstid 7"),
    Form("rlimit", SETTINGS, (Operand("N", most=4096),), "rlimit 32"),
    Form("broker", SETTINGS, (Operand("N", most=1023),), "broker 5"),
    Form("map", SETTINGS, (Operand("A", "page"), Operand("N", least=1, most=64)), "map 0x10000 4"),
    Form("cgroup", SETTINGS, (Operand("MEMORY"), Operand("SWAP")), "cgroup 536870912 0"),
    Form("figures", SETTINGS, (*(Operand(name) for name in ("UPTIME", "USED", "SHARED", "BUFFERS", "SWAPUSED")), Operand("PROCS", most=65_535)), "figures 3600 0 0 0 0 2"),
    Form("notify", SETTINGS, (Operand("CALL", "call name"),), "notify mknod mount", repeats=64),
    Form("filter", SETTINGS, (Operand("listener", "listener"),), "filter listener", 0),
    Form("killable", SETTINGS, (), "killable"),
    Form("prog", SETTINGS, (NAME_OF_PROGRAM,), "prog init"),
    Form("schedule", SETTINGS, (), "schedule"),
    Form("poke", PROGRAM, (ADDRESS, Operand("BYTES", "text", 1, 65_536)), 'poke 0x10000 "/dev/null\\0"'),
    Form("fill", PROGRAM, (ADDRESS, Operand("LENGTH", least=1, most=65_536), Operand("BYTE", most=255)), "fill 0x10000 16 255"),
    Form("call", PROGRAM, (Operand("CALL", "call", most=MOST_NUMBERED_CALL), Operand("ARGUMENT", least=-2**63)), "call mknod 0x10000 0o020666 259", 1, 6),
    Form("spawn", PROGRAM, (NAME_OF_PROGRAM,), "spawn helper"),
    Form("thread", PROGRAM, (NAME_OF_PROGRAM,), "thread helper"),
    Form("kill", PROGRAM, (Operand("WHOM", "whom"), Operand("SIGNAL", "signal")), "kill self 15"),
    Form("handler", PROGRAM, (Operand("SIGNAL", "handled"), Operand("MODE", "disposition")), "handler 10 restart"),
    Form("wait", PROGRAM, (), "wait"),
    Form("exit", PROGRAM, (), "exit"),
    Form("t", SCHEDULE, (Operand("NAME", "task"), COUNT), "t 0.1 2", 1),
    Form("w", SCHEDULE, (Operand("N", most=15), COUNT), "w 0 9", 1),
    Form("end", "", (), "end"),
    *(instruction(word, K) for word in ("ld", "ldi", "add", "sub", "or", "and", "xor", "lsh", "rsh", "ja", "ret")),
    instruction("neg"), *(instruction(word, *JUMP) for word in ("jeq", "jgt", "jge", "jset")),
]
FORMS = {form.word: form for form in ALL_FORMS}
# what a line of the settings or of a program does, for the documents
MEANINGS = {
    "dir": "A directory of the host's tree. Its parent is `/` or a directory from a line above.",
    "reg": "A file of the host's tree.",
    "fifo": "A named pipe.",
    "sock": "A socket.",
    "chr": "A character device.",
    "blk": "A block device.",
    "link": "A symbolic link.",
    "attr": "An extended attribute of a node from a line above. A second line for the same one replaces the first.",
    "root": "The container's root, `/` or a directory from a line above; `/` without the line.",
    "pidmax": "How many PIDs there are; 32,768 without the line.",
    "pidbase": "PIDs go from N + 1 to N + `pidmax`, at most to 4,194,304; 0 without the line. `pidmax` comes before it.",
    "firstid": "The id of the first notification; 1 without the line.",
    "rlimit": "How many descriptors a task may have open; 1,024 without the line.",
    "broker": "The broker has descriptor N open, and can put it into callers. At most 64 lines.",
    "map": "N pages from A on are mapped in every task, up to 2^47, 64 pages in all. Ranges don't overlap. Without a line, 16 pages from 0x10000.",
    "cgroup": "The limits of an ancestor, the host first. The smallest are the container's.",
    "figures": "The other numbers that sysinfo returns; all 0 without the line.",
    "notify": "A filter with the listener: it notifies these 1 to 64 calls, and allows all others.",
    "filter": "A filter, up to `end`. The first is the oldest. At most 16, and one has the listener.",
    "killable": "Once a call was received, only fatal signals end its wait (SECCOMP_FILTER_FLAG_WAIT_KILLABLE_RECV). It follows the listener's line.",
    "prog": "A program, up to `end`. Task 0 runs the last one.",
    "schedule": "The schedule, up to `end`.",
    "poke": "Stores the bytes.",
    "fill": "Stores LENGTH bytes of this value.",
    "call": "Makes a call, by its name or its number. Up to six arguments are taken modulo 2^64; missing ones are 0.",
    "spawn": "Starts a process with a copy of memory, descriptors and handlers (clone(2) without flags).",
    "thread": "Starts a task that shares memory and descriptors, with a PID of its own (CLONE_VM and CLONE_FILES).",
    "kill": "Sends signal 9, 10, 12 or 15 to itself, to its parent's PID, to that of its K-th child, or to PID N.",
    "handler": "Sets the effect of signal 10, 12 or 15: `restart` (SA_RESTART), `plain`, or `default`, which ends the task.",
    "wait": "Reaps the first child that has ended.",
    "exit": "Ends the task. Only `end` may follow.",
}
# `kill` has other operands behind two of its words
KILL_WITH_NUMBER = {
    whom: Form("kill", PROGRAM, (Operand(whom, "whom"), Operand("K" if whom == "child" else "N", least=least, most=most), Operand("SIGNAL", "signal")), f"kill {whom} 1 9")
    for whom, least, most in (("child", 1, 100_000), ("pid", 0, 2**32 - 1))
}
KILL_FORMS = ("kill self SIGNAL", "kill parent SIGNAL", "kill child K SIGNAL", "kill pid N SIGNAL")
NODES = ("dir", "reg", "fifo", "sock", "chr", "blk", "link")
TREE = (*NODES, "attr")
BLOCKS = {"prog": PROGRAM, "filter": FILTER, "schedule": SCHEDULE}
# words that others have for a line
OTHER_WORDS = {
    "mkdir": "dir", "directory": "dir", "file": "reg", "symlink": "link", "ln": "link", "char": "chr", "block": "blk", "xattr": "attr", "chroot": "root", "write": "poke", "store": "poke",
    "memset": "fill", "fork": "spawn", "clone": "spawn", "signal": "handler", "sigaction": "handler", "waitpid": "wait", "task": "t", "worker": "w", "program": "prog", "proc": "prog",
    "syscall": "call", "intercept": "notify", "memory": "map", "mmap": "map", "done": "end", "}": "end",
}
# numbers that a C program would name
CONSTANTS = {"AT_FDCWD": -100, "O_RDONLY": 0, "O_WRONLY": 1, "O_RDWR": 2, "O_CREAT": 0o100, "O_CLOEXEC": 0o2000000, "S_IFCHR": 0o020000, "S_IFBLK": 0o060000, "S_IFREG": 0o100000,
             "S_IFIFO": 0o010000, "S_IFSOCK": 0o140000, "MS_RDONLY": 1, "MS_NOSUID": 2, "MS_NODEV": 4, "MS_NOEXEC": 8, "MS_REMOUNT": 32, "MS_BIND": 4096, "MS_MOVE": 8192,
             "XATTR_CREATE": 1, "XATTR_REPLACE": 2, "NULL": 0, **NAMES_OF_SIGNALS}
CALL_NAMES = tuple(CALLS)
# calls without a name here that a call with one can stand for
OTHER_CALLS = {"open": "openat", "openat2": "openat", "creat": "openat", "lsetxattr": "setxattr", "fsetxattr": "setxattr"}
FIRST_WORD = re.compile(r"[ \t]*(prog [!-~]+|notify [a-z ]+|schedule)[ \t\r]*$", re.M)


def begins_as_script(text: str) -> bool:
    """Whether a text that should be a policy has lines of a script."""
    return not text.lstrip().startswith(("{", "[")) and FIRST_WORD.search(text) is not None
