"""Scripts that are drawn to tell keys apart: few tasks, and of everything that tables hold a little."""
from __future__ import annotations

import json
from random import Random
from typing import List, Tuple

POLICIES = [
    {"config": {"security.syscalls.intercept.mknod": "true", "security.syscalls.intercept.sysinfo": "true", "security.syscalls.intercept.mount": "true",
                "security.syscalls.intercept.mount.allowed": "tmpfs"},
     "rules": [{"name": "mark", "call": "setxattr", "then": "grant"}]},
    {"version": 2, "rules": [{"name": "one", "call": ["mknod", "mknodat", "sysinfo"], "then": "grant", "times": 1}, {"name": "marks", "call": "setxattr", "then": "grant", "times": 1}]},
    {"version": 2, "rules": [{"name": "one", "call": "mknod", "then": "grant", "times": 1}, {"name": "two", "call": "mknodat", "then": "grant"},
                             {"name": "feed", "call": "openat", "when": {"path": "/log"}, "then": {"inject": 5}},
                             {"name": "place", "call": "openat", "when": {"path": "b"}, "then": {"inject": 5, "at": 1}}]},
    {"rules": [{"name": "no-b", "call": "mknod", "when": {"path": "/b"}, "then": {"deny": "EPERM"}}, {"name": "rest", "call": "mknod", "then": "grant"},
               {"name": "feed", "call": "openat", "then": {"inject": 5}}, {"name": "all", "call": ["sysinfo", "setxattr", "mknodat"], "then": "grant"}]},
]
PATHS = ["/a", "/b", "b", "/d/c", "/log", "/d", "../b", "/f", "/l/x"]
CALLS = [
    "mknod 0x10000 0o020666 259", "mknod 0x10000 0o010666 0", "mknod 0x10020 0o020666 259", "mknod 0x10000 0o100644 0", "mknodat 0 0x10000 0o020666 259",
    "mknodat 3 0x10000 0o010666 0", "mknodat 3 0x10000 0o020666 259", "openat -100 0x10000 0", "openat -100 0x10040 0", "openat 3 0x10020 0", "openat -100 0x10060 0", "close 0",
    "close 3", "sysinfo 0x10000", "sysinfo 0x10010", "getpid", "setxattr 0x10060 0x10080 0x100a0 1 0", "setxattr 0x10060 0x10080 0x100a0 1 1",
    "mount 0 0x10060 0x100c0 0 0", "mount 0 0x10000 0x100c0 0 0",
]
NOTIFIED = ["mknod", "mknodat", "openat", "sysinfo", "close", "getpid", "setxattr", "mount"]


def instruction(chance: Random, helpers: List[str], children: int) -> str:
    kind = chance.randrange(12)
    if kind < 6:
        return f"call {chance.choice(CALLS)}"
    if kind < 7:
        address = chance.choice(["0x10000", "0x10000", "0x10020", "0x10060", "0x100a0"])
        return f'poke {address} "{chance.choice(PATHS)}\\0"'
    if kind == 7 and helpers:
        return f"{chance.choice(['spawn', 'thread'])} {chance.choice(helpers)}"
    if kind == 8:
        return f"handler {chance.choice([10, 12])} {chance.choice(['restart', 'plain'])}"
    if kind == 9 and helpers:
        return "wait"
    whom = chance.choice(["parent", "self", "child 1", "child 2", "pid 2", "pid 1"])
    return f"kill {whom} {chance.choice([9, 10, 10, 12, 15])}"


def program(chance: Random, name: str, helpers: List[str], most: int) -> List[str]:
    return [f"prog {name}", *(instruction(chance, helpers, 0) for _ in range(chance.randint(1, most))), "end"]


def drawn_wide(chance: Random) -> Tuple[str, ...]:
    """A policy and a script of two tasks or three."""
    settings = ['dir "/d"', 'reg "/log"', 'reg "/f"', 'link "/l" "d"', "broker 5", f"notify {' '.join(chance.sample(NOTIFIED, chance.randint(1, 4)))}"]
    settings += [line for line in ("killable", "pidmax 2", "rlimit 4", "firstid 18446744073709551615", "mem 1000 900") if chance.randrange(4) == 0]
    leaf = program(chance, "leaf", [], 2)
    helper = program(chance, "helper", ["leaf"] if chance.randrange(3) == 0 else [], 2)
    main = program(chance, "main", ["helper", "leaf"], 3)
    start = [f"{chance.choice(['spawn', 'thread'])} {chance.choice(['helper', 'leaf'])}"]
    first = [f'poke 0x10000 "{chance.choice(PATHS)}\\0"', f'poke 0x10020 "{chance.choice(PATHS)}\\0"', 'poke 0x10040 "/log\\0"', f'poke 0x10060 "{chance.choice(["/f", "/d"])}\\0"',
             'poke 0x10080 "user.m\\0"', 'poke 0x100a0 "a\\0"', 'poke 0x100c0 "tmpfs\\0"']
    main[1:1] = [*(chance.sample(first, chance.randint(3, 7))), *start]
    return json.dumps(chance.choice(POLICIES)), "\n".join([*settings, "", *leaf, "", *helper, "", *main, ""])


# ---- smaller scripts that show the same


def smaller(script, shows):
    """A script of fewer lines that still shows something; a line is left out as long as that can be done."""
    lines, go_on = script.split("\n"), True
    while go_on:
        go_on = False
        for at in reversed(range(len(lines))):
            fewer = lines[:at] + lines[at + 1:]
            if lines[at].strip() and shows("\n".join(fewer)):
                lines, go_on = fewer, True
        for begin in [at for at, line in enumerate(lines) if line.startswith("prog ")]:
            if begin < len(lines) and lines[begin].startswith("prog "):
                end = lines.index("end", begin)
                fewer = lines[:begin] + lines[end + 1:]
                if shows("\n".join(fewer)):
                    lines, go_on = fewer, True
                    break
    return "\n".join(line for line in lines if line.strip()) + "\n"
