"""Drawn scripts about filters, and about the order in which tasks, signals and workers step."""
from __future__ import annotations

from itertools import product
from typing import Dict, List, Tuple
import random

from tools.commands.linux_stage.drawn_files import OPEN_PATH
from tools.commands.linux_stage.drawn_scripts import Draft, poke, rule

PREFIX = "security.syscalls.intercept."

# ---- several tasks


def race_call(chance: random.Random) -> str:
    return chance.choice([
        "call mknod 0x10000 0o020666 259", "call mknod 0x10000 0o010666 0", "call getpid", "call getpid", f"call close {chance.choice([0, 2, 3, 4, 9])}",
        f"call openat -100 0x10000 {chance.choice([OPEN_PATH, '0o12000000'])}", "call sysinfo 0x11000", "call mknodat -100 0x10000 0o100666 0",
        "call 500 1 2", "call mknod 0x10000 0o020666 257",
    ])


def race_body(chance: random.Random, names: List[str]) -> List[str]:
    """Instructions of a program that starts others."""
    lines, children = [], 0
    for _ in range(chance.randrange(1, 7)):
        kind = chance.random()
        if kind < 0.4:
            lines.append(race_call(chance))
        elif kind < 0.5:
            lines.append(poke(0x10000, chance.choice([b"/a\0", b"/b\0", b"/c\0", b"/\0"])))
        elif kind < 0.65 and names:
            lines.append(f"{chance.choice(['spawn', 'spawn', 'thread'])} {chance.choice(names)}")
            children += 1
        elif kind < 0.8:
            child = [f"child {chance.randrange(1, children + 1)}"] * 3 if children else []
            target = chance.choice([*child, "self", "parent", f"pid {chance.choice([300, 301, 302, 303, 4000])}"])
            lines.append(f"kill {target} {chance.choice([9, 10, 10, 12, 15])}")
        elif kind < 0.93:
            lines.append(f"handler {chance.choice([10, 10, 12, 15])} {chance.choice(['restart', 'plain', 'restart', 'plain', 'default'])}")
        else:
            lines.append("wait")
    return lines


def race_main(chance: random.Random, programs: int) -> List[str]:
    lines = ['poke 0x10000 "/m\\0"'] if chance.random() < 0.5 else []
    lines += [f"{chance.choice(['spawn', 'spawn', 'thread'])} p{chance.randrange(programs)}" for _ in range(chance.randrange(1, 3))]
    for _ in range(chance.randrange(2, 8)):
        lines.append(chance.choice([
            f"kill child {chance.randrange(1, 3)} {chance.choice([9, 10, 10, 12, 15])}", "wait", race_call(chance), f"spawn p{chance.randrange(programs)}",
            f"kill self {chance.choice([10, 15])}", f"handler {chance.choice([10, 12])} {chance.choice(['plain', 'restart'])}",
        ]))
    return lines


def race_schedule(chance: random.Random) -> List[str]:
    names = ["0", "0", "0.1", "0.1", "0.1", "0.2", "0.1.1", "0.3", "0.2.1"]
    lines, tasks = [f"t 0 {chance.randrange(1, 4)}"], chance.choice([0.35, 0.55, 0.7])
    for _ in range(chance.randrange(40, 160)):
        if chance.random() < tasks:
            lines.append(f"t {chance.choice(names)}{chance.choice(['', '', ' 2', ' 3'])}")
        else:
            lines.append(f"w {chance.choice([0, 0, 0, 1, 2])}{chance.choice(['', '', ' 2', ' 4', ' 7', ' 9'])}")
    return lines


def race_rules(chance: random.Random) -> List[dict]:
    rules = []
    for at in range(chance.randrange(3)):
        call = chance.choice(["mknod", "mknodat", "getpid", "close", "openat", "setxattr", "sysinfo", "mount"])
        effects = ["grant"] * 3 if call in ("mknod", "mknodat", "setxattr", "sysinfo", "mount") else []
        then = chance.choice(["pass", {"deny": chance.choice(["EPERM", "EACCES", "EINTR", "ENOSYS", "EDQUOT"])}, *effects])
        if call == "openat" and chance.random() < 0.7:
            then = {"inject": chance.choice([5, 5, 5, 7, 9])}
            if chance.random() < 0.5:
                then["at"] = chance.choice([0, 2, 3, 4, 5, 9, 30, 4095, 5000, 1048575, 1048576, 4000000000])
        rules.append(rule(f"r{at}", call, then))
    return rules


def races(chance: random.Random, _: int) -> Draft:
    """Tasks, PIDs, kill, wait, native calls, and any order of steps."""
    settings = [f"pidmax {chance.choice([1, 2, 2, 3, 4])}"] if chance.random() < 0.4 else []
    settings += [f"firstid {chance.choice([1, 0, 5, 2**64 - 2])}"] if chance.random() < 0.2 else []
    settings += [f"rlimit {chance.choice([1024, 3, 4, 5, 6, 1024])}"] if chance.random() < 0.5 else []
    notified = chance.sample(["mknod", "getpid", "close", "openat", "sysinfo", "mknodat"], chance.randrange(1, 5))
    settings += ["broker 5", "broker 7", "notify " + " ".join(notified)] + (["killable"] if chance.random() < 0.35 else [])
    count = chance.randrange(1, 4)
    programs: List[Tuple[str, List[str]]] = []
    for at in range(count):
        handler = [f"handler 10 {chance.choice(['plain', 'restart'])}"] if chance.random() < 0.5 else []
        body = race_body(chance, [name for name, _ in programs])
        programs.append((f"p{at}", [*handler, f'poke 0x10000 "/k{at}\\0"', *body, race_call(chance)]))
    programs.append(("main", race_main(chance, count)))
    config = {PREFIX + "mknod": "true", PREFIX + "sysinfo": chance.choice(["true", "false"])}
    return Draft(settings, programs, race_schedule(chance), race_rules(chance), config)


# ---- signals to callers that wait

def signal_call(chance: random.Random) -> str:
    return chance.choice(["call getpid", "call getpid", f"call openat -100 0x10000 {OPEN_PATH}", "call mknod 0x10000 0o020666 259",
                          "call mknod 0x10000 0o010666 0", "call sysinfo 0x11000", "call close 3"])


def signal_child(chance: random.Random, at: int) -> List[str]:
    handlers = [f"handler {signal} {chance.choice(['plain', 'restart', 'restart'])}" for signal in (10, 12, 15) if chance.random() < 0.65]
    calls = []
    for _ in range(chance.randrange(2, 6)):
        sent = f"kill {chance.choice(['self', 'parent'])} {chance.choice([10, 12, 15])}"
        calls.append(signal_call(chance) if chance.random() < 0.85 else sent)
    return [*handlers, f'poke 0x10000 "/k{at}\\0"', *calls]


def signals(chance: random.Random, _: int) -> Draft:
    """Signals at any time to callers that wait: handlers, SA_RESTART, killable waits, threads."""
    settings = ["pidmax 3"] if chance.random() < 0.2 else []
    settings += ["broker 5", f"rlimit {chance.choice([4, 6, 1024])}", "notify " + chance.choice(["getpid", "getpid openat", "mknod getpid", "openat mknod sysinfo"])]
    settings += ["killable"] if chance.random() < 0.45 else []
    main = [f"handler {signal} {chance.choice(['plain', 'restart'])}" for signal in (10, 12, 15) if chance.random() < 0.9]
    main += ['poke 0x10000 "/m\\0"', f"{chance.choice(['spawn', 'thread'])} k0", f"{chance.choice(['spawn', 'thread'])} k1"]
    for _ in range(chance.randrange(4, 14)):
        sent = f"kill child {chance.randrange(1, 3)} {chance.choice([9, 10, 10, 10, 12, 12, 15, 15])}"
        main.append(chance.choice([*[sent] * 5, "wait", signal_call(chance)]))
    schedule = [f"t 0 {chance.randrange(4, 7)}", "t 0.1 4", "t 0.2 4"]
    schedule += [chance.choice(["t 0", "t 0.1", "t 0.2", "t 0.1", "t 0.2", "w 0", "w 0", "w 0 2", "w 1", "w 1 3", "w 2 4"]) for _ in range(140)]
    rules = [rule("i", "openat", {"inject": 5}), rule("g", "getpid", chance.choice(["pass", {"deny": "EACCES"}])),
             rule("m", "mknod", "grant", when={"kind": "chr"}), rule("s", "sysinfo", "grant")]
    return Draft(settings, [("k0", signal_child(chance, 0)), ("k1", signal_child(chance, 1)), ("main", main)], schedule, rules)


# ---- a caller that is interrupted before each deed of its worker

CALLS = {
    "mknod": "mknod 0x10000 0o020666 259", "mknodat": "mknodat 3 0x10000 0o100666 0", "getpid": "getpid", "openat": "openat -100 0x10000 0",
    "openat at a number": "openat -100 0x10000 0", "sysinfo": "sysinfo 0x11000", "setxattr": "setxattr 0x10000 0x10100 0x10200 1 0",
    "mount": "mount 0 0x10000 0x10300 0 0", "passed": "mknod 0x10000 0o010666 0", "denied": "mknod 0x10000 0o010666 0",
}
PATHS = {"setxattr": "/f", "mount": "/d", "mknodat": "x", "openat": "/data", "openat at a number": "/data"}
THEN = {"passed": "pass", "denied": {"deny": "EACCES"}, "openat": {"inject": 5}, "openat at a number": {"inject": 5, "at": 7}, "getpid": "pass"}
SENT: Dict[str, List[int]] = {"kill": [9], "plain": [10], "restart": [10], "terminate": [15], "plain and terminate": [10, 15], "none": []}
CUTS = list(product(SENT, (False, True), CALLS))
DEEDS = 20


def cuts(chance: random.Random, number: int) -> Draft:
    """Something happens to the caller before each deed of the worker, for each kind of call. The number says which."""
    sent, killable, name = CUTS[number // DEEDS % len(CUTS)]
    call, deeds = CALLS[name], number % DEEDS
    word = call.split()[0]
    settings = (["pidmax 2"] if sent == "kill" else []) + ['dir "/d"', 'reg "/f"', "broker 5", "cgroup 400000 0", f"notify {word}"]
    texts = [f'poke 0x10000 "{PATHS.get(name, "/null")}\\0"', 'poke 0x10100 "user.x\\0"', 'poke 0x10200 "v"', 'poke 0x10300 "tmpfs\\0"', 'poke 0x10400 "/d\\0"']
    base = ["call openat -100 0x10400 0"] if name == "mknodat" else []
    child = [f"handler 10 {'restart' if sent == 'restart' else 'plain'}", *texts, *base, f"call {call}", "call close 7", "call close 3"]
    kills = [f"kill child 1 {signal}" for signal in SENT[sent]]
    main = ["spawn child", *kills, "wait", *(["spawn child"] if sent == "kill" else []), "wait"]
    schedule = ["t 0", f"t 0.1 {7 + 2 * len(base)}", *([f"w 0 {deeds}"] if deeds else []), *["t 0"] * len(kills)]
    schedule += chance.choice([["t 0.1"], ["t 0.1 2"], [], ["t 0.1", "t 0 2", "t 0.2 7"]])
    schedule += [f"w 0 {chance.choice([1, 3, 20])}", "t 0.1 3", "w 0 20", "t 0.1 3", "w 0 9", "t 0.1 9", "t 0 3", "t 0.2 9", "w 0 9"]
    return Draft(settings + ["killable"] * killable, [("child", child), ("main", main)], schedule, [rule("x", word, THEN.get(name, "grant"))])


# ---- memory that a thread writes over

def rewrites(chance: random.Random, _: int) -> Draft:
    """A thread writes over the arguments while they are read."""
    address = 0x10000 + chance.choice([0, 200, 250, 4000, 4096 - 3])
    texts = [b"/a/x\0", b"/b/y\0", b"/a/" + b"/" * chance.choice([250, 300, 600]) + b"z\0", b"/b/q", b"\0", b"/" * 700, b"x" * 260 + b"\0"]

    def write() -> str:
        return poke(address + chance.choice([0, 0, 3, 256, 255, 300]), chance.choice(texts))

    def call() -> str:
        attribute = f"call setxattr 0x{address:x} 0x12000 0x{address:x} {chance.choice([1, 300, 600])} 0"
        return chance.choice([f"call mknod 0x{address:x} 0o020666 259", f"call mknod 0x{address:x} 0o010666 0", f"call openat -100 0x{address:x} {OPEN_PATH}", attribute])

    thread = [write() for _ in range(chance.randrange(2, 7))]
    main = ['poke 0x12000 "user.t\\0"', write(), "thread writer", *[line for _ in range(3) for line in (call(), write())]]
    schedule = ["t 0 4"]
    for _ in range(30):
        schedule += [f"w 0 {chance.choice([1, 1, 2, 4, 5, 6])}", chance.choice(["t 0.1", "t 0.1", "t 0"])]
    rules = [rule("x", ["mknod", "setxattr"], chance.choice(["grant", "pass"]))]
    return Draft(['dir "/a"', 'dir "/b"', "map 0x10000 3", "notify mknod setxattr openat"], [("writer", thread), ("main", main)], schedule, rules)


# ---- filters

ANSWERS = [0x7FFF0000, 0x7FFF0000, 0x7FFF0001, 0x50000, 0x50001, 0x5FFFF, 0x51000, 0x50FFF, 0x7FC00000, 0x7FF00000, 0x7FF00005, 0x7FFC0000]
RARE_ANSWERS = [0, 0x80000000, 0x10000, 0x7FFD0000, 0x60000, 0x90000000, 0xFFFF0000, 0x40000]


def filter_answer(chance: random.Random) -> str:
    rare = RARE_ANSWERS if chance.random() < 0.3 else []
    return f"ret 0x{chance.choice([*ANSWERS, 0x50001 + chance.randrange(5000), *rare]):x}"


def constant(chance: random.Random) -> int:
    return chance.choice([0, 1, 2, 3, 39, 500, 0xFF, 0xFFFF, 0x10000, 0x7FFFFFFF, 0x80000000, 0xFFFFFFFF, 0xC000003E, chance.getrandbits(32)])


def filter_line(chance: random.Random, left: int) -> str:
    """An instruction with so many behind it."""
    kind = chance.random()
    if kind < 0.3:
        return f"ld {chance.choice([0, 0, 4, 16, 20, 24, 28, 32, 56, 60])}"
    if kind < 0.35:
        return f"ldi 0x{constant(chance):x}"
    if kind < 0.65:
        return f"{chance.choice(['add', 'sub', 'or', 'and', 'xor'])} 0x{constant(chance):x}"
    if kind < 0.72:
        return f"{chance.choice(['lsh', 'rsh'])} {chance.choice([0, 1, 4, 16, 31])}"
    if kind < 0.75:
        return "neg"
    if kind < 0.8:
        return f"ja {chance.randrange(left + 1)}"
    return f"{chance.choice(['jeq', 'jgt', 'jge', 'jset'])} 0x{constant(chance):x} {chance.randrange(left + 1)} {chance.randrange(left + 1)}"


def filter_block(chance: random.Random, listens: bool) -> List[str]:
    length, lines = chance.randrange(1, 14), []
    for at in range(length):
        lines.append(filter_line(chance, length - at - 1))
        lines += [filter_answer(chance)] if chance.random() < 0.12 else []
    return ["filter listener" if listens else "filter", *lines, filter_answer(chance), "end"]


def filters(chance: random.Random, _: int) -> Draft:
    """One to four filters, and what they say of calls."""
    count = chance.randrange(1, 5)
    listens = chance.randrange(count + 1)
    settings = [line for at in range(count) for line in filter_block(chance, at == listens)]
    calls = []
    for _ in range(chance.randrange(2, 8)):
        name = chance.choice(["500", "501", "2000", "1073741900", "2147483647", "getpid", "getpid", "close"])
        values = [chance.choice([99, 1 << 32, chance.getrandbits(64), constant(chance), 999]) for _ in range(chance.randrange(1, 7))]
        calls.append(f"call {name} " + " ".join(f"0x{value:x}" for value in values))
    schedule = []
    for child in (1, 2, 3):
        schedule += ["t 0", *[f"t 0.{child} 2", "w 0 8", f"t 0.{child} 2"] * len(calls), f"t 0.{child} 3", "t 0"]
    rules = [rule("d", "getpid", {"deny": "EACCES"})] if chance.random() < 0.5 else []
    return Draft(settings, [("child", calls), ("main", ["spawn child", "wait"] * 3)], schedule, rules)
