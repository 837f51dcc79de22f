"""Policies and scripts that are made by counting, each with the summary that its play must print.

Nothing here runs the program. A script is written so simply that its summary follows from docs/reference and docs/KERNEL.md: each
scheduled step is one event, and whoever writes the steps of a call says beside them what comes of it.
"""
from __future__ import annotations

import json
from typing import Any, Dict, Iterator, List, Tuple

COUNTS = ("events", "calls", "notified", "answered", "granted", "denied", "passed", "injected", "faults", "gone", "lost")
MKNOD = {"config": {"security.syscalls.intercept.mknod": "true"}}
MOUNT = {"config": {"security.syscalls.intercept.mount": "true", "security.syscalls.intercept.mount.allowed": "ext4"}}
LIMITS = {"instructions": 100_000, "calls": 20_000, "starts": 4_000, "stored": 67_108_864, "depth": 64}
MOST_STEPS, MOST_TREE_LINES, MOST_RULES, MOST_POLICY_BYTES = 200_000, 10_000, 1_024, 1_048_576
WORKERS = 16
# what worker N does for a granted mknod whose path it reads in one piece: it receives, opens the memory and the base, checks, reads,
# checks, acts, answers and lets go
GRANTED = 9


class Input:
    """A policy and a script while they are written, and what the summary of the play counts."""

    def __init__(self, policy: Dict[str, Any], *settings: str) -> None:
        self.policy, self.settings = policy, list(settings)
        self.programs: Dict[str, Tuple[str, ...]] = {}
        self.schedule: List[str] = []
        self.counts = dict.fromkeys(COUNTS, 0)
        # the start and the close
        self.counts["events"] = 2

    def program(self, name: str, *lines: str) -> None:
        self.programs[name] = lines

    def task(self, name: str, steps: int = 1) -> None:
        self.step(f"t {name}", steps)

    def worker(self, number: int, steps: int = 1) -> None:
        self.step(f"w {number}", steps)

    def step(self, actor: str, steps: int) -> None:
        """Lets an actor take steps. Each is one event, also where it is a skip."""
        self.schedule.append(actor if steps == 1 else f"{actor} {steps}")
        self.counts["events"] += steps

    def expect(self, **counts: int) -> None:
        """So many more of each the summary counts."""
        for name, count in counts.items():
            self.counts[name] += count

    def steps(self) -> int:
        return self.counts["events"] - 2

    def summary(self) -> str:
        return "summary " + " ".join(f"{name}={count}" for name, count in self.counts.items())

    def script(self) -> Iterator[str]:
        """The lines of the script."""
        yield from self.settings
        for name, lines in self.programs.items():
            yield f"prog {name}"
            yield from lines
            yield "end"
        if self.schedule:
            yield "schedule"
            yield from self.schedule
            yield "end"

    def written_policy(self) -> str:
        return json.dumps(self.policy, separators=(",", ":"))

    def write(self, folder: str) -> None:
        """Writes policy.json and script.txt into the folder."""
        with open(f"{folder}/policy.json", "w") as file:
            file.write(self.written_policy())
        with open(f"{folder}/script.txt", "w") as file:
            file.writelines(f"{line}\n" for line in self.script())

    def totals(self) -> Dict[str, int]:
        """What the last program comes to with all that it starts, by the names of LIMITS."""
        come_to: Dict[str, Dict[str, int]] = {}
        for program, lines in self.programs.items():
            words = [line.split() for line in lines]
            started = [come_to[name] for word, name, *_ in (it + [""] for it in words) if word in ("spawn", "thread")]
            own = {
                "instructions": len(lines) + (lines[-1:] != ("exit",)),
                "calls": sum(it[0] == "call" for it in words),
                "starts": len(started),
                "stored": sum(stored(line) for line in lines),
            }
            come_to[program] = {name: count + sum(it[name] for it in started) for name, count in own.items()}
            come_to[program]["depth"] = max((it["depth"] + 1 for it in started), default=0)
        return come_to[program]


def stored(line: str) -> int:
    """How many bytes a line of a program stores. Quoted bytes are written here without escapes but for \\0."""
    word, *operands = line.split(maxsplit=2)
    if word == "fill":
        return int(operands[1].split()[0])
    return len(operands[1].strip('"').replace("\\0", "0")) if word == "poke" else 0


def nothing() -> Input:
    """A script that does nothing: a task starts and the listener is closed."""
    made = Input({})
    made.program("main")
    return made


def devices(calls: int) -> Input:
    """One task makes so many device nodes, each with a path of its own, and worker 0 answers."""
    made = Input(MKNOD, 'dir "/dev"', "notify mknod")
    made.program("main", *(line for i in range(calls) for line in (f'poke 0x10000 "/dev/n{i}\\0"', "call mknod 0x10000 0o020666 259")))
    for _ in range(calls):
        made.task("0", 2)
        made.worker(0, GRANTED)
        made.task("0")
    made.task("0")
    made.expect(calls=calls, notified=calls, answered=calls, granted=calls)
    return made


def lives(tasks: int) -> Input:
    """So many tasks, one after another: each is made, makes a call that no filter notifies, ends, and is waited for."""
    made = Input({})
    made.program("child", "call getpid")
    made.program("main", *["spawn child", "wait"] * tasks)
    for task in range(tasks):
        made.task("0")
        made.task(f"0.{task + 1}", 3)
        made.task("0")
    made.task("0")
    made.expect(calls=tasks)
    return made


def callers(calls: int) -> Input:
    """Two tasks that make so many calls each, all for one of two nodes. There is no schedule: it is explored."""
    made = Input(MKNOD, "notify mknod")
    made.program("second", *["call mknod 0x10010 0o020666 259"] * calls)
    made.program("main", 'poke 0x10000 "/a\\0"', 'poke 0x10010 "/b\\0"', "spawn second", *["call mknod 0x10000 0o020666 259"] * calls)
    return made


# ---- five kinds of calls

FIVE_KINDS = {
    "config": {"security.syscalls.intercept.mknod": "true", "security.syscalls.intercept.sysinfo": "true"},
    "rules": [
        {"name": "mark", "call": "setxattr", "when": {"name": "user.mark"}, "then": "grant"},
        {"name": "no-mounts", "call": "mount", "when": {"path": "/m"}, "then": {"deny": "EPERM"}},
        {"name": "files", "call": "openat", "when": {"path": "/m"}, "then": "pass"},
    ],
}


def kinds(tasks: int, calls: int) -> Input:
    """So many tasks at once, each of which makes so many calls of five kinds by turns. There is no schedule: threads choose the order."""
    made = Input(FIVE_KINDS, 'dir "/m"', "notify mknod mount setxattr sysinfo openat")
    for task in range(tasks):
        lines = ['poke 0x10100 "/m\\0"', 'poke 0x10200 "ext4\\0"', 'poke 0x10300 "user.mark\\0"', 'poke 0x10400 "1"']
        for call in range(calls):
            lines += [
                [f'poke 0x10000 "/{task}.{call}\\0"', "call mknod 0x10000 0o020666 259"],
                ["call mount 0 0x10100 0x10200 0 0"],
                ["call setxattr 0x10100 0x10300 0x10400 1 0"],
                ["call sysinfo 0x11000"],
                ["call openat -100 0x10100 0"],
            ][call % 5]
        made.program(f"p{task}", *lines)
    made.program("main", *[f"spawn p{task}" for task in range(tasks)], *["wait"] * tasks)
    return made


# ---- the greatest inputs: each takes a number that divides its size, 1 for the greatest


def crowd(tasks: int, calls: int) -> Input:
    """So many tasks at once, each of which makes so many nodes with paths of their own. In the schedule they step by turns, and worker 0
    grants each call."""
    made = Input(MKNOD, "notify mknod")
    for task in range(tasks):
        made.program(f"p{task}", *[line for call in range(calls) for line in (f'poke 0x10000 "/{task}.{call}\\0"', "call mknod 0x10000 0o020666 259")])
    made.program("main", *[f"spawn p{task}" for task in range(tasks)], *["wait"] * tasks)
    made.task("0", tasks)
    for _ in range(calls):
        for task in range(tasks):
            made.task(f"0.{task + 1}", 2)
            made.worker(0, GRANTED)
            made.task(f"0.{task + 1}")
            made.expect(calls=1, notified=1, answered=1, granted=1)
    for task in range(tasks):
        made.task(f"0.{task + 1}")
    made.task("0", tasks + 1)
    return made


def instructions(divide: int) -> Input:
    """100,000 executed instructions: stores of eight bytes all over the memory, and the exit"""
    count = LIMITS["instructions"] // divide
    made = Input({})
    made.program("main", *(f'poke {0x10000 + i * 4099 % 65528} "{i:08}"' for i in range(count - 1)))
    made.task("0", count)
    return made


def calls(divide: int) -> Input:
    """20,000 calls, each notified and denied, in 200,000 scheduled steps. The path is empty, so that no step is needed for it"""
    count = LIMITS["calls"] // divide
    made = Input({"rules": [{"name": "no-mem", "call": "mknod", "when": {"dev": "1:1"}, "then": {"deny": "EPERM"}}]}, "notify mknod")
    made.program("main", *["call mknod 0x10000 0o020666 257"] * count)
    for _ in range(count):
        made.task("0")
        made.worker(0, GRANTED - 1)
        made.task("0")
    made.expect(calls=count, notified=count, answered=count, denied=count)
    return made


def tasks_at_once(divide: int) -> Input:
    """4,000 tasks that live at once, all waiting in a notified call at once, and 16 workers that serve them side by side"""
    count = LIMITS["starts"] // divide
    made = Input(MKNOD, 'dir "/dev"', "notify mknod")
    for i in range(count):
        made.program(f"p{i}", f'poke 0x10000 "/dev/n{i}\\0"', "call mknod 0x10000 0o020666 259")
    made.program("main", *(f"spawn p{i}" for i in range(count)), *["wait"] * count)
    children = [f"0.{i + 1}" for i in range(count)]
    made.task("0", count)
    for child in children:
        made.task(child, 2)
    for first in range(0, count, WORKERS):
        served = range(min(WORKERS, count - first))
        for steps in (1, 3, GRANTED - 4):
            for worker in served:
                made.worker(worker, steps)
    for child in children:
        made.task(child, 2)
    made.task("0", count + 1)
    made.expect(calls=count, notified=count, answered=count, granted=count)
    return made


def tasks_in_turn(divide: int) -> Input:
    """4,000 tasks one after another with `pidmax 2`. Each second one is killed once its notification was received, and the worker goes on
    when the next task has its number"""
    pairs = max(1, LIMITS["starts"] // 2 // divide)
    made = Input(MKNOD, 'dir "/dev"', "pidmax 2", "notify mknod")
    made.program("killed", 'poke 0x10000 "/dev/killed\\0"', "call mknod 0x10000 0o020666 259")
    lines = []
    for i in range(pairs):
        made.program(f"p{i}", f'poke 0x10000 "/dev/n{i}\\0"', "call mknod 0x10000 0o020666 259")
        lines += ["spawn killed", f"kill child {2 * i + 1} 9", "wait", f"spawn p{i}", "wait"]
        killed, served = f"0.{2 * i + 1}", f"0.{2 * i + 2}"
        made.task("0")
        made.task(killed, 2)
        made.worker(0)
        made.task("0")
        made.task(killed)
        made.task("0", 2)
        # it opens the memory and the base of the task that has the number now, finds its call gone, and lets go
        made.worker(0, 4)
        made.task(served, 2)
        made.worker(0, GRANTED)
        made.task(served, 2)
        made.task("0")
    made.program("main", *lines)
    made.task("0")
    made.expect(calls=2 * pairs, notified=2 * pairs, answered=pairs, granted=pairs, gone=pairs)
    return made


def tree(divide: int) -> Input:
    """10,000 tree lines: a directory, and nodes in it whose names of 255 bytes differ at their ends. 10,000 granted calls make nodes
    there, each second one where there is one already"""
    count = max(2, MOST_TREE_LINES // divide)
    kinds = ["reg {}", "fifo {}", "sock {}", "chr {} 1 3", "blk {} 253 0", 'link {} "nothing"']
    paths = ["/d/" + f"{i:06}".rjust(255, "n") for i in range(2 * count)]
    stated = [kinds[i % len(kinds)].format(f'"{paths[i]}"') for i in range(count - 1)]
    made = Input(MKNOD, 'dir "/d"', *stated, "notify mknod")
    lines = []
    for i in range(count):
        # 7919 is a prime number: so all are met, in no order
        path = paths[i * 7919 % (count - 1)] if i % 2 else paths[count + i * 7919 % count]
        lines += [f'poke 0x10000 "{path}\\0"', "call mknod 0x10000 0o020666 259"]
        made.task("0", 2)
        # the path is read in two pieces
        made.worker(0, GRANTED + 1)
        made.task("0")
    made.program("main", *lines)
    made.task("0")
    made.expect(calls=count, notified=count, answered=count, granted=count)
    return made


def depth(divide: int) -> Input:
    """Programs that start one another, 64 deep, and with 4,000 tasks in all: the innermost that starts any starts 3,937, whose names have
    64 numbers. Each makes a notified call, which is passed"""
    deepest = LIMITS["depth"]
    leaves = max(1, LIMITS["starts"] // divide - (deepest - 1))
    made = Input({}, "notify getpid")
    names = ["0" + ".1" * i for i in range(deepest)]
    children = [f"{names[-1]}.{i + 1}" for i in range(leaves)]
    made.program(f"p{deepest}", "call getpid")
    made.program(f"p{deepest - 1}", *[f"spawn p{deepest}"] * leaves, *["wait"] * leaves)
    for i in reversed(range(deepest - 1)):
        made.program(f"p{i}", f"spawn p{i + 1}", "wait")
    for name in names[:-1]:
        made.task(name)
    made.task(names[-1], leaves)
    for child in children:
        made.task(child)
    for i in range(leaves):
        # it receives, opens the memory, checks twice, answers and lets go
        made.worker(i % WORKERS, 6)
    for child in children:
        made.task(child, 3)
    made.task(names[-1], leaves + 1)
    for name in reversed(names[:-1]):
        made.task(name, 2)
    made.expect(calls=leaves, notified=leaves, answered=leaves, passed=leaves)
    return made


def steps(divide: int) -> Input:
    """200,000 scheduled steps that nearly all skip: workers with nothing to receive, a line each; a task that waits; one that isn't there,
    whose name has 64 numbers; and one that has ended"""
    count = max(40, MOST_STEPS // divide)
    quarter = count // 4
    made = Input({}, "notify getpid")
    made.program("main", "call getpid")
    for i in range(quarter):
        made.worker(i % WORKERS)
    made.task("0", quarter)
    made.task("0" + ".100000" * 64, quarter)
    made.worker(0, 6)
    made.task("0", count - 3 * quarter - 6)
    made.expect(calls=1, notified=1, answered=1, passed=1)
    return made


def fill(divide: int) -> Input:
    """64 MiB stored by 1,024 fills of 65,536 bytes each, and a notified call whose path has no end. The report has each byte"""
    count = LIMITS["stored"] // 65_536 // divide
    made = Input(MKNOD, "notify mknod")
    made.program("main", *["fill 0x10000 65536 97"] * count, "call mknod 0x10000 0o020666 259")
    made.task("0", count + 1)
    # 16 pieces are read, and the answer is ENAMETOOLONG
    made.worker(0, 23)
    made.task("0", 2)
    made.expect(calls=1, notified=1, answered=1, faults=1)
    return made


def copies(divide: int) -> Input:
    """4,000 processes at once, each with a copy of 64 written pages and of 4,096 descriptors. Each then stores a byte in 16 pages"""
    count = LIMITS["starts"] // divide
    opened = (4_096 - 3) // divide
    made = Input({}, 'reg "/f"', "rlimit 4096", "map 0x10000 64", "notify mknod")
    made.program("child", *(f'poke {0x10000 + i * 16384} "b"' for i in range(16)))
    fills = [f"fill {0x10000 + i * 65536} 65536 97" for i in range(4)]
    made.program("main", *fills, 'poke 0x10000 "/f\\0"', *["call openat -100 0x10000 0"] * opened, *["spawn child"] * count)
    # a call that isn't notified takes two steps
    made.task("0", len(fills) + 1 + 2 * opened + count)
    for i in range(count):
        made.task(f"0.{i + 1}", 17)
    made.task("0")
    made.expect(calls=opened)
    return made


def filters(divide: int) -> Input:
    """16 filters of 4,096 instructions each, which all run on each of 20,000 calls"""
    count = LIMITS["calls"] // divide
    made = Input({}, *(["filter"] + ["add 1"] * 4_095 + ["ret 0x7fff0000", "end"]) * 16)
    made.program("main", *["call getpid"] * count)
    made.task("0", 2 * count + 1)
    made.expect(calls=count)
    return made


def rules(divide: int) -> Input:
    """1,024 rules with the texts of paths that differ at their ends alone, in a policy of just under 1,048,576 bytes, and the calls that
    200,000 steps allow: each is compared with every rule, and passed"""
    rule = {"name": "r0000", "call": "mknod", "when": {"path": ""}, "then": {"deny": "EPERM"}}
    room = (MOST_POLICY_BYTES - len('{"rules":[]}')) // MOST_RULES - len(json.dumps(rule, separators=(",", ":"))) - 1
    common = "/d" * (room // 2 - 3)
    named = [{**rule, "name": f"r{i:04}", "when": {"path": f"{common}/{i:04}"}} for i in range(MOST_RULES)]
    made = Input({"rules": named}, "notify mknod")
    path = f"{common}/9999"
    # it reads the path in pieces of 256 bytes up to the zero
    worker = GRANTED - 2 + len(path) // 256 + 1
    count = max(1, (MOST_STEPS - 2) // (worker + 3) // divide)
    made.program("main", f'poke 0x10000 "{path}\\0"', *["call mknod 0x10000 0o020666 259"] * count)
    made.task("0")
    for _ in range(count):
        made.task("0")
        made.worker(0, worker)
        made.task("0", 2)
    made.task("0")
    made.expect(calls=count, notified=count, answered=count, passed=count)
    return made


def links(divide: int) -> Input:
    """20,000 calls of openat that each follow 40 links, whose targets of 4,095 bytes go through 2,046 parts each"""
    count = LIMITS["calls"] // divide
    names = [f"l{i:02}" for i in range(40)] + ["end"]
    made = Input({}, 'reg "/end"', *(f'link "/{name}" "{"./" * 2046}{target}"' for name, target in zip(names, names[1:])))
    made.program("main", f'poke 0x10000 "/{"./" * 2045}l00\\0"', *["call openat -100 0x10000 0"] * count)
    made.task("0", 2 * count + 2)
    made.expect(calls=count)
    return made


def mounts(divide: int) -> Input:
    """As many mounts on one directory, each on the one before, as 200,000 steps allow"""
    count = (MOST_STEPS - 3) // 12 // divide
    made = Input(MOUNT, 'dir "/m"', "notify mount")
    made.program("main", 'poke 0x10000 "/m\\0"', 'poke 0x10100 "ext4\\0"', *["call mount 0 0x10000 0x10100 0 0"] * count)
    made.task("0", 2)
    for _ in range(count):
        made.task("0")
        # it reads the target and the type
        made.worker(0, GRANTED + 1)
        made.task("0")
    made.task("0")
    made.expect(calls=count, notified=count, answered=count, granted=count)
    return made


GREATEST = {
    made.__name__.replace("_", "-"): made
    for made in (instructions, calls, tasks_at_once, tasks_in_turn, tree, depth, steps, fill, copies, filters, rules, links, mounts)
}
