"""Both sides of each limit: the greatest input that is accepted, and one more, which is refused.

A line without meaning stands behind what is tried. Where what is tried is accepted, that line is the one that is refused, so that
nothing has to be played.
"""
from __future__ import annotations

import json
from typing import Any, Iterator, Tuple

BAD = "nonsense\n"
PROGRAM = "prog main\nend\n"


def main(*lines: str) -> str:
    return "prog main\n" + "".join(f"{line}\n" for line in lines) + "end\n"


def many(lines: str, count: int) -> str:
    """The lines so often, with a number of its own in each place of `{}`."""
    return "".join(lines.format(i) for i in range(count))


def chain(depth: int) -> str:
    """Programs that start one another, so deep."""
    return "prog p0\nend\n" + "".join(f"prog p{i + 1}\nspawn p{i}\nend\n" for i in range(depth))


def path(length: int) -> Tuple[str, str]:
    """Lines of directories, and the path of so many bytes, at least 3,842, that lies in them."""
    names = ["d" * 255] * 15
    return "".join(f'dir "/{"/".join(names[:i + 1])}"\n' for i in range(15)), f"/{'/'.join(names)}/".ljust(length, "n")


def reg(length: int) -> str:
    lines, at = path(length)
    return f'{lines}reg "{at}"\n'


def scheduled(*lines: str) -> str:
    return PROGRAM + "schedule\n" + "".join(f"{line}\n" for line in lines)


# what is limited, the reason of the refusal, how many lines from the end the refused one stands, and the script by the number; then the
# greatest number
SCRIPTS = [
    ("executed instructions", "too large", 1, lambda n: main(*["wait"] * (n - 1)), 100_000),
    ("executed instructions of programs that are started", "too large", 1,
     lambda n: "prog p\n" + "wait\n" * 999 + "end\n" + main(*["spawn p"] * 99, *["wait"] * (n - 99 * 1001 - 1)), 100_000),
    ("calls", "too large", 1, lambda n: main(*["call getpid"] * n), 20_000),
    ("calls of programs that are started", "too large", 1,
     lambda n: "prog p\n" + "call 39\n" * 19 + "end\n" + main(*["thread p"] * 1000, *["call 39"] * (n - 19_000)), 20_000),
    ("started tasks", "too large", 1, lambda n: "prog p\nend\n" + main(*["spawn p", "thread p"] * 2000, *["spawn p"] * (n - 4000)), 4_000),
    ("stored bytes", "too large", 1,
     lambda n: main(*["fill 0x10000 65536 1"] * 1023, "fill 0x10000 65535 1", f'poke 0x10000 "{"a" * (n - 67_108_863)}"'), 67_108_864),
    ("depth", "too large", 1, chain, 64),
    ("programs", "too large", 1, lambda n: many("prog p{}\nend\n", n - 1) + "prog last\n", 4_096),
    ("filters", "too large", 1, lambda n: many("filter\nret 0\nend\n", n - 1) + "filter\n", 16),
    ("filters with the listener", "too large", 1, lambda n: many("filter\nret 0\nend\n", n - 1) + "notify mknod\n", 16),
    ("tree lines", "too large", 1, lambda n: many('reg "/f{}"\n', n), 10_000),
    ("tree lines with attributes", "too large", 1, lambda n: 'reg "/f"\n' + many('attr "/f" "user.a" "{}"\n', n - 1), 10_000),
    ("descriptors of the broker", "too large", 1, lambda n: many("broker {}\n", n), 64),
    ("mapped pages", "too large", 1, lambda n: "map 0x10000 63\n" + f"map 0x1000000 {n - 63}\n", 64),
    ("pages of a line", "out of range", 1, lambda n: f"map 0x10000 {n}\n", 64),
    ("scheduled steps", "too large", 1, lambda n: scheduled("t 0 100000", "w 0 99999", f"w 15 {n - 199_999}"), 200_000),
    ("steps of a line", "out of range", 1, lambda n: scheduled(f"t 0 {n}"), 200_000),
    ("instructions of a filter", "bad filter", 1, lambda n: "filter\n" + "add 1\n" * (n - 1) + "ret 0\nend\n", 4_096),
    ("calls that are notified", "wrong count", 1, lambda n: "notify" + " mknod" * n + "\n", 64),
    ("bytes of a poke", "out of range", 2, lambda n: main(f'poke 0x10000 "{"a" * n}"'), 65_536),
    ("bytes of a fill", "out of range", 2, lambda n: main(f"fill 0x10000 {n} 1"), 65_536),
    ("the byte of a fill", "out of range", 2, lambda n: main(f"fill 0x10000 1 {n}"), 255),
    ("the last byte that is mapped", "unmapped", 2, lambda n: main(f'poke {n} "a"'), 0x1FFFF),
    ("the number of a call", "out of range", 2, lambda n: main(f"call {n}"), 2**31 - 1),
    ("an argument", "out of range", 2, lambda n: main(f"call 1 {n}"), 2**64 - 1),
    ("arguments", "wrong count", 2, lambda n: main("call 1" + " 0" * n), 6),
    ("the number of a child", "out of range", 2, lambda n: main(f"kill child {n} 9"), 100_000),
    ("a PID", "out of range", 2, lambda n: main(f"kill pid {n} 9"), 2**32 - 1),
    ("bytes of a path", "bad path", 1, reg, 4_095),
    ("bytes of a name", "bad path", 1, lambda n: f'reg "/{"n" * n}"\n', 255),
    ("bytes of a link's target", "out of range", 1, lambda n: f'link "/l" "{"t" * n}"\n', 4_095),
    ("bytes of an attribute's name", "out of range", 1, lambda n: f'reg "/f"\nattr "/f" "{"n" * n}" ""\n', 255),
    ("bytes of an attribute", "out of range", 1, lambda n: f'reg "/f"\nattr "/f" "user.a" "{"v" * n}"\n', 4_096),
    ("bytes of a program's name", "out of range", 1, lambda n: f"prog {'p' * n}\n", 64),
    ("numbers in a task's name", "bad number", 1, lambda n: scheduled("t 0" + ".1" * n), 64),
    ("a number in a task's name", "bad number", 1, lambda n: scheduled(f"t 0.{n}"), 100_000),
    ("a worker", "out of range", 1, lambda n: scheduled(f"w {n}"), 15),
    ("pidmax", "out of range", 1, lambda n: f"pidmax {n}\n", 4_194_304),
    ("pidbase", "out of range", 1, lambda n: f"pidmax 4\npidbase {n}\n", 4_194_300),
    ("firstid", "out of range", 1, lambda n: f"firstid {n}\n", 2**64 - 1),
    ("rlimit", "out of range", 1, lambda n: f"rlimit {n}\n", 4_096),
    ("a descriptor of the broker", "out of range", 1, lambda n: f"broker {n}\n", 1_023),
    ("a major number", "out of range", 1, lambda n: f'chr "/c" {n} 0\n', 4_095),
    ("a minor number", "out of range", 1, lambda n: f'blk "/b" 0 {n}\n', 1_048_575),
    ("a limit of memory", "out of range", 1, lambda n: f"cgroup {n} 0\n", 2**64 - 1),
    ("how many processes there are", "out of range", 1, lambda n: f"figures 0 0 0 0 0 {n}\n", 65_535),
]


def rule(**keys: Any) -> str:
    return json.dumps({"version": 2, "rules": [{"name": "r", "call": "mknod", "then": "grant", **keys}]})


# what is limited, the refusal, and the policy by the number; then the greatest number
POLICIES = [
    ("rules", "too many rules",
     lambda n: json.dumps({"rules": [{"name": f"r{i}", "call": "mknod", "then": "pass"} for i in range(n)]}), 1_024),
    ("bytes of a rule's name", "bad value at rules[0].name", lambda n: rule(name="n" * n), 64),
    ("times", "bad value at rules[0].times", lambda n: rule(times=n), 2**32 - 1),
    ("a major number of a condition", "bad value at rules[0].when.dev", lambda n: rule(when={"dev": f"{n}:0"}), 4_095),
    ("a minor number of a condition", "bad value at rules[0].when.dev", lambda n: rule(when={"dev": f"0:{n}"}), 1_048_575),
    ("a descriptor that is injected", "bad value at rules[0].then.inject", lambda n: rule(call="openat", then={"inject": n}), 2**32 - 1),
    ("bytes of a file system's name", 'bad value at config."security.syscalls.intercept.mount.allowed"',
     lambda n: json.dumps({"config": {"security.syscalls.intercept.mount.allowed": "f" * n}}), 32),
]


def edges() -> Iterator[Tuple[str, str, str, int, str]]:
    """What is tried, the policy, the script, and the status and the line with which the program must end."""
    for what, reason, behind, script, most in SCRIPTS:
        for number in (most, most + 1):
            text = script(number)
            lines = text.count("\n")
            line, said = (lines + 1, None) if number == most else (lines + 1 - behind, reason)
            # also where a block is open, a word that no part of a script knows is refused as such
            yield f"{what}, {number}", "{}", text + BAD, 5, f"script: line {line}: {said or 'unknown word'}"
    for what, refusal, policy, most in POLICIES:
        yield f"{what}, {most}", policy(most), BAD, 5, "script: line 1: unknown word"
        yield f"{what}, {most + 1}", policy(most + 1), BAD, 4, f"policy: {refusal}"
    for number, status, said in ((1_048_576, 5, "script: line 1: unknown word"), (1_048_577, 3, "too long: policy")):
        yield f"bytes of a policy, {number}", "{}".ljust(number), BAD, status, said
    for number, status, said in ((8_388_608, 5, "script: line 2: unknown word"), (8_388_609, 3, "too long: script")):
        yield f"bytes of a script, {number}", "{}", "#".ljust(number - len(BAD) - 1, "x") + "\n" + BAD, status, said
