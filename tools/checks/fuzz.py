"""Runs the program on random inputs, and reports each one that it doesn't play or refuse as it should.

    tools/checks/fuzz [--count N] [--seed N] [--first I] [--jobs N] [--seconds S] [--megabytes M] [--program PATH]

A third of the inputs are at an end of a range, or one beyond it, or have a name of some length, and docs/reference says whether they are
accepted; each of these comes once. The others are random bytes; policies and scripts of examples/ and cases/ with bytes, tokens, lines and
blocks changed, moved, repeated and cut; their scripts with random schedules; and policies that are deep, or have long numbers, all escapes,
or repeated keys. Schedules are short, so that many are tried. A third of what is played is then checked by audit-check: the report as it
was printed, or with bytes, digits, words and lines changed, moved, repeated, exchanged and cut; and some bytes if the policy or the script
was refused. The seed and its number give an input, so --first I --count 1 makes it again.

A run is at fault if a signal ends it, if it takes longer than it may or finds no memory within its limit, if it prints anything but a whole
report with status 0 or one line of its own with another status, if a journal breaks what the mediation law says of single steps, if the
second run answers differently, or if an end of a range isn't accepted or refused as it should be. A check is at fault if it doesn't accept
the report of the play, if it refuses a report at a line before the first change, or if it doesn't refuse a policy or a script as the play
does. The input is left in the folder that is named.
"""
from __future__ import annotations

import json
import os
import random
import re
import resource
import select
import shutil
import signal
import tempfile
import time
from argparse import Namespace
from collections import Counter
from concurrent.futures import ThreadPoolExecutor
from typing import Any, List, Optional, Tuple

from tools.checks.tallies import TrialParser, statuses_told
from tools.commands.command_line.top import TOP
from tools.commands.explored import has_requests
from tools.commands.pods import last_line, parts

PLAY = ["play", "policy.json", "script.txt"]
CHECK = ["audit-check", "policy.json", "script.txt", "report.txt"]

# ---- what may be said

USAGE = rb"usage: [^\n]+\n"
LINES = {
    1: USAGE,
    3: rb"too long: (policy|script)\n",
    4: rb"policy: (not JSON|too many rules|(unknown key|bad value) at [\x20-\x7e]+)\n",
    5: rb"script: line \d+: [a-z ]+\n",
}
# what pod may say beside
POD_LINES = {10: rb"pod: pids overlap: \d \d\n"}
# what handover prints behind the report
HANDED = rb"handovers \d+\n(?:ledger \d+ w\d+ \{\"count\":\d+,\"own\":\[[^\n]*\],\"worker\":\d+\}\n)*"
# what explore prints
EXPLORED = (rb"explored workers=\d+ delays=(?:\d|all) histories=\d+ events=\d+ longest=\d+ outcomes=\d+ whole=(?:yes|bound|no)\n"
            rb"(?:outcome \d+ histories=\d+\n(?:none\n|(?:t[\d.]+ \d+ [^\n]*\n(?: did [^\n]*\n)*)+)(?:schedule too long\n|schedule\n(?:[tw] [\d.]+ \d+\n)*end\n))+")
# what judge prints of this project's own workers
MEDIATED = rb"mediated events=\d+ calls=\d+ effects=\d+ answers=\d+\n"
# what audit-check may say beside
REPORT_LINES = {2: rb"read fault: report\n", 3: rb"too long: report\n", 9: rb"report: line ([1-9]\d*)\n"}
FOUND = rb"yes events=(\d+) finished=(?:yes|no)\n(?:trail \d+ recv=(?:\d+|-) valid=(?:\d+|-) effect=(?:\d+|-) answer=(?:\d+|-) rule=\S+\n)*"
SUMMARY = rb"summary events=\d+ calls=\d+ notified=\d+ answered=\d+ granted=\d+ denied=\d+ passed=\d+ injected=\d+ faults=\d+ gone=\d+ lost=\d+"


def is_report(out: bytes) -> bool:
    """Whether it has the four parts, each with as many lines as it says."""
    lines = out.split(b"\n")
    for part in (b"journal", b"calls", b"audit"):
        head = re.fullmatch(part + rb" (\d+)", lines[0])
        if head is None or len(lines) <= int(head.group(1)) + 1:
            return False
        lines = lines[int(head.group(1)) + 1:]
    return len(lines) == 2 and re.fullmatch(SUMMARY, lines[0]) is not None and lines[1] == b""


def is_pod(out: bytes) -> bool:
    """Whether it has a report for each container, and then their sums."""
    try:
        reports, last = parts(out)
    except ValueError:
        return False
    return all(map(is_report, reports)) and last == last_line(reports)


def parted(out):
    """The report that handover printed, and what stands behind it."""
    report, title, ledgers = out.rpartition(b"\nhandovers ")
    return report + b"\n", title[1:] + ledgers


def broken_by(out):
    """What the events of a whole report break: each notification is received once and answered once, by the worker that has it in hand,
    its arguments are read between two good checks and used after them, and its call returns what was accepted for it."""
    lines = out.split(b"\n")
    hands, calls, received, listed, asked, answers = {}, {}, set(), set(), set(), {}
    for line in lines[1:int(lines[0].split()[1]) + 1]:
        _, who, what, *more = line.split(b" ")
        own, good = hands.get(who), more[-1:] == [b"ok"]
        if own is None and who.startswith(b"w") and what not in (b"recv", b"skip"):
            return line
        if what == b"call" and more[-2] == b"notify":
            calls[who] = more[-1][3:]
            listed.add(calls[who])
        elif what == b"recv" and more[0].startswith(b"id="):
            if more[0][3:] in received or more[0][3:] not in listed or own:
                return line
            received.add(more[0][3:])
            hands[who] = [more[0][3:], 0]
        elif what == b"check":
            if more[0] != own[0] or own[1] > 1 or good != (own[0] in listed):
                return line
            own[1] += good
        elif what == b"read" and own[1] != 1 or what in (b"act", b"plant", b"addfd-put", b"send") and own[1] != 2:
            return line
        elif what in (b"addfd-put", b"send"):
            if more[0] != own[0] or good and (own[0] not in listed or own[0] in answers or own[0] in asked):
                return line
            if good and what == b"send":
                answers[own[0]] = more[1]
            elif good:
                asked.add(own[0])
        elif what == b"let-go":
            del hands[who]
        elif what == b"install":
            if calls.get(who) not in asked:
                return line
            asked.remove(calls[who])
            if more[0].isdigit():
                answers[calls[who]] = more[0]
        elif what == b"resume":
            if answers.get(calls.get(who)) != more[0]:
                return line
            listed.discard(calls.pop(who))
        elif what == b"deliver" and who in calls:
            if calls[who] in answers:
                return line
            listed.discard(calls.pop(who))
    return None


# ---- edges: each is its words, its policy, its script, and what is said of it; nothing is said of one that is taken

END = "prog main\nend\n"
TAKEN, REFUSED, BAD_POLICY = b"", LINES[5], LINES[4]
TOP_64 = 2**64 - 1
SETTINGS = [
    ('chr "/a" %d 0', 0, 4095), ('chr "/a" 0 %d', 0, 1048575), ('blk "/a" %d 0', 0, 4095), ('blk "/a" 0 %d', 0, 1048575),
    ("pidmax %d", 1, 4194304), ("pidmax 1\npidbase %d", 0, 4194303), ("pidbase %d", 0, 4194304 - 32768), ("firstid %d", 0, TOP_64),
    ("rlimit %d", 0, 4096), ("broker %d", 0, 1023), ("map 0 %d", 1, 64), ("cgroup %d 0", 0, TOP_64), ("cgroup 0 %d", 0, TOP_64),
    *[(f"figures{' 0' * at} %d{' 0' * (5 - at)}", 0, TOP_64) for at in range(5)], ("figures 0 0 0 0 0 %d", 0, 65535),
    ("filter\nldi %d\nret 0\nend", 0, 2**32 - 1), ("filter\njeq 0 %d 0\n" + "ret 0\n" * 256 + "end", 0, 255),
    ("filter\njset 0 0 %d\n" + "ret 0\n" * 256 + "end", 0, 255), ("filter\nlsh %d\nret 0\nend", 0, 31),
]
INSTRUCTIONS = [
    ("fill 0x10000 %d 0", 1, 65536), ("fill 0x10000 1 %d", 0, 255), ("fill %d 1 0", 0x10000, 0x1ffff), ("call %d", 0, 2**31 - 1),
    ("call 0 %d", -(2**63), TOP_64), ("call 0 0 0 0 0 0 %d", -(2**63), TOP_64), ("kill pid %d 9", 0, 2**32 - 1),
]
STEPS = [("w %d", 0, 15), ("w 0 %d", 1, 200000), ("t 0 %d", 1, 200000), ("t 0.%d", 1, 100000)]
# of so many bytes, or so many times: the settings or the program, and the fewest and the most
LENGTHS = [
    (lambda n: f'dir "/{"a" * n}"\n' + END, 1, 255),
    (lambda n: "".join(f'dir "{"/" + "/".join(["d" * 255] * k)}"\n' for k in range(1, 16)) + f'reg "{("/" + "d" * 255) * 15}/{"e" * n}"\n' + END, 1, 254),
    (lambda n: f'link "/a" "{"b" * n}"\n' + END, 1, 4095),
    (lambda n: f'reg "/a"\nattr "/a" "{"b" * n}" ""\n' + END, 1, 255),
    (lambda n: f'reg "/a"\nattr "/a" "b" "{"c" * n}"\n' + END, 0, 4096),
    (lambda n: f"prog {'p' * n}\nend\n", 1, 64),
    (lambda n: f'prog main\npoke 0x10000 "{"b" * n}"\nend\n', 1, 65536),
    (lambda n: f"notify{' mknod' * n}\n" + END, 1, 64),
    (lambda n: "filter\n" + "ret 0\n" * n + "end\n" + END, 1, 4096),
    (lambda n: "filter\nret 0\nend\n" * n + END, 0, 16),
    (lambda n: "".join(f"broker {k}\n" for k in range(n)) + END, 0, 64),
    (lambda n: "".join(f"map {k * 4096} 1\n" for k in range(n)) + END, 0, 64),
    (lambda n: "".join(f'reg "/{k}"\n' for k in range(n)) + END, 0, 10000),
    (lambda n: "".join(f"prog p{k}\nend\n" for k in range(n)), 1, 4096),
    (lambda n: "prog main\n" + "call 0\n" * n + "end\n", 0, 20000),
    (lambda n: "prog main\n" + "wait\n" * n + "end\n", 0, 99999),
    (lambda n: "prog kid\nend\nprog main\n" + "spawn kid\n" * n + "end\n", 0, 4000),
    (lambda n: "prog p0\nend\n" + "".join(f"prog p{k + 1}\nspawn p{k}\nend\n" for k in range(n)), 0, 64),
    (lambda n: "prog main\n" + "fill 0x10000 65536 1\n" * n + "end\n", 0, 1024),
    (lambda n: f"{END}schedule\nt 0{'.1' * n}\nend\n", 0, 64),
    (lambda n: f"firstid {'0' * n}\n" + END, 1, 20),
    (lambda n: f"firstid 0x{'0' * n}\n" + END, 1, 16),
    (lambda n: f"firstid 0o{'0' * n}\n" + END, 1, 22),
]
# the text of a policy with a number, and with a name of some length; of names of scripts and policies each length is tried
RULE = '{"version":2,"rules":[{"name":"a","call":"mknod","then":"grant",%s}]}'
INJECTION = '{"rules":[{"name":"a","call":"openat","then":%s}]}'
PREFIX = "security.syscalls.intercept."
POLICY_NUMBERS = [
    ('{"version":%d}', 1, 2), (RULE % '"times":%d', 1, 2**32 - 1), (INJECTION % '{"inject":%d}', 0, 2**32 - 1),
    (INJECTION % '{"inject":0,"at":%d}', 0, 2**32 - 1), (RULE % '"when":{"dev":"%d:0"}', 0, 4095), (RULE % '"when":{"dev":"0:%d"}', 0, 1048575),
]
POLICY_LENGTHS = [
    (lambda n: json.dumps({"rules": [{"name": "a" * n, "call": "mknod", "then": "pass"}]}), 1, 64),
    (lambda n: json.dumps({"rules": [{"name": str(k), "call": "mknod", "then": "pass"} for k in range(n)]}), 0, 1024),
    (lambda n: json.dumps({"config": {f"{PREFIX}mount.allowed": "a" * n}}), 0, 32),
    (lambda n: json.dumps({"config": {f"{PREFIX}mount.fuse": f"{'a' * n}=b"}}), 1, 32),
    (lambda n: json.dumps({"config": {f"{PREFIX}mount.fuse": f"a={'b' * n}"}}), 1, 32),
]
NAMES = [
    (lambda n: ("{}", f'dir "/{"a" * n}"\n' + END), 1, 255), (lambda n: ("{}", f'reg "/a"\nattr "/a" "{"b" * n}" ""\n' + END), 1, 255),
    (lambda n: ("{}", f"prog {'p' * n}\nend\n"), 1, 64), (lambda n: (POLICY_LENGTHS[0][0](n), END), 1, 64), (lambda n: (POLICY_LENGTHS[3][0](n), END), 1, 32),
]
SERVED = (["run", *PLAY[1:], "1", "1"], ["lanes", *PLAY[1:], "1"])
WORDS = [
    ([], USAGE), (["play"], USAGE), (["play", "policy.json"], USAGE), ([*PLAY, ""], USAGE), (["Play", *PLAY[1:]], USAGE), ([""], USAGE),
    *[(["run", *PLAY[1:], n, "1"], TAKEN) for n in ("0", "16", "0" * 18 + "16")],
    *[(["run", *PLAY[1:], "1", n], USAGE) for n in ("17", "-1", "+1", "", " 1", "1 ", "0x1", "0" * 19 + "16", "99999999999999999999")],
    *[(["handover", *PLAY[1:], n], TAKEN) for n in ("1", "200000", "0" * 14 + "200000")],
    *[(["handover", *PLAY[1:], n], USAGE) for n in ("0", "200001", "-1", "", "4294967297", "0" * 15 + "200000")],
    *[(["pod", n, "1", *PLAY[1:]], TAKEN) for n in ("0", "16", "0" * 18 + "16")],
    *[(["pod", "1", n, *PLAY[1:]], USAGE) for n in ("17", "-1", "", "1 ", "0" * 19 + "16")],
    *[(["pod", "1", "1", *files], USAGE) for files in (PLAY[:0], PLAY[1:2], PLAY[1:] + PLAY[1:2], PLAY[1:] * 9)],
    (["pod", "1", "1"] + PLAY[1:] * 8, rb"pod: pids overlap: 0 1\n"),
    *[([*words, "every", n], TAKEN) for words in SERVED for n in ("1", "200000", "0" * 14 + "200000")],
    *[([*words, *more], USAGE) for words in SERVED for more in (["every"], ["every", "0"], ["every", "200001"], ["every", "all"], ["Every", "1"], ["1"], ["every", "1", "1"])],
    *[(["pod", workers, "1", "every", n, *PLAY[1:]], TAKEN) for workers in ("1", "lanes") for n in ("1", "200000")],
    *[(["pod", *words], USAGE) for words in (["1", "1", "every", *PLAY[1:]], ["1", "1", "every", "1"], ["1", "1", "every", "0", *PLAY[1:]], ["every", "1", "1", "1", *PLAY[1:]])],
    *[(["explore", *PLAY[1:], *numbers], TAKEN) for numbers in (("0", "0"), ("15", "8"), ("0" * 18 + "15", "0" * 19 + "8"), ("0", "all"))],
    *[(["explore", *PLAY[1:], *numbers], USAGE) for numbers in (("16", "0"), ("all", "0"), ("0", "9"), ("0", "ALL"), ("0", ""), ("0", "-1"), ("0", "0" * 20 + "8"))],
    (["judge", *PLAY[1:]], TAKEN), (["judge"], USAGE), (["judge", "policy.json"], USAGE), (["judge", *PLAY[1:], ""], USAGE),
    *[(["stress", n, "1"], TAKEN) for n in ("0", str(TOP_64), "0" * 19 + "1")],
    *[(["stress", n, "1"], USAGE) for n in (str(TOP_64 + 1), "-1", "0" * 20 + "1", "")],
    *[(["stress", "1", n], USAGE) for n in ("0", "4001", "4294967297", str(TOP_64 + 1))],
    (CHECK[:3], USAGE), ([*CHECK, ""], USAGE), (CHECK, REPORT_LINES[2]), ([*CHECK[:3], "/dev/zero"], REPORT_LINES[3]),
    *[([*CHECK[:3], name], rb"report: line 1\n") for name in ("/dev/null", "policy.json")],
]


def around(low: int, high: int) -> List[Tuple[int, bool]]:
    """The edges of a range, and the numbers past them, each with whether it lies inside."""
    return [(number, low <= number <= high) for number in (low - 1, low, high, high + 1)]


def edges():
    for words, said in WORDS:
        yield words, "{}", END, said
    for lines, tail in ((SETTINGS, END), ([(f"prog main\n{line}\nend", *ends) for line, *ends in INSTRUCTIONS], "")):
        for line, low, high in lines:
            for number, inside in around(low, high):
                yield PLAY, "{}", f"{line % number}\n{tail}", TAKEN if inside else REFUSED
    for line, low, high in STEPS:
        for number, inside in around(low, high):
            # nothing is played: the last line is refused, where the step isn't
            at = 6 if inside else 4
            yield PLAY, "{}", f"{END}schedule\n{line % number}\nend\nnone\n", b"script: line %d: [a-z ]+\n" % at
    for text, low, high in LENGTHS:
        for number, inside in around(low, high):
            if number >= 0:
                yield PLAY, "{}", text(number), TAKEN if inside else REFUSED
    for policy, low, high in POLICY_NUMBERS:
        for number, inside in around(low, high):
            yield PLAY, policy % number, END, TAKEN if inside else BAD_POLICY
    for text, low, high in POLICY_LENGTHS:
        for number, inside in around(low, high):
            if number >= 0:
                yield PLAY, text(number), END, TAKEN if inside else BAD_POLICY
    for texts, low, high in NAMES:
        for number in range(low + 1, high):
            yield PLAY, *texts(number), TAKEN
    for length, said in ((1048576, TAKEN), (1048577, LINES[3])):
        yield PLAY, "{}".ljust(length), END, said
    for length, said in ((8388608, TAKEN), (8388609, LINES[3])):
        yield PLAY, "{}", END.ljust(length, "\n"), said


# ---- policies that are hard to read


def hard_policy(chance: random.Random) -> bytes:
    """One that is deep, or has a long number, all escapes, or keys that stand again."""
    deep = chance.choice([10, 127, 128, 129, 1000, 10_000, 100_000])
    digits = "".join(chance.choices("0123456789", k=chance.choice([1, 20, 309, 10_000])))
    number = chance.choice(["", "-"]) + digits + chance.choice(["", ".", "." + digits, "e" + digits, "E-" + digits, "e+9", "." + digits + "e-5"])
    units = ['\\"', "\\\\", "\\/", "\\b", "\\f", "\\n", "\\r", "\\t", "\\u0000", "\\u0041", "\\u00e9", "\\u20ac", "\\ud83d\\ude00", "\\ud83d", "\\ude00",
             "\\uD83D\\u0041", "\\u12", "\\uzzzz", "\\x41", "\\", "\\U0001f600", "\x00", "\x1f", "\x7f", "é", "😀", "\u2028"]
    text = "".join(chance.choices(units[:chance.choice([8, 13, len(units)])], k=chance.randint(1, 40)))
    key = chance.choice(["config", "rules", "version", "name", "call", "when", "then", "times", PREFIX + "mknod", "\\u0063onfig", text])
    value = chance.choice([number, f'"{text}"', '"grant"', "true", "null", "[]", "{}", "1", f'"{chance.choice("yontf01")}"'])
    again = ",".join(f'"{key}":{value}' for _ in range(chance.choice([2, 3, 1000])))
    return chance.choice([
        "[" * deep + "]" * chance.choice([deep, 0, deep - 1, deep + 1]),
        '{"config":' * deep + "1" + "}" * deep,
        '{"rules":[' * deep + "]}" * chance.choice([deep, 0]),
        '{"rules":[{"name":"a","call":' + "[" * deep + "]" * deep + ',"then":"pass"}]}',
        '{"version":%s}' % number, RULE % f'"times":{number}', INJECTION % '{"inject":%s}' % number, number,
        '{"rules":[{"name":"%s","call":"mknod","then":"pass"}]}' % text, '{"config":{"%s":"%s"}}' % (text, text), '{"%s":1}' % text, f'"{text}"',
        '{"rules":[{"name":"a","call":"mknod","then":"grant","when":{"path":"%s"}}]}' % text,
        "{%s}" % again, '{"config":{%s}}' % again, '{"rules":[{"name":"a","call":"mknod","then":"pass",%s}]}' % again,
    ]).encode("utf-8", "surrogatepass")


# ---- changes of what is good

EDGES = [b"0", b"1", b"-1", b"15", b"16", b"17", b"64", b"65", b"1023", b"1024", b"4095", b"4096", b"4097", b"65536", b"65537", b"100001", b"200001",
         b"4194304", b"4194305", b"4294967295", b"4294967296", b"9223372036854775808", b"18446744073709551615", b"18446744073709551616",
         b"99999999999999999999", b"0x10000", b"0xffffffffffffffff", b"0x7fffffffffff", b"0o7777777777777777777777", b"00", b"-0", b"0x", b"1e3"]
SCRIPT_WORDS = b"""pidmax pidbase firstid rlimit dir reg fifo sock chr blk link attr root broker map cgroup figures notify filter killable prog poke
fill call spawn thread kill handler wait exit schedule t w end mknod mknodat mount setxattr openat close getpid sysinfo listener self parent child pid
restart plain default ret ld ldi jeq jset ja neg # "/dev" "/" "" "\\0" "\\x2e" "\\ 0 0.1 0.1.1 0.0 0.100001 -100""".split() + [b"\n", b"\r\n", b"\t", b" \n"]
POLICY_WORDS = b"""config rules version name call when then times path under kind dev fstype source deny inject at grant pass mknod openat mount
EPERM EACCES chr fifo 1:3 true false yes off null /dev .. lxd.a""".split()
POLICY_WORDS = [b'"%s"' % word for word in POLICY_WORDS] + [b"null", b"true", b"1e0", b"-0", b"1.0", b"[]", b"{}", b"{", b"}", b"[", b"]", b",", b":", b'"', b"\\"]
SCRIPT_UNITS = [rb"(?s).", rb"\"(?:[^\"\\\n]|\\.)*\"|\S+", rb"[^\n]*\n", rb"(?m)^(?:prog|filter|schedule)\b[^\n]*\n(?:[^\n]*\n)*?end\n"]
REPORT_WORDS = b"""journal calls audit summary listener close call recv skip check read act plant addfd-put send let-go install resume deliver exit ok gone
notify w0 w1 w15 w16 w017 t0 t0.1 t0.0 id=1 id=0 worker=0 rule=- events=1 calls=0 lost=0 yes no - 0 1 2 -1 EPERM continue "/null" """.split() + [b"\n", b" ", b"0\n"]
POLICY_UNITS = [rb"(?s).", rb'"(?:[^"\\]|\\.)*"|[-+.\w]+|[\[\]{},:]', rb"[^,\n]*[,\n]", rb"\{[^{}]*\}|\[[^\[\]]*\]"]


def changed(chance: random.Random, text: bytes, units: Any, words: Any) -> bytes:
    """The text with one to four bytes, tokens, lines or blocks changed, moved, repeated or cut, or cut off there."""
    for _ in range(chance.randint(1, 4)):
        found = [it.span() for it in re.finditer(chance.choice(units), text)]
        if not found:
            continue
        (start, end), (to, after) = chance.choice(found), chance.choice(found)
        piece, kind = text[start:end], chance.randrange(8)
        if kind < 3:
            new = chance.choice([text[to:after], chance.choice(words), chance.choice(EDGES), bytes([chance.randrange(256)])])
            text = text[:start] + new + text[end:]
        elif kind == 3:
            rest = text[:start] + text[end:]
            text = rest[:to] + piece + rest[to:]
        elif kind == 4:
            text = text[:to] + piece * chance.choice([1, 2, 4]) + text[to:]
        elif kind < 7:
            text = text[:start] + text[end:]
        else:
            text = text[:chance.choice([start, end])]
    return text


def scheduled(chance: random.Random, script: bytes) -> bytes:
    """The script with a schedule at random, of the tasks and workers that it may have."""
    actors = [b"t 0", b"t 0", b"t 0.1", b"t 0.1", b"t 0.2", b"t 0.1.1", b"w 0", b"w 0", b"w 1", b"w 2"]
    steps = [b"%s %d\n" % (chance.choice(actors), chance.randint(1, 4)) for _ in range(chance.randint(5, 80))]
    return script.split(b"\nschedule")[0] + b"\nschedule\n" + b"".join(steps) + b"end\n"


REPORT_MOST = 100_000
REPORT_UNITS = [rb"(?s).", rb"\d", rb"\S+", rb"[^\n]*\n"]


def exchanged(chance: random.Random, report: bytes) -> bytes:
    """The report with two neighbouring lines of its journal exchanged, but for their places: a report too, where both could step."""
    lines = report.split(b"\n")
    at = chance.randrange(int(lines[0].split()[1])) or 1
    if lines[at + 1].startswith(b"calls "):
        return report
    (place, one), (next_place, other) = (line.split(b" ", 1) for line in lines[at:at + 2])
    lines[at:at + 2] = place + b" " + other, next_place + b" " + one
    return b"\n".join(lines)


def damaged(chance: random.Random, report: bytes) -> bytes:
    """The report, whole or with a damage."""
    kind = chance.randrange(8)
    if kind < 2:
        return report
    if kind < 4:
        return exchanged(chance, report)
    if kind == 4:
        return report + chance.choice([b"0", b"\n", b"0\n", report])
    return changed(chance, report, REPORT_UNITS, REPORT_WORDS)


def number_of(token):
    try:
        return int(token, 0 if token[:2].lower() in (b"0x", b"0o") else 10)
    except ValueError:
        return None


def shortened(script: bytes) -> bytes:
    """The script with a schedule of some hundred steps at most."""
    left = 400

    def step(found: Any) -> bytes:
        nonlocal left
        count = number_of(found.group(2))
        if count is None or not 1 < count <= 200_000:
            return found.group(0)
        count = min(count % 60 + 1 if count > 60 else count, max(left, 1))
        left -= count
        return found.group(1) + str(count).encode()

    return re.sub(rb"(?m)^([ \t]*[tw][ \t]+\S+[ \t]+)([^\s\"]+)", step, script)


def good_inputs(name: str) -> List[bytes]:
    """The policies, or the scripts, of the examples and cases, in order; no script with requests, whose workers may do anything."""
    found = []
    for folder in ("examples", "cases"):
        for place, _, files in sorted(os.walk(f"{TOP}/{folder}")):
            if name in files:
                with open(f"{place}/{name}", "rb") as file:
                    found.append(file.read())
    return sorted({text for text in found if len(text) < 20_000 and not has_requests(text)})


class Inputs:
    """The inputs of a seed, by their numbers."""

    def __init__(self, seed: int) -> None:
        self.seed = seed
        self.policies, self.scripts = good_inputs("policy.json"), good_inputs("script.txt")
        self.edges = list(edges())
        random.Random(seed).shuffle(self.edges)

    def made(self, at: int) -> Any:
        """The words, the policy, the script, and what is to be said, where that is known."""
        if at % 3 == 0 and at // 3 < len(self.edges):
            words, policy, script, said = self.edges[at // 3]
            return words, policy.encode(), script.encode(), said
        chance = random.Random(f"{self.seed} {at}")
        policy, script, kind = chance.choice(self.policies), chance.choice(self.scripts), chance.randrange(10)
        if kind == 0:
            policy = chance.randbytes(chance.choice([0, 1, 2, 200, 5000]))
        elif kind == 1:
            script = chance.randbytes(chance.choice([0, 1, 2, 200, 5000]))
        elif kind == 2:
            policy = hard_policy(chance)
        elif kind < 5:
            script = scheduled(chance, script)
        elif kind < 7:
            policy = changed(chance, policy, POLICY_UNITS, POLICY_WORDS)
        else:
            script = changed(chance, script, SCRIPT_UNITS, SCRIPT_WORDS)
        return PLAY, policy, shortened(script), None

    def report_after(self, at: int, words: List[str], status: int, printed: bytes) -> Optional[bytes]:
        """The bytes that are checked after a play: its report, whole or damaged, or some where it was refused. None: nothing is checked."""
        chance = random.Random(f"{self.seed} {at} report")
        if words != PLAY or status not in (0, *LINES) or len(printed) > REPORT_MOST or chance.randrange(3) > 0:
            return None
        return damaged(chance, printed) if status == 0 else b"journal 1\n"


# ---- runs


def run(program: str, words: Any, room: str, asked: Namespace) -> Any:
    """The status, the output and the line of a run, what is wrong with it, and how long it took."""
    begun = time.monotonic()
    out, err = f"{room}/stdout", f"{room}/stderr"
    named = [f"{room}/{word}" if word in CHECK[1:] else word for word in words]
    writes = os.O_WRONLY | os.O_CREAT | os.O_TRUNC
    opened = os.POSIX_SPAWN_OPEN
    actions = [(opened, 0, "/dev/null", os.O_RDONLY, 0), (opened, 1, out, writes, 0o600), (opened, 2, err, writes, 0o600)]
    pid = os.posix_spawn(program, [program, *named], os.environ, file_actions=actions)
    resource.prlimit(pid, resource.RLIMIT_AS, (asked.megabytes * 1024 * 1024,) * 2)
    watch = os.pidfd_open(pid)
    ended = select.select([watch], [], [], asked.seconds)[0]
    if not ended:
        signal.pidfd_send_signal(watch, signal.SIGKILL)
    os.close(watch)
    status, took = os.waitpid(pid, 0)[1], time.monotonic() - begun
    with open(out, "rb") as file:
        printed = file.read()
    with open(err, "rb") as file:
        said = file.read()
    if not ended:
        return None, f"it ran longer than {asked.seconds} s", took
    if os.WIFSIGNALED(status):
        return None, f"it was ended by signal {os.WTERMSIG(status)}", took
    answer = (os.WEXITSTATUS(status), printed, said)
    return answer, fault_of(words, *answer), took


def run_twice(program: str, words: List[str], room: str, asked: Namespace) -> Tuple[Tuple[int, bytes, bytes], Any, float]:
    """What run gives, which is wrong too where a second run answers otherwise."""
    answer, wrong, took = run(program, words, room, asked)
    if wrong is None:
        again, wrong, _ = run(program, words, room, asked)
        if wrong is None and again != answer:
            wrong = "it answered otherwise the second time"
    return answer, wrong, took


def fault_of(words, status, printed, said):
    """What is wrong with an answer by itself."""
    is_check = words[:1] == CHECK[:1]
    if status != 0:
        forms = [LINES, REPORT_LINES] if is_check else [LINES, POD_LINES] if words[:1] == ["pod"] else [LINES]
        good = not printed and any(status in it and re.fullmatch(it[status], said) for it in forms)
    elif is_check:
        good = re.fullmatch(FOUND, printed) and not said
    elif words[:1] == ["stress"]:
        good = re.fullmatch(SUMMARY + rb"\n", printed) and not said
    elif words[:1] == ["handover"]:
        report, behind = parted(printed)
        good = is_report(report) and re.fullmatch(HANDED, behind) and not said
    elif words[:1] == ["pod"]:
        good = is_pod(printed) and not said
    elif words[:1] == ["judge"]:
        good = re.fullmatch(MEDIATED, printed) and not said
    elif words[:1] == ["explore"]:
        good = re.fullmatch(EXPLORED, printed) and not said
    else:
        good = is_report(printed) and not said
    if good and status == 0 and words == PLAY and (line := broken_by(printed)):
        return f"the history isn't mediated at {line[:200]!r}"
    return None if good else f"status {status}, {len(printed)} bytes printed, said {said[:200]!r}"


def check_fault(played, report, answer):
    """What is wrong with the answer of a check that is good by itself, after what was played of its policy and script."""
    status, printed, said = answer
    if played[0] != 0:
        good = answer == played
    elif status == 0:
        good = report.startswith(b"journal %s\n" % re.match(FOUND, printed).group(1))
    else:
        changed_at, last = (text.count(b"\n") + 1 for text in (os.path.commonprefix([played[1], report]), report))
        good = status == 9 and report != played[1] and changed_at <= int(re.fullmatch(REPORT_LINES[9], said).group(1)) <= last
    return None if good else f"the check: status {status}, {printed[:100]!r}, said {said[:200]!r}, after the play's status {played[0]}, {played[2][:200]!r}"


def write(room, texts):
    """Writes the texts to the files that the words name."""
    for name, text in zip(CHECK[1:], texts):
        with open(f"{room}/{name}", "wb") as file:
            file.write(text)


def tried(inputs: Inputs, at: int, asked: Namespace, place: str) -> Tuple[int, Optional[int], Any, str, float]:
    """The status of the input with this number and that of its check, what is wrong, the folder where it is left, and what the longest run took."""
    words, policy, script, wanted = inputs.made(at)
    room = tempfile.mkdtemp(prefix=f"input-{at}-", dir=place)
    write(room, [policy, script])
    answer, wrong, took = run_twice(asked.program, words, room, asked)
    if wrong is None and wanted is not None and not re.fullmatch(wanted, answer[2]):
        wrong = f"it said {answer[2][:200]!r} where {wanted!r} should be said"
    report = inputs.report_after(at, words, *answer[:2]) if wrong is None else None
    checked = None
    if report is not None:
        words = CHECK
        write(room, [policy, script, report])
        checked, wrong, longer = run_twice(asked.program, words, room, asked)
        wrong, took = wrong or check_fault(answer, report, checked), max(took, longer)
    if wrong is None:
        shutil.rmtree(room)
    return answer and answer[0], checked and checked[0], wrong and f"{wrong} (the words are {words})", room, took


def main():
    parser = TrialParser().add_draws(2000).add_limits(1.0).add_built()
    parser.add_argument("--megabytes", type=int, default=1024, help="how much memory a run may take")
    asked = parser.with_program()
    resource.setrlimit(resource.RLIMIT_CORE, (0, 0))
    inputs, place, begun = Inputs(asked.seed), tempfile.mkdtemp(prefix="fuzz-"), time.monotonic()
    statuses, checks, faults, longest = Counter(), Counter(), 0, 0.0
    with ThreadPoolExecutor(asked.jobs) as pool:
        for status, checked, wrong, room, took in pool.map(lambda at: tried(inputs, at, asked, place), range(asked.first, asked.first + asked.count)):
            statuses[status] += 1
            checks.update([] if checked is None else [checked])
            longest = max(longest, took)
            if wrong is not None:
                faults += 1
                print(f"fuzz: {room}: {wrong}", flush=True)
    whole = f"{time.monotonic() - begun:.0f} s, the longest run {longest:.2f} s"
    print(f"fuzz: {asked.count} inputs of seed {asked.seed} in {whole}: {statuses_told(statuses)}; {sum(checks.values())} reports checked: {statuses_told(checks)}; {faults} at fault")
    if faults == 0:
        shutil.rmtree(place)
    return faults > 0
