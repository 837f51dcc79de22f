"""Damages reports at random, and compares what audit-check says of each with a slow reading of its own.

    tools/checks/damaged-reports [--reports N] [--damages N] [--seed N] [--program PATH]

The reports are those of the examples, of the cases, and of their scripts with random schedules. A damage changes a byte or a digit; drops,
doubles, moves or swaps lines; takes the summary of another report; or exchanges two lines of different actors, which may give another
legal history.

The slow reading knows one fact about reports: a legal history is the one that its actors' turns give. It plays the turns that the lines of
the journal name, and compares line by line. It leaves open what `play` can't play: a turn of worker 16, or a history without its end.
"""
from __future__ import annotations

import os
import random
import re
import subprocess
import tempfile
from collections import Counter
from random import Random
from typing import Any, Callable, Iterator, List, Optional, Tuple, Union

from tools.checks.tallies import TrialParser
from tools.commands.command_line.top import TOP

SCHEDULE = re.compile(r"^[ \t]*schedule[ \t]*(#.*)?\n.*?^[ \t]*end[ \t]*(#.*)?\n?", re.M | re.S)
TASK = re.compile(rb"t0(\.[1-9][0-9]{0,9}){0,63}")
OPEN = "open"


def without_schedule(script: str) -> str:
    """The script without its schedule, which audit-check ignores."""
    return SCHEDULE.sub("", script)


class Bench:
    def __init__(self, program: str, room: str) -> None:
        self.program, self.room = program, room

    def run(self, *words: str) -> Any:
        ended = subprocess.run([self.program, *words], cwd=self.room, stdin=subprocess.DEVNULL, capture_output=True, timeout=120)
        return ended.returncode, ended.stdout, ended.stderr

    def play(self, policy: bytes, script: str) -> Tuple[int, bytes, bytes]:
        self.write("policy", policy)
        self.write("script", script)
        return self.run("play", "policy", "script")

    def check(self, policy: bytes, script: str, report: bytes) -> Tuple[int, bytes, bytes]:
        self.write("policy", policy)
        self.write("script", script)
        self.write("report", report)
        return self.run("audit-check", "policy", "script", "report")

    def write(self, name: str, text: Union[bytes, str]) -> None:
        with open(f"{self.room}/{name}", "wb") as it:
            it.write(text if isinstance(text, bytes) else text.encode())


def turn_of(line: bytes, place: int) -> Optional[str]:
    """The schedule's line for the turn that a line of the journal tells: None where it names nobody, OPEN where play can't play it."""
    parts = line.split(b" ")
    if len(parts) < 3 or parts[0] != str(place).encode():
        return None
    who = parts[1]
    if TASK.fullmatch(who):
        numbers = who[1:].split(b".")
        return f"t {who[1:].decode()} 1" if all(int(it) < 2 ** 32 for it in numbers) else None
    if re.fullmatch(rb"w(0|[1-9][0-9]?)", who):
        worker = int(who[1:])
        return OPEN if worker == 16 else f"w {worker} 1" if worker < 16 else None
    return None


def first_difference(ours: List[bytes], theirs: List[bytes]) -> int:
    """The first line, from 1, at which theirs isn't ours; one more than the lines of theirs where it is a beginning of ours."""
    for number, (one, other) in enumerate(zip(ours, theirs), 1):
        if one != other:
            return number
    return min(len(ours), len(theirs)) + 1


def slow(bench: Any, policy: bytes, script: str, report: bytes) -> Any:
    """What a reading says that plays the turns of the journal: ("yes", events), ("no", line), or OPEN."""
    lines = report.split(b"\n")
    last, lines = lines[-1], lines[:-1]
    # (a last piece without its newline begins no report)
    found = lines + ([last + b"?"] if last else [])
    if not lines:
        return "no", 1
    head = re.fullmatch(rb"journal ([1-9][0-9]*)", lines[0])
    if head is None:
        return "no", 1
    events, turns, closed = int(head.group(1)), [], False
    for place in range(1, events):
        line = found[place + 1] if place + 1 < len(found) else None
        if line is not None and line == f"{place} listener close".encode():
            # (nothing comes behind the close)
            closed = place == events - 1
            break
        turn = line is not None and turn_of(line, place)
        if turn == OPEN:
            return OPEN
        if not turn:
            break
        turns.append(turn)
    status, out, err = bench.play(policy, without_schedule(script) + "schedule\n" + "".join(f"{it}\n" for it in turns) + "end\n")
    if status != 0:
        raise RuntimeError(f"the play of a report's turns ends with {status}: {err!r}")
    ours = out.split(b"\n")[:-1]
    if closed:
        where = first_difference(ours, found)
        return ("yes", events) if found == ours else ("no", where)
    # the journal without its close
    told = ours[1:1 + len(turns) + 1]
    where = first_difference(told, found[1:]) + 1
    if where <= len(told) + 1 or len(told) < events:
        # (a line that names nobody is none, and so is a close that isn't the last)
        return "no", where
    # a history that isn't closed, whose play isn't there: its calls come next, as many as there are so far
    calls = sum(1 for it in told if re.match(rb"\d+ t\S+ call ", it))
    if len(found) <= events + 1 or found[events + 1] != f"calls {calls}".encode():
        return "no", events + 2
    return OPEN


def digits(rng: Random, report: bytes) -> bytes:
    places = [at for at, it in enumerate(report) if chr(it).isdigit()]
    at = rng.choice(places)
    return report[:at] + str(rng.randrange(10)).encode() + report[at + 1:]


def a_byte(rng, report):
    at = rng.randrange(len(report))
    return rng.choice([
        report[:at] + bytes([rng.randrange(256)]) + report[at + 1:],
        report[:at] + report[at + 1:],
        report[:at] + bytes([rng.choice(b'0123456789 \n"tw.-=')]) + report[at:],
    ])


def of_lines(change: Callable[..., Any]) -> Callable[..., Any]:
    def damage(rng: Random, report: bytes) -> bytes:
        lines = report.split(b"\n")[:-1]
        change(rng, lines)
        return b"".join(it + b"\n" for it in lines)
    return damage


def drop(rng: Random, lines: List[bytes]) -> None:
    del lines[rng.randrange(len(lines))]


def double(rng, lines):
    at = rng.randrange(len(lines))
    lines.insert(at, lines[at])


def swap(rng, lines):
    at = rng.randrange(len(lines) - 1)
    lines[at], lines[at + 1] = lines[at + 1], lines[at]


def move(rng, lines):
    line = lines.pop(rng.randrange(len(lines)))
    lines.insert(rng.randrange(len(lines) + 1), line)


def a_count(rng: Random, lines: List[bytes]) -> None:
    head = lines[0].split(b" ")
    lines[0] = b"journal %d" % max(0, int(head[1]) + rng.choice([-2, -1, 1, 2, 1000]))


def the_summary(rng, lines):
    lines[-1] = re.sub(rb"(\w+)=(\d+)", lambda it: it.group(1) + b"=" + str(int(it.group(2)) + rng.choice([0, 0, 1])).encode(), lines[-1])


def exchange(rng: Random, lines: List[bytes]) -> None:
    """Two lines of the journal that follow one another, by different actors, with their places exchanged."""
    events = int(lines[0].split(b" ")[1])
    places = [at for at in range(2, min(events, len(lines) - 1)) if lines[at].split(b" ")[1] != lines[at + 1].split(b" ")[1]]
    if places:
        at = rng.choice(places)
        (one, first), (other, second) = [lines[it].split(b" ", 1) for it in (at, at + 1)]
        lines[at], lines[at + 1] = one + b" " + second, other + b" " + first


def cut(rng: Random, report: bytes) -> bytes:
    return report[:rng.randrange(len(report))]


def more(rng, report):
    return report + rng.choice([b"0", b"\n", b"0\n", report])


DAMAGES = [lambda rng, it: it, a_byte, a_byte, digits, digits, cut, more] + [of_lines(it) for it in (drop, double, swap, swap, move, a_count, the_summary, exchange, exchange)]


def inputs() -> Iterator[Tuple[bytes, str]]:
    """The policies and scripts of the examples and the cases."""
    for folder, _, files in sorted([*os.walk(f"{TOP}/examples"), *os.walk(f"{TOP}/cases")]):
        if {"policy.json", "script.txt"} <= set(files):
            with open(f"{folder}/policy.json", "rb") as policy, open(f"{folder}/script.txt", encoding="latin-1") as script:
                yield policy.read(), script.read()


def some_schedule(rng: Random, script: str) -> str:
    """A schedule at random, of the script's own turns."""
    found = SCHEDULE.search(script)
    turns = [it.split("#")[0].strip() for it in found.group(0).split("\n")[1:-1]] if found else []
    turns = [" ".join(it.split()[:2]) for it in turns if len(it.split()) == 3] or ["t 0"]
    return "schedule\n" + "".join(f"{rng.choice(turns)} {rng.randint(1, 4)}\n" for _ in range(rng.randint(3, 40))) + "end\n"


def main():
    parser = TrialParser().add_seed().add_built()
    parser.add_argument("--reports", type=int, default=300)
    parser.add_argument("--damages", type=int, default=20)
    given = parser.with_program()
    rng = random.Random(given.seed)
    known, told, at_fault, reports = list(inputs()), Counter(), 0, 0
    with tempfile.TemporaryDirectory() as room:
        bench = Bench(given.program, room)
        for _ in range(20 * given.reports):
            if reports == given.reports:
                break
            policy, script = rng.choice(known)
            if rng.random() < 0.6:
                script = without_schedule(script) + some_schedule(rng, script)
            status, report, _ = bench.play(policy, script)
            if status != 0 or len(report) > 100_000:
                continue
            reports += 1
            for _ in range(given.damages):
                damaged = rng.choice(DAMAGES)(rng, report)
                want = slow(bench, policy, script, damaged)
                status, out, err = bench.check(policy, script, damaged)
                yes = re.match(rb"yes events=(\d+) finished=(yes|no)\n", out)
                no = re.fullmatch(rb"report: line (\d+)\n", err)
                got = ("yes", int(yes.group(1))) if status == 0 and yes and not err else ("no", int(no.group(1))) if status == 9 and no and not out else ("ended", status)
                told["open" if want == OPEN else want[0]] += 1
                if got[0] == "ended" or want not in (OPEN, got):
                    at_fault += 1
                    print(f"at fault: {want} was expected, {got} was said")
                    for name, text in (("policy", policy), ("script", script.encode()), ("report", damaged)):
                        with open(f"damaged-{at_fault}-{name}", "wb") as it:
                            it.write(text)
    print(f"damaged-reports: {reports} reports of seed {given.seed}, {sum(told.values())} damaged ones: {told['yes']} are reports, {told['no']} are none, {told['open']} left open; {at_fault} at fault")
    return at_fault != 0
