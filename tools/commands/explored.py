"""What a script can come to, by what `play` prints alone: the outcome of a report, and the histories within a bound of delays.

tools/references/reference-explore prints what is found here, tools/checks/compare-explorers compares it with what `explore` prints, and tools/checks/cases plays the
schedules that `explore` prints.
"""
from __future__ import annotations

import re
import subprocess
import tempfile
from pathlib import Path
from typing import Any, Dict, List, Optional, Set, Tuple, Union

from tools.commands.container_tree import fates

MOST_STEPS = 200_000
MOST_EVENTS = 100_000_000
# what a worker asks for; no other line of a script is like it
REQUEST = re.compile(rb"^[ \t]*w[ \t]+\S+[ \t]+[a-z]", re.M)


class NotPlayed(Exception):
    """A script isn't played; the text says why."""


class Broker:
    """The program, a policy and a script, whose own schedule isn't looked at."""

    def __init__(self, program: str, policy: Union[Path, str], script: Union[Path, str]) -> None:
        self.program, self.policy = program, policy
        self.script = without_schedule(Path(script).read_bytes())
        self.file = tempfile.NamedTemporaryFile(suffix=".txt")

    def report(self, lines: List[str]) -> Report:
        """The report of a schedule, given by its lines."""
        return Report(self.played(lines))

    def played(self, lines: List[str]) -> str:
        """The same as a text."""
        text = self.script + b"schedule\n" + "".join(f"{line}\n" for line in lines).encode() + b"end\n"
        Path(self.file.name).write_bytes(text)
        ended = subprocess.run([self.program, "play", self.policy, self.file.name], stdin=subprocess.DEVNULL, capture_output=True)
        if ended.returncode != 0:
            raise NotPlayed(ended.stderr.decode(errors="replace").strip() or f"status {ended.returncode}")
        return ended.stdout.decode("latin-1")


def has_requests(script: bytes) -> bool:
    """Whether a script's schedule says what the workers of another broker ask for."""
    return REQUEST.search(script) is not None


def without_schedule(script: bytes) -> bytes:
    """A script's bytes without its schedule: its lines from a bare word `schedule` to `end` are dropped."""
    kept, inside = [], False
    for line in script.splitlines(keepends=True):
        words = line.split()
        if words[:1] == [b"schedule"]:
            inside = True
        if not inside:
            kept.append(line if line.endswith(b"\n") else line + b"\n")
        if inside and words[:1] == [b"end"]:
            inside = False
    return b"".join(kept)


class Report:
    """The parts of a report: each event as actor and words, each call and each session as a line."""

    def __init__(self, text: str) -> None:
        lines = text.split("\n")
        self.events, at = self.part(lines, 0)
        self.calls, at = self.part(lines, at)
        self.audit, at = self.part(lines, at)

    @staticmethod
    def part(lines: Any, at: int) -> Any:
        count = int(lines[at].split()[1])
        return [tuple(line.split(" ", 2)[1:]) for line in lines[at + 1:at + 1 + count]] if lines[at].startswith("journal") else [
            (int(line.split(" ", 1)[0]), line.split(" ", 1)[1]) for line in lines[at + 1:at + 1 + count]
        ], at + 1 + count


def lines_of(path: List[str]) -> List[str]:
    """A line for each maximal run of an actor."""
    runs: List[List[Any]] = []
    for actor in path:
        if runs and runs[-1][0] == actor:
            runs[-1][1] += 1
        else:
            runs.append([actor, 1])
    return [f"{actor[0]} {actor[1:]} {count}" for actor, count in runs]


def tasks_of(events: List[Tuple[str, str]]) -> List[str]:
    """The tasks that got a number, in the order of their spawns."""
    return ["t" + words.split()[1] for _, words in events if words.startswith("spawn ") and "pid=" in words]


def workers_in_hand(events: List[Tuple[str, str]]) -> Set[str]:
    """The workers that have a notification in hand."""
    inside = set()
    for actor, words in events:
        if words.startswith("recv id="):
            inside.add(actor)
        elif words == "let-go":
            inside.discard(actor)
    return inside


class Explorer:
    """Walks all histories within a bound of delays, or all without one."""

    def __init__(self, broker: Broker, workers: int, bound: Optional[int]) -> None:
        self.broker, self.bound = broker, bound
        self.workers = [f"w{number}" for number in range(workers + 1)]
        self.found: List[Any] = []

    def circle(self, events: List[Tuple[str, str]], last: Optional[str]) -> List[str]:
        """The actors that may step, from the one that stepped last on: of the idle workers the lowest alone."""
        inside = workers_in_hand(events)
        idle = [worker for worker in self.workers if worker not in inside][:1]
        actors = tasks_of(events) + self.workers
        at = actors.index(last) if last in actors else 0
        return [actor for actor in actors[at:] + actors[:at] if actor[0] == "t" or actor in inside or actor in idle]

    def able(self, path: List[str], order: List[str], most: int) -> Tuple[List[Tuple[str, Any]], Any]:
        """The first actors of an order, this many at most, that are able to step after a path: each with its event. And a report of the path."""
        able: List[Tuple[str, Any]] = []
        report: Any = None
        while len(able) < most:
            report = self.broker.report(lines_of(path + order))
            steps = [step for step in zip(order, report.events[len(path) + 1:]) if step[1] != (step[0], "skip")]
            if not steps:
                break
            able.append(steps[0])
            order = order[order.index(steps[0][0]) + 1:]
        return able, report

    def goes_on(self, path: List[str], actor: str) -> List[Tuple[str, str]]:
        """The events by which an actor goes on after a path, until it can't step, or lets go of a notification; not all, if there are many."""
        gone = []
        for event in self.broker.report(lines_of(path + [actor] * 20)).events[len(path) + 1:-1]:
            if event == (actor, "skip"):
                break
            gone.append(event)
            if event[1] == "let-go":
                break
        return gone

    def walk(self) -> None:
        """Finds each history, as its delays, its path and its report."""
        pending: List[Tuple[List[int], List[str], List[Any]]] = [([], [], [("-", "spawn 0 pid=1 new")])]
        while pending:
            delays, path, events = pending.pop()
            left = None if self.bound is None else self.bound - sum(delays)
            gone = self.goes_on(path, path[-1]) if left == 0 and path and events[-1][1] != "let-go" else []
            if gone:
                pending.append((delays + [0] * len(gone), path + [path[-1]] * len(gone), events + gone))
                continue
            order = self.circle(events, path[-1] if path else None)
            able, report = self.able(path, order, len(order) if left is None else left + 1)
            if not able:
                # (the report has skips behind the path, and the close)
                report.events = events + [("listener", "close")]
                self.found.append((delays, path, report))
            for number, (actor, event) in enumerate(able):
                pending.append((delays + [number], path + [actor], events + [event]))

    def text(self) -> str:
        """What is printed of them."""
        self.walk()
        events = longest = 0
        outcomes: Dict[Any, Any] = {}
        explored, whole = 0, "yes" if self.bound is None else "bound"
        for _, path, report in sorted(self.found, key=lambda found: (sum(found[0]), found[0])):
            if events >= MOST_EVENTS:
                whole = "no"
                break
            explored += 1
            events += len(report.events)
            longest = max(longest, len(report.events))
            lines = tuple(outcome_of(report, self.broker.script))
            outcomes.setdefault(lines, [0, path])[0] += 1
        bounds = f"workers={len(self.workers) - 1} delays={'all' if self.bound is None else self.bound}"
        printed = [f"explored {bounds} histories={explored} events={events} longest={longest} outcomes={len(outcomes)} whole={whole}"]
        for number, (lines, (count, path)) in enumerate(outcomes.items(), 1):
            printed += [f"outcome {number} histories={count}", *(lines or ["none"])]
            printed += ["schedule too long"] if len(path) > MOST_STEPS else ["schedule", *lines_of(path), "end"]
        return "".join(line + "\n" for line in printed)


# ---- what comes of the calls of a history, by its report


def sessions_of(report: Report, script: bytes) -> Dict[int, Tuple[Any, ...]]:
    """Of each session, by the place of the call whose notification it received: its audit, and what it did, with what became of that."""
    entered: Dict[str, int] = {}
    open_sessions: Dict[str, Any] = {}
    sessions: Dict[int, Any] = {}
    fate = fates(script, report.events) if any(re.match("act (mount|setxattr) ", words) for _, words in report.events) else {}
    audited = {place: words for place, words in report.audit}
    for place, (actor, words) in enumerate(report.events):
        notified = re.search(r"^call .* notify id=(\d+)$", words)
        received = re.match(r"recv id=(\d+) ", words)
        if notified:
            entered[notified[1]] = place
        elif received:
            audit = re.search(r"(rule=\S+) (verdict=\S+) answer=\S+ (reply=\S+)$", audited[place])
            sessions[entered[received[1]]] = open_sessions[actor] = (" ".join(audit.groups() if audit else ()), [])
        elif actor in open_sessions and words.startswith("act "):
            open_sessions[actor][1].append(f" did {words[4:]}{fate.get(place, '')}")
        elif actor in open_sessions and words.startswith("plant "):
            open_sessions[actor][1].append(f" did {words}")
        elif words == "let-go":
            open_sessions.pop(actor, None)
    return sessions


def outcome_of(report: Report, script: bytes) -> List[str]:
    """The lines of an outcome: the tasks number by number, the calls of each in their order."""
    sessions, lines = sessions_of(report, script), []
    counts: Dict[str, int] = {}
    for place, words in report.calls:
        actor, _, call, outcome = words.split(" ")
        verdict = re.sub(r" id=\d+$", "", report.events[place][1]).split(" ")[-1]
        if call == "getpid" and re.fullmatch(r"[1-9]\d*", outcome):
            outcome = "pid"
        counts[actor] = counts.get(actor, 0) + 1
        audit, did = sessions.get(place, ("rule=- verdict=- reply=-", []))
        name = tuple(int(number) for number in actor[1:].split("."))
        lines.append((name, counts[actor], [f"{actor} {counts[actor]} {call} {verdict} {outcome} {audit}", *did]))
    return [line for _, _, block in sorted(lines, key=lambda one: one[:2]) for line in block]


def faults_in(broker: Broker, output: str) -> List[Any]:
    """What is wrong with the outcomes of an output of `explore`, given as a text: each schedule is played."""
    faults: List[str] = []
    block: Optional[List[str]] = None
    schedule: Optional[List[str]] = None
    for line in output.split("\n"):
        if line.startswith("outcome "):
            name, block = line, []
        elif line == "schedule":
            schedule = []
        elif line == "end" and schedule is not None:
            if (outcome_of(broker.report(schedule), broker.script) or ["none"]) != block:
                faults.append(f"{name}: its schedule plays another outcome")
            schedule = None
        elif schedule is not None:
            schedule.append(line)
        elif block is not None:
            block.append(line)
    return faults
