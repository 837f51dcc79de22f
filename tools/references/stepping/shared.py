"""The report of a play, led again by workers of two brokers: the steps of one are counted, and what the others did is asked for."""
from __future__ import annotations

from typing import Iterator, Optional, Tuple

from tools.commands.container_tree import tokens
from tools.references.stepping.drawn_schedules import with_lines
from tools.references.stepping.replay import request_of
from tools.references.stepping.requests import MOST_WORKER


def with_two_workers(report):
    """The same report where each worker is two, which receive by turns: worker N is 2N and 2N + 1."""
    lines = report.split("\n")
    count, receives, seats = int(lines[0].split()[1]), {}, {}
    for at in range(1, count + 1):
        place, actor, words = lines[at].split(" ", 2)
        if actor[0] == "w":
            receives[actor] = receives.get(actor, -1) + words.startswith("recv id=")
            seats[place] = f"w{2 * int(actor[1:]) + max(receives[actor], 0) % 2}"
            lines[at] = f"{place} {seats[place]} {words}"
    title = lines.index(next(line for line in lines if line.startswith("audit ")))
    for at in range(title + 1, len(lines) - 2):
        place, _, rest = lines[at].split(" ", 2)
        lines[at] = f"{place} {seats[place]} {rest}"
    return "\n".join(lines)


def shared_again(front: bytes, report: str, planted: bytes) -> Iterator[Tuple[str, bytes]]:
    """Each worker of a report that has several, and the script in which this one's steps are counted, and the others are asked for. A skip of the others has no line."""
    count = int(report.split("\n", 1)[0].split()[1])
    events = [line.split(" ", 2)[1:] for line in report.split("\n")[2:count + 1]]
    workers = sorted({actor for actor, _ in events if actor[0] == "w"})
    if len(workers) < 2 or any(int(actor[1:]) > MOST_WORKER for actor in workers):
        return
    for own in workers:
        lines = [line for line in (line_of(actor, words, own, planted) for actor, words in events) if line]
        yield own, with_lines(front, lines)


def line_of(actor: str, words: str, own: str, planted: bytes) -> Optional[str]:
    """The line of an event: of a task or the own worker a step, and of another worker what it asked for; none of the close."""
    if actor[0] == "t" or actor == own:
        return f"{actor[0]} {actor[1:]}"
    return None if words == "skip" or actor == "listener" else request_of(actor, tokens(words), planted)
