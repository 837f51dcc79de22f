"""Schedules that are drawn at random, in which some workers are this project's own and others another broker's."""
from __future__ import annotations

import random
from typing import Any, List

from tools.references.stepping.drawn import SEATS, Chooser
from tools.references.stepping.servers import Servers

LONGEST = 120


class Scheduler(Chooser):
    """Draws the lines of a schedule, each by what the kernel is like at that moment."""

    def __init__(self, session, chance):
        super().__init__(session, chance)
        self.servers = Servers(session.rules, session.kernel)
        self.own = chance.sample(range(SEATS), chance.choice((1, 1, 2, 2, 2, 3, 3, SEATS)))
        self.others = [seat for seat in range(SEATS) if seat not in self.own]
        self.lines = []

    def ask(self, request: str) -> None:
        super().ask(request)
        self.lines.append(request)

    def draw_lines(self) -> List[str]:
        for _ in range(self.chance.randrange(20, LONGEST)):
            self.one_line()
            if self.is_over() and self.chance.random() < 0.3:
                break
        return self.lines

    def one_line(self) -> None:
        kind = self.chance.random()
        if kind < (0.45 if self.kernel.able() else 0.05):
            self.steps_of_task()
        elif kind < 0.75 or not self.others:
            self.serve(self.chance.choice(self.own))
        else:
            self.of_worker(self.chance.choice([seat for seat in self.others if seat in self.notifs] * 3 + self.others))

    def steps_of_task(self) -> None:
        name, count = self.task(), self.chance.choice((1, 1, 2, 3))
        task = self.kernel.tasks.get(tuple(map(int, name.split("."))))
        for _ in range(count if task else 0):
            self.kernel.step(task)
            self.session.judge.hear()
        self.lines.append(f"t {name} {count}")

    def serve(self, seat: int) -> None:
        """Lets a worker of this project step."""
        count = self.chance.choice((1, 1, 1, 2, 3, 9))
        for _ in range(count):
            self.servers.step(seat)
            self.session.judge.hear()
        self.lines.append(f"w {seat} {count}")


def scheduled(files: Any, seed: str) -> bytes:
    """A script of files with a schedule that is drawn."""
    session = files.session()
    return with_lines(session.kernel.container.front, Scheduler(session, random.Random(seed)).draw_lines())


def with_lines(front: bytes, lines: List[str]) -> bytes:
    return front + b"schedule\n" + "".join(f"{line}\n" for line in lines).encode("latin-1") + b"end\n"
