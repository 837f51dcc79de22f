"""The schedule of a script, and which worker serves which call."""
from __future__ import annotations

from typing import TYPE_CHECKING, List


if TYPE_CHECKING:
    from tools.commands.real_workloads.tasks import Task
WORKERS = 16


class Schedule:
    def __init__(self):
        self.turns, self.steps = [], 0
        self.serving = {}  # the workers by the tasks that they serve

    def take(self, who: str, count: int = 1) -> None:
        """Lets a task or a worker take steps."""
        self.steps += count
        if self.turns and self.turns[-1][0] == who:
            self.turns[-1][1] += count
        else:
            self.turns.append([who, count])

    def task(self, task: Task, count: int = 1) -> None:
        self.take(f"t {task.name}", count)

    @property
    def has_free_worker(self) -> bool:
        return len(self.serving) < WORKERS

    def receive(self, task: Task) -> None:
        """The first worker that is free receives what the task has asked for."""
        busy = set(self.serving.values())
        self.serving[task.name] = next(it for it in range(WORKERS) if it not in busy)
        self.serve(task, 1)

    def serve(self, task: Task, count: int) -> None:
        self.take(f"w {self.serving[task.name]}", count)

    def let_go(self, task: Task) -> None:
        del self.serving[task.name]

    def lines(self) -> List[str]:
        return ["schedule", *(who if count == 1 else f"{who} {count}" for who, count in self.turns), "end"]
