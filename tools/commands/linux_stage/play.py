"""Plays the events of a journal on the machine, one by one, and notes where it answers otherwise."""
from __future__ import annotations

import time
from collections import defaultdict
from typing import DefaultDict, List, NamedTuple, Optional, Tuple

from tools.commands.linux_stage import known, machine
from tools.commands.linux_stage.journal import Event
from tools.commands.linux_stage.machine import Stop
from tools.commands.linux_stage.scenes import Step
from tools.commands.linux_stage.task_events import TaskEvents
from tools.commands.linux_stage.worker_events import WorkerEvents


class Difference(NamedTuple):
    line: str  # of the journal
    what: str
    linux: str
    here: str
    name: str  # of the known difference, or empty


class Play:
    def __init__(self, stage, events, steps=()):
        self.stage, self.settings, self.events, self.steps = stage, stage.settings, events, steps
        self.places = self.index(events)
        self.differences, self.compared = [], 0
        self.entered = {}  # what each notification has to tell: number, arguments, PID
        self.doubt = ""  # why a difference may come of the comparison itself
        self.requests = []  # for descriptors, the oldest first
        self.of_tasks, self.of_workers = TaskEvents(self), WorkerEvents(self)

    def index(self, events: List[Event]) -> DefaultDict[Tuple[str, str], List[int]]:
        """The places of events by actor and kind, and those of signals by the number that they are sent to."""
        places = defaultdict(list)
        for event in events:
            places[event.actor, event.what].append(event.place)
            if event.what == "kill":
                places["kill", event.fields[0]].append(event.place)
        return places

    @property
    def step(self) -> Step:
        """The facts of the event."""
        return self.steps[self.event.place]

    def name(self, what: str, linux: str, here: str, is_orphan: bool) -> Optional[known.Known]:
        """The known difference that this one is, or None."""
        is_init = self.stage.as_init and self.event.actor == "t0"
        place = known.Place(self.stage.call_address, self.stage.as_init, is_init, is_orphan)
        return known.find(self.event.line, what, linux, here, self.step, place)

    def differs(self, what: str, linux: object, here: object, is_orphan: bool = False) -> None:
        found = self.name(what, str(linux), str(here), is_orphan)
        if found is None and self.doubt:
            raise Stop(self.doubt)
        name = found.name if found else ""
        again = name == "receive-without-tasks" and any(difference.name == name for difference in self.differences)
        if not again:
            self.differences.append(Difference(self.event.line, what, str(linux), str(here), name))
        if found is None or found.apart:
            raise Stop("")

    def same(self, what: str, linux: object, here: object, is_orphan: bool = False) -> bool:
        if str(linux) == str(here):
            return True
        self.differs(what, linux, here, is_orphan)
        return False

    def real_id(self, stated: int) -> int:
        """The machine's id of the notification that a script's kernel names so."""
        distance = (stated - self.settings.firstid) % 2**64
        return self.stage.first_id + distance & 2**64 - 1

    def play(self, end: float) -> None:
        """Plays the events, up to a time."""
        for self.event in self.events:
            if time.monotonic() > end:
                raise Stop("the machine lets nobody have the processor for longer")
            self.compared += 1
            actor = self.event.actor
            if actor == "-":
                self.begin()
            elif actor == "listener":
                self.end()
            elif actor[0] == "t":
                self.of_tasks.take(self.event)
            else:
                self.of_workers.take(self.event)

    def begin(self) -> None:
        try:
            task = self.stage.first_task()
        except machine.CannotMap as refused:
            self.differs("map", machine.error_name(refused.error), f"mapped up to {refused.end}")
        self.same("PID of the first task", f"pid={task.number}", self.event.fields[1])

    def end(self) -> None:
        """Calls that were allowed, and whose answer no event tells, are made: no filter may stop them."""
        for task in self.stage.tasks.values():
            if task.call_is_late and not task.is_dead():
                task.call_is_late = False
                state = self.of_tasks.enter(task, *task.call)
                self.same("verdict", "notify" if state == "notify" else "allow", "allow")
