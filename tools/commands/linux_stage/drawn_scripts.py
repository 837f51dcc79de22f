"""Policies and scripts that are drawn at random, by area, and what of it no drawn script may show.

The area, the seed and the number of a script tell it, so that it can be drawn again.
"""
from __future__ import annotations

import json
import random
from dataclasses import dataclass, field
from typing import Any, Callable, Dict, Iterator, List, Mapping, Tuple

from tools.commands.linux_stage.journal import Event
from tools.commands.real_workloads.script_text import quoted


@dataclass
class Draft:
    """A policy and a script in the making: settings, programs by name, and the lines of the schedule."""

    settings: list
    programs: list
    schedule: list
    rules: list = field(default_factory=list)
    config: dict = field(default_factory=dict)

    def policy(self) -> bytes:
        return json.dumps({"config": self.config, "rules": self.rules}).encode()

    def script(self) -> bytes:
        lines = [*self.settings]
        for name, body in self.programs:
            lines += [f"prog {name}", *body, "end"]
        return "\n".join([*lines, "schedule", *self.schedule, "end", ""]).encode()


def poke(address: int, text: bytes) -> str:
    return f"poke 0x{address:x} {quoted(text)}"


def rule(name: str, call: Any, then: Any, **more: Any) -> Dict[str, Any]:
    return dict(name=name, call=call, then=then, **more)


def served(rounds: int) -> List[str]:
    """A schedule in which one worker serves all calls, one after the other."""
    return [*["t 0 3", "w 0 40"] * rounds, "t 0 9"]


def steps(schedule: bytes) -> Iterator[str]:
    """The single steps of a schedule."""
    for line in schedule.decode().split("\n"):
        words = line.split()
        if words and words[0] != "end":
            yield from [" ".join(words[:2])] * (int(words[2]) if len(words) > 2 else 1)


def without_skips(script: bytes, events: List[Event], chance: random.Random) -> bytes:
    """The script with few of the steps that its journal says are skips: they change nothing, and there are many."""
    head, tail = script.split(b"\nschedule\n")
    scheduled = list(zip(steps(tail), events[1:]))
    last = max((at for at, (_, event) in enumerate(scheduled) if event.actor[0] == "t" and event.what != "skip"), default=0)
    kept = [step for at, (step, event) in enumerate(scheduled) if event.what != "skip" or at < last and chance.random() < 0.06]
    return head + b"\nschedule\n" + "\n".join([*kept, "end", ""]).encode()


def drawn(areas: Mapping[str, Callable[[random.Random, int], Draft]], area: str, seed: int, number: int) -> Tuple[Draft, random.Random]:
    """The draft of a script, and the chance that it was drawn with."""
    chance = random.Random(f"{area} {seed} {number}")
    return areas[area](chance, number), chance
