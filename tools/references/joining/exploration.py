"""All histories of a script, level by level: of those of one length that have the same key one goes on for all."""
from __future__ import annotations

from typing import Any, List, Tuple

from tools.commands.explored import MOST_STEPS, lines_of
from tools.references.joining.keys import FIELDS, fields_without, key_of
from tools.references.joining.walked import Walked


class TooMany(Exception):
    """More states were met than are allowed."""


class State:
    """Histories of one length that are joined: their counts by delays, and where the first of them comes from."""

    __slots__ = ("kernel", "counts", "first", "rank")

    def __init__(self, kernel):
        self.kernel, self.counts, self.first, self.rank = kernel, {}, None, 0

    def join(self, counts, delays, limit, first):
        """Adds histories that come from a state by so many delays more. `first` is the fewest delays, the rank of where it comes from, and the choice."""
        for before, count in counts.items():
            total = None if before is None else before + delays
            if total is None or total <= limit:
                self.counts[total] = self.counts.get(total, 0) + count
        if self.first is None or first[:3] < self.first[:3]:
            self.first = first


class Exploration:
    """Without `joins` each history goes on by itself. `watched` are fields of which is noted, in `telling`, whether states were joined without them that differ in nothing else."""

    def __init__(self, rules, container, workers, bound, dropped=(), split_by_delays=False, most=None, watched=(), joins=True):
        self.rules, self.container, self.workers, self.bound, self.most, self.joins = rules, container, workers, bound, most, joins
        self.fields, self.split = fields_without(*dropped), split_by_delays and bound is not None
        self.watched, self.telling = [(name, list(FIELDS).index(name)) for name in watched], set()
        # of each level, by the rank, the parent's rank, the choice and the actor
        self.levels = []
        self.outcomes = {}
        self.states = self.steps = self.histories = self.events = self.longest = self.widest = 0

    def walk(self):
        begin = State(Walked(self.rules, self.container))
        begin.counts, begin.first = {None if self.bound is None else 0: 1}, (0, 0, 0, None)
        level = [begin]
        while level:
            self.states += len(level)
            self.widest = max(self.widest, len(level))
            if self.most is not None and self.states > self.most:
                raise TooMany
            self.levels.append([state.first[1:] for state in level])
            level = self.following(level)
        return self

    def following(self, level):
        """The states of the next level, by the ranks of their first histories."""
        found = {}
        for state in level:
            turns = state.kernel.turns(self.workers)
            if not turns:
                self.end(state)
            for delays, actor in enumerate(turns):
                fewest = state.first[0] + delays
                if self.bound is not None and fewest > self.bound:
                    break
                self.steps += 1
                kernel = state.kernel if delays == len(turns) - 1 else state.kernel.copied()
                kernel.go(actor)
                key = key_of(kernel, self.fields) if self.joins else self.steps
                if self.split:
                    key = (key, fewest)
                if key not in found:
                    found[key] = State(kernel)
                found[key].join(state.counts, delays, self.bound, (fewest, state.rank, delays, actor))
        for name, at in self.watched:
            if name not in self.telling and len({hash((key[:at], key[at + 1:])) for key in found}) < len(found):
                self.telling.add(name)
        following = sorted(found.values(), key=lambda state: state.first[1:3])
        for rank, state in enumerate(following):
            state.rank = rank
        return following

    def end(self, state: Any) -> None:
        count, length = sum(state.counts.values()), state.kernel.length + 1
        self.histories += count
        self.events += count * length
        self.longest = max(self.longest, length)
        lines, place = state.kernel.outcome_lines(), (len(self.levels) - 1, state.rank)
        if lines not in self.outcomes:
            self.outcomes[lines] = [count, state.first[0], place]
            return
        known = self.outcomes[lines]
        known[0] += count
        if state.first[0] < known[1] or (state.first[0] == known[1] and self.choices(place) < self.choices(known[2])):
            known[1:] = [state.first[0], place]

    def way(self, place: Tuple[int, ...]) -> List[Tuple[int, str]]:
        """The choices and the actors that lead to a state first."""
        level, rank = place
        found = []
        while level:
            rank, choice, actor = self.levels[level][rank]
            found.append((choice, actor))
            level -= 1
        return found[::-1]

    def choices(self, place: Tuple[int, ...]) -> List[int]:
        return [choice for choice, _ in self.way(place)]

    def text(self) -> str:
        whole = "yes" if self.bound is None else "bound"
        bounds = f"workers={self.workers} delays={'all' if self.bound is None else self.bound}"
        printed = [f"explored {bounds} histories={self.histories} events={self.events} longest={self.longest} outcomes={len(self.outcomes)} whole={whole}"]
        ordered = sorted(self.outcomes.items(), key=lambda item: (item[1][1], self.choices(item[1][2])))
        for number, (lines, (count, _, place)) in enumerate(ordered, 1):
            path = [actor for _, actor in self.way(place)]
            printed += [f"outcome {number} histories={count}", *(lines or ["none"])]
            printed += ["schedule too long"] if len(path) > MOST_STEPS else ["schedule", *lines_of(path), "end"]
        return "".join(line + "\n" for line in printed)
