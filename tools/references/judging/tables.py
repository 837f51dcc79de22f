"""The descriptors of each group of tasks, as they were at each place of a history."""
from __future__ import annotations

from bisect import bisect_right
from typing import TYPE_CHECKING

from tools.references.stepping.facts import AT_FDCWD

if TYPE_CHECKING:
    from tools.references.stepping.memory import Group


class Tables:
    def __init__(self, kernel):
        self.kernel = kernel
        self.places, self.slots = {}, {}
        self.note(0, next(iter(kernel.tasks.values())).group)

    def note(self, place: int, group: Group) -> None:
        """Keeps what a group has open behind the event at a place, where that is new."""
        known = self.slots.setdefault(group, [])
        if not known or known[-1] != group.slots:
            known.append(dict(group.slots))
            self.places.setdefault(group, []).append(place)

    def slot(self, group, number, place):
        """What a number led to behind the event at a place; None where nothing was open, or the group wasn't there yet."""
        at = bisect_right(self.places.get(group, []), place) - 1
        return self.slots[group][at].get(number) if at >= 0 else None

    def directory(self, group: Group, dirfd: int, place: int) -> int:
        """The directory that a descriptor led to, as a node of the tree, or None."""
        if dirfd == AT_FDCWD:
            return self.kernel.container.root
        slot = self.slot(group, dirfd, place)
        return slot[1] if slot and slot[0] == "node" and self.kernel.tree.is_directory(slot[1]) else None
