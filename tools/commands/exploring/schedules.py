"""Orders of steps: where a turn is passed on although its owner could step (docs/EXPLORE.md, Choose a bound).

A choice is there wherever more than one actor is able to step. Choices are counted from 0; a schedule has the delays at those where there are some, and there are none at the others.
"""
from typing import NamedTuple, Optional, Tuple


class Delay(NamedTuple):
    """So many able actors are passed over at a choice."""

    choice: int
    count: int  # type: ignore[assignment]  # (a tuple has a method of this name)


class Planned(NamedTuple):
    """A schedule that is to be run, and what the run has to have been like up to its last delay, by its digest."""

    delays: Tuple[Delay, ...] = ()
    wanted: Optional[bytes] = None

    @property
    def total(self):
        return sum(delay.count for delay in self.delays)

    def order(self):
        """The key by which schedules with equally many delays are ordered: at the first choice where two differ, fewer delays come first."""
        return [(-delay.choice, delay.count) for delay in self.delays]


def first_difference(delays, others):
    """The first choice at which two schedules differ; None where they are the same."""
    differing = [delay.choice for delay in set(delays) ^ set(others)]
    return min(differing, default=None)


class Choice(NamedTuple):
    """A choice of a run: how many actors were able, and the digest of all that had happened."""

    able: int
    digest: bytes


def followers(planned, choices, most):
    """The schedules that have one delay more than a run, behind its last one, with at most so many delays in all."""
    begin, left = planned.delays[-1].choice + 1 if planned.delays else 0, most - planned.total
    for at in range(begin, len(choices)):
        for count in range(1, min(choices[at].able - 1, left) + 1):
            yield Planned((*planned.delays, Delay(at, count)), choices[at].digest)


# schedules with fewer delayed choices are run in every share, since those of all shares begin with them
DEALT = 2


def is_run_in(planned, share, most):
    """Whether a schedule is run in a share of those with at most so many delays."""
    if len(planned.delays) < DEALT and planned.total < most:
        return True
    return share.takes(sum(delay.choice + delay.count for delay in planned.delays[:DEALT]))
