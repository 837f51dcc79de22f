"""What a broker may not do: the clauses, in the order in which they are asked (docs/reference/CLAUSES.md)."""
from __future__ import annotations

from enum import Enum
from typing import NamedTuple


class Gravity(Enum):
    """How grave it is that a clause is broken."""

    # something was done that the policy doesn't grant
    HARM = "harm"
    # the caller was told what isn't so, or nothing
    ANSWER = "answer"
    # nothing wrong came of it in this history, but it can
    ORDER = "order"


class Clause(NamedTuple):
    """A clause: its name, and what it means that it is broken."""

    name: str
    gravity: Gravity
    broken: str

    def gravity_of(self, has_failed, later=()):
        """How grave it is that an event breaks it: what breaks the order alone is as grave as the clauses that the event breaks besides, and an effect that failed harms nobody."""
        gravity = next((it.gravity for it in later), self.gravity) if self.gravity == Gravity.ORDER else self.gravity
        return Gravity.ORDER if has_failed and gravity == Gravity.HARM else gravity


def harm(name: str, broken: str) -> Clause:
    return Clause(name, Gravity.HARM, broken)


def answer(name: str, broken: str) -> Clause:
    return Clause(name, Gravity.ANSWER, broken)


# ---- of an effect: an act, a plant, a request for a descriptor

EFFECT_WITHOUT_CALL = harm("no-call", "the worker has no notification in hand")
OTHER_REQUEST = harm("other-request", "the numbers of the effect aren't those of the call")
UNREAD = harm("unread", "a byte of its texts was never read for this call")
OTHER_MEMORY = harm("other-memory", "the memory that was open isn't the caller's")
STALE_COPY = harm("stale-copy", "a text was read when the call was no longer listed")
UNCHECKED = Clause("unchecked", Gravity.ORDER, "no good check follows what it rests on")
TORN = harm("torn", "a text of it never stood so in the caller's memory")
OTHER_BASE = harm("other-base", "its path goes from another directory than the caller's")
UNGRANTED = harm("ungranted", "the policy doesn't grant just this for just these texts")
SPENT = harm("spent", "the rule's times were spent")
AGAIN = harm("again", "there was an effect for this call already")
AFTER_ANSWER = harm("after-answer", "the call was answered already")

# ---- of an answer

ANSWER_WITHOUT_CALL = answer("no-call", "the worker has no notification in hand")
OTHER_ANSWER = harm("other-answer", "its id isn't that of the call in hand")
UNCAUSED = answer("uncaused", "it rests on no whole copy that was found valid")
DENIED_OTHERWISE = answer("denied-otherwise", "the policy doesn't say this error")
PASSED_OTHERWISE = answer("passed-otherwise", "the policy doesn't pass this call")
GRANTED_NOT_DONE = answer("granted-not-done", "it reports a success that there wasn't")
OTHER_OUTCOME = answer("other-outcome", "the effect had another result")
ANSWERED_ALREADY = answer("answered-already", "it is the second answer to this call")

# ---- of a call

UNANSWERED = answer("unanswered", "the call waits, and nothing more is done for it")

CLAUSES = (
    EFFECT_WITHOUT_CALL, OTHER_REQUEST, UNREAD, OTHER_MEMORY, STALE_COPY, UNCHECKED, TORN, OTHER_BASE, UNGRANTED, SPENT, AGAIN, AFTER_ANSWER,
    ANSWER_WITHOUT_CALL, OTHER_ANSWER, UNCAUSED, DENIED_OTHERWISE, PASSED_OTHERWISE, GRANTED_NOT_DONE, OTHER_OUTCOME, ANSWERED_ALREADY,
    UNANSWERED,
)
