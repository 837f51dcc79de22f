"""What a worker does for one notification, and what is known of the call that it is about."""
from __future__ import annotations

from dataclasses import dataclass
from typing import Optional, Tuple

from tools.references.judging.copies import Copy, Quality, Reads
from tools.references.stepping.facts import SEND, Fail
from tools.references.stepping.kernel import EMFILE, ENOENT, Call
from tools.references.stepping.kernel import Request as DescriptorRequest
from tools.references.stepping.trees import EBADF


@dataclass(eq=False)
class Effect:
    """An effect: the texts for which it may have been done, one or more, and what came of it."""

    place: int
    kind: str
    call: Call
    all_texts: tuple
    answer: Optional[Fail]
    # of a request for a descriptor: what the kernel keeps of it, and its flags
    request: Optional[DescriptorRequest] = None
    request_flags: int = 0
    # where a call was answered with its outcome
    used_at: Optional[int] = None

    @property
    def outcome(self):
        """The number or the error that the call returns of it; None where that isn't known yet."""
        if self.answer is not None:
            return self.answer
        if self.kind != "addfd-put":
            return 0
        if self.request.answer is None and not self.request.call.is_listed:
            return Fail(ENOENT)
        return self.request.answer

    @property
    def has_failed(self):
        return isinstance(self.outcome, Fail)

    @property
    def has_succeeded(self) -> bool:
        return self.outcome is not None and not isinstance(self.outcome, Fail)

    def allows_error(self, number):
        """Whether an error tells what came of it. A table without room is EMFILE to openat(2), whatever the installation answers."""
        outcome = self.outcome
        if not isinstance(outcome, Fail):
            return False
        return number == outcome.number or (self.kind == "addfd-put" and self.answer is None and number == EMFILE)

    @property
    def has_answered(self) -> bool:
        """Whether it is an answer, too: a descriptor that is its call's result. One that can't be put in answers nothing."""
        if self.kind != "addfd-put" or not self.request_flags & SEND:
            return False
        outcome = self.outcome
        return not (isinstance(outcome, Fail) and outcome.number in (EBADF, EMFILE))


@dataclass(eq=False)
class Entry:
    """Where a call was entered, as which one of its task's own, and by which step it left the listener's list."""

    place: int
    ordinal: int
    # the first call of its task that was entered anew up to this one
    first: int = 0
    left_at: Optional[int] = None


@dataclass(eq=False)
class Serving:
    """What a worker does for a notification, from the receive on."""

    worker: int
    place: int
    call: Call
    entry: Entry
    reads: Reads
    effect: Optional[Effect] = None
    answered_at: Optional[int] = None
    # the good check behind the opening of the memory that it has
    checked_at: Optional[int] = None
    # how far the directory that it has opened for this call can be relied on, and where it was opened
    base: Quality = Quality.NONE
    base_opened_at: Optional[int] = None
    # where the call's descriptor led to no directory, and the worker was told so
    base_refused_at: Optional[int] = None

    @property
    def was_answered(self) -> bool:
        """Whether an answer to the call was tried."""
        return self.answered_at is not None or (self.effect is not None and self.effect.has_answered)

    def valid_copies(self) -> Tuple[Copy, Copy]:
        """The copies of the arguments that a good check follows."""
        return self.reads.copies(Quality.CHECKED)
