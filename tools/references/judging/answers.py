"""The clauses of an answer that is sent. Each test gives None where its clause is kept, and else why it is broken."""
from __future__ import annotations

from dataclasses import dataclass
from functools import cached_property
from typing import Any, Optional

from tools.references.judging import clauses, decisions
from tools.references.judging.faults import Reason
from tools.references.judging.servings import Effect, Serving
from tools.references.stepping.facts import CONTINUE, Fail, error_text
from tools.references.stepping.trees import EBADF

EDQUOT = 122


@dataclass
class TriedAnswer:
    """An answer: to which id, what the call is to return, and what the kernel said."""

    place: int
    serving: Optional[Serving]
    id: int
    back: object
    answer: Optional[Fail]
    judge: Any
    # an answer is no effect
    has_failed = False

    @property
    def call(self):
        return self.serving.call

    @property
    def effect(self) -> Optional[Effect]:
        return None if self.serving is None else self.serving.effect

    @property
    def is_value(self) -> bool:
        return self.back != CONTINUE and not isinstance(self.back, Fail)

    @cached_property
    def copies(self):
        return self.serving.valid_copies()

    @cached_property
    def known(self):
        """Those that are whole, or have a fault. An answer that is right for one of them is right."""
        return [copy for copy in self.copies if copy.is_known]

    @cached_property
    def by_registers(self):
        return decisions.rule_by_registers(self.judge.rules, self.call)

    def rule_for(self, copy):
        """The rule that decides by a copy; by registers where it has a fault, or is None. None where neither tells."""
        return self.by_registers if copy is None or copy.texts is None else self.judge.rule_for(self.call, copy.texts)

    @cached_property
    def remembered(self) -> Optional[Effect]:
        """An effect of an earlier call, entered anew, whose result nobody was told."""
        return self.judge.unused_effect(self.call, self.copies)


def no_call(tried):
    return [] if tried.serving is None else None


def other_answer(tried):
    return [Reason(f"the call in hand has the id {tried.call.id}", tried.serving.place)] if tried.id != tried.call.id else None


def is_told(test):
    """A clause of what the caller is told: what the kernel refuses is told to nobody."""
    return lambda tried: None if tried.answer is not None else test(tried)


@is_told
def uncaused(tried):
    if tried.effect is not None or tried.known or tried.by_registers is not None:
        return None
    reads, newest = tried.serving.reads, tried.copies[0]
    name = decisions.names_of_texts(tried.call.number)[newest.missing_part]
    last = [Reason("the last good check of this call", reads.checks[-1])] if reads.checks else [Reason("no good check of this call since here", tried.serving.place)]
    return [Reason(f"byte {newest.missing_byte} of the {name} is missing"), *last]


def said_by(tried, copy):
    """What the policy says of a copy, or by registers, in words."""
    rule = tried.rule_for(copy)
    if copy is not None and copy.fault is not None and (rule is None or rule.verdict in ("grant", "inject")):
        return f"the copy has the fault {error_text(copy.fault)}"
    return f"rule {rule.name} says {rule.verdict}" + (f" {error_text(rule.error)}" if rule.verdict == "deny" else "")


def says(tried):
    """What the policy says of each copy that is known, or by registers where none is."""
    return [Reason(text) for text in dict.fromkeys(said_by(tried, copy) for copy in tried.known or [None])]


def is_base_error(tried, copy):
    """Whether a relative path was refused since the call's descriptor leads to no directory."""
    if tried.back.number != EBADF or tried.serving.base_refused_at is None or copy is None or copy.texts is None:
        return False
    paths = [text for name, text in zip(decisions.names_of_texts(tried.call.number), copy.texts) if name in ("path", "target")]
    return not any(path.startswith(b"/") for path in paths)


def leads_to_error(tried, copy):
    """Whether an error without an effect is the fault of a copy, or what the policy says of it; by registers where it is None."""
    number, rule = tried.back.number, tried.rule_for(copy)
    if copy is not None and number == copy.fault:
        return True
    if rule is None:
        return False
    if rule.verdict == "deny":
        return number == rule.error
    return rule.verdict == "grant" and (number == EDQUOT and tried.judge.is_spent(rule) or is_base_error(tried, copy))


def leads_to_pass(tried, copy):
    rule = tried.rule_for(copy)
    return rule is not None and rule.verdict == "pass"


@is_told
def denied_otherwise(tried):
    if tried.effect is not None or not isinstance(tried.back, Fail) or any(leads_to_error(tried, copy) for copy in tried.known or [None]):
        return None
    return says(tried)


@is_told
def passed_otherwise(tried):
    if tried.back != CONTINUE:
        return None
    if tried.effect is not None:
        return [Reason("this was done for the call", tried.effect.place)]
    return None if any(leads_to_pass(tried, copy) for copy in tried.known or [None]) else says(tried)


@is_told
def granted_not_done(tried):
    if not tried.is_value or (tried.effect is not None and tried.effect.has_succeeded) or tried.remembered is not None:
        return None
    if tried.effect is not None:
        return [Reason("this has not succeeded", tried.effect.place)]
    return [Reason("there was no effect since here", tried.serving.place)]


@is_told
def other_outcome(tried):
    effect = tried.effect
    if tried.is_value:
        source = effect if effect is not None and effect.has_succeeded else tried.remembered
        return None if source.outcome == tried.back else [Reason(f"its result is {source.outcome}", source.place)]
    if effect is None or tried.back == CONTINUE or effect.allows_error(tried.back.number):
        return None
    return [Reason("its result is another one", effect.place)]


def answered_already(tried):
    if tried.answer is None or not tried.serving.was_answered:
        return None
    first = tried.serving.answered_at
    return [Reason("the first one", tried.effect.place if first is None else first)]


CLAUSES = (
    (clauses.ANSWER_WITHOUT_CALL, no_call), (clauses.OTHER_ANSWER, other_answer), (clauses.UNCAUSED, uncaused), (clauses.DENIED_OTHERWISE, denied_otherwise),
    (clauses.PASSED_OTHERWISE, passed_otherwise), (clauses.GRANTED_NOT_DONE, granted_not_done), (clauses.OTHER_OUTCOME, other_outcome), (clauses.ANSWERED_ALREADY, answered_already),
)
