"""The clauses of an effect. Each test gives None where its clause is kept, and else why it is broken."""
from __future__ import annotations

from dataclasses import dataclass
from functools import cached_property
from typing import Optional, Tuple

from tools.references.judging import clauses, decisions
from tools.references.judging.copies import Quality
from tools.references.judging.faults import Reason
from tools.references.judging.servings import Serving
from tools.references.stepping.facts import CALL_NAMES, O_CLOEXEC, Fail, error_text

ACT, PLANT, PUT = "act", "plant", "addfd-put"


@dataclass
class TriedEffect:
    """An effect, as it was asked for: `asked` is a request, an address or the structure of a descriptor's request, `content` what a plant writes."""

    place: int
    kind: str
    serving: Optional[Serving]
    asked: object
    answer: Optional[Fail]
    # the directory from which it was done
    base: Optional[int] = None
    memory: object = None
    content: bytes = b""
    rules: tuple = ()

    @cached_property
    def texts(self) -> Tuple[bytes, ...]:
        """The texts that it names."""
        return decisions.texts_of(self.asked) if self.kind == ACT else ()

    @cached_property
    def all_texts(self):
        """The texts for which it may be done: those that it names, or, of a descriptor, each whole copy of the best reads that make one."""
        if self.kind != PUT:
            return (self.texts,)
        return next(filter(None, map(self.serving.reads.whole, reversed(Quality))), ())

    @property
    def goes_from_base(self) -> bool:
        return self.kind == ACT and not decisions.path_of(self.asked).startswith(b"/")

    @cached_property
    def weakest(self):
        """The byte of its texts with the worst reads: how good the best of them is, the part, the byte, and that read."""
        reads = self.serving.reads
        found = (Quality.CHECKED, None, None, None)
        if self.kind == ACT:
            for at, text in enumerate(self.texts):
                for byte, (quality, read) in enumerate(reads.support(at, text)):
                    if quality < found[0]:
                        found = (quality, at, byte, read)
        elif self.kind == PUT and not self.is_by_registers:
            for quality in (Quality.ANY, Quality.OF_CALLER, Quality.WHILE_LISTED, Quality.CHECKED):
                if not reads.whole(quality):
                    copy = reads.newest_copy(quality)
                    better = reads.at_least(Quality(quality - 1))
                    return Quality(quality - 1), copy.missing_part, copy.missing_byte, better[-1] if better else None
        return found

    @cached_property
    def is_by_registers(self):
        """Whether it is a descriptor's request, and the policy injects one whatever the call's texts are."""
        rule = decisions.rule_by_registers(self.rules, self.serving.call) if self.kind == PUT else None
        return rule is not None and rule.verdict == "inject"

    @property
    def has_failed(self) -> bool:
        """Whether nothing was done."""
        return self.answer is not None

    @property
    def is_counted(self) -> bool:
        """Whether it spends one of its rule's times: something was done, and no descriptor was put in."""
        return self.answer is None and self.kind != PUT


# ---- what it is about


def no_call(tried, _):
    return [] if tried.serving is None else None


def numbers_of(tried):
    if tried.kind == ACT:
        return decisions.numbers_of_act(tried.asked)
    if tried.kind == PLANT:
        return decisions.Numbers("sysinfo", address=tried.asked)
    return decisions.Numbers("openat", flags=tried.asked.newfd_flags & O_CLOEXEC)


def other_request(tried, _):
    call = tried.serving.call
    differences = decisions.numbers_of_call(call.number, call.args).differences(numbers_of(tried))
    if tried.kind == PUT and tried.asked.id != call.id:
        differences.insert(0, "id")
    if not differences:
        return None
    called = CALL_NAMES.get(call.number, str(call.number))
    return [Reason(f"the call is {called}" if "call" in differences else f"another {differences[0]}", tried.serving.entry.place)]


# ---- the copy that it rests on


def named(tried, at):
    return decisions.names_of_texts(tried.serving.call.number)[at]


def unread(tried, _):
    misfit = tried.serving.reads.misfit(tried.texts) if tried.kind == ACT else None
    since = Reason("since here", tried.serving.place)
    if misfit is not None:
        return [Reason(f"the call has no such {named(tried, misfit)}"), since]
    quality, at, byte, _ = tried.weakest
    if quality != Quality.NONE:
        return None
    fault = tried.serving.reads.newest_copy(Quality.ANY).fault if tried.kind == PUT else None
    return [Reason(f"byte {byte} of the {named(tried, at)}" if fault is None else f"the copy has the fault {error_text(fault)}"), since]


def other_memory(tried, judge):
    if tried.kind == PLANT:
        if tried.memory is tried.serving.call.task.group:
            return None
        return [Reason(judge.whose(tried.memory), judge.memory_opened_at(tried.serving.worker))]
    quality, at, byte, read = tried.weakest
    return [Reason(f"byte {byte} of the {named(tried, at)}, from {judge.whose(read.memory)}", read.place)] if quality == Quality.ANY else None


def stale_copy(tried, _):
    quality, at, byte, read = tried.weakest
    if quality != Quality.OF_CALLER:
        return None
    return [Reason("here the call left the list", tried.serving.entry.left_at), Reason(f"byte {byte} of the {named(tried, at)}", read.place)]


def unchecked(tried, _):
    reads = tried.serving.reads
    before = [Reason("the last good check of this call", reads.checks[-1])] if reads.checks else [Reason("no check since here", tried.serving.place)]
    if not reads.parts:
        return None if tried.serving.checked_at is not None else before
    quality, at, byte, read = tried.weakest
    if quality == Quality.WHILE_LISTED:
        return [*before, Reason(f"byte {byte} of the {named(tried, at)}", read.place)]
    if not tried.goes_from_base or tried.base is None or tried.serving.base != Quality.WHILE_LISTED:
        return None
    # (behind a memory that was opened since, no check is said to have been good)
    return before if tried.serving.checked_at is None else [Reason("no check of the directory that was opened here", tried.serving.base_opened_at)]


def torn(tried, _):
    """A text never stood so in what was read: at no moment the newest of the reads until then gave it."""
    reads = tried.serving.reads
    if tried.kind != ACT or tried.texts in reads.whole(Quality.CHECKED):
        return None
    missing = {quality: [at for at, text in enumerate(tried.texts) if not reads.stood(quality, at, text)] for quality in (Quality.CHECKED, Quality.WHILE_LISTED)}
    if not all(missing.values()):
        return None
    at = missing[Quality.CHECKED][0]
    return [Reason(f"a part of the {named(tried, at)} was read here", read.place) for read in reversed(reads.newest_support(at, tried.texts[at]))]


# ---- where it is done


def other_base(tried, judge):
    if not tried.goes_from_base:
        return None
    serving = tried.serving
    if tried.base is None:
        return None if serving.base_refused_at is not None else [Reason("no directory was opened since here", serving.place)]
    if serving.base >= Quality.WHILE_LISTED:
        return None
    if serving.base == Quality.NONE:
        return [Reason("the directory that it has was opened for another call, before this", serving.place)]
    if serving.base == Quality.OF_CALLER:
        return [Reason("here the call left the list", serving.entry.left_at), Reason("the directory was opened here", serving.base_opened_at)]
    return [Reason(f"the call's descriptor {decisions.dirfd_of(serving.call)} leads elsewhere", serving.base_opened_at)]


# ---- the policy


def is_granted(tried, rule, judge):
    if tried.kind == PUT:
        return rule.verdict == "inject" and decisions.is_just_put(rule, tried.asked)
    if rule.verdict != "grant":
        return False
    return decisions.is_just_so(rule, tried.asked) if tried.kind == ACT else tried.content == judge.kernel.container_sysinfo()


def readings(tried):
    """Reads on which its texts may rest, as few as the newest ones make it."""
    found = {read.place: f"the {named(tried, at)} was read here" for at, text in enumerate(tried.all_texts[0]) for read in tried.serving.reads.newest_support(at, text)}
    return [Reason(text, place) for place, text in sorted(found.items())]


def ungranted(tried, judge):
    rules = [judge.rule_for(tried.serving.call, texts) for texts in tried.all_texts] or [decisions.rule_by_registers(judge.rules, tried.serving.call)]
    if any(is_granted(tried, rule, judge) for rule in rules):
        return None
    says = f"rule {rules[0].name} says {rules[0].verdict}"
    return [*(readings(tried) if tried.all_texts else ()), Reason(says if rules[0].verdict not in ("grant", "inject") else f"{says}, but not just this")]


def spent(tried, judge):
    rule = judge.rule_for(tried.serving.call, tried.texts) if tried.is_counted else None
    if rule is None or not judge.is_spent(rule):
        return None
    return [Reason(f"rule {rule.name} grants {rule.times} in all"), *(Reason("one of them", place) for place in judge.times[rule.name])]


# ---- what was done before


def again(tried, _):
    effect = tried.serving.effect
    return None if effect is None or effect.has_failed else [Reason("the first one", effect.place)]


def after_answer(tried, _):
    place = tried.serving.answered_at
    return None if place is None else [Reason("the answer", place)]


ABOUT_CALL = ((clauses.EFFECT_WITHOUT_CALL, no_call), (clauses.OTHER_REQUEST, other_request))
OF_CALL = (
    (clauses.UNREAD, unread), (clauses.OTHER_MEMORY, other_memory), (clauses.STALE_COPY, stale_copy), (clauses.UNCHECKED, unchecked), (clauses.TORN, torn), (clauses.OTHER_BASE, other_base),
    (clauses.UNGRANTED, ungranted), (clauses.SPENT, spent), (clauses.AGAIN, again), (clauses.AFTER_ANSWER, after_answer),
)
