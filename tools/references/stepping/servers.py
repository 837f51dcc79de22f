"""This project's own workers: what each does next, by the policy and by what it has done for its notification (docs/KERNEL.md, docs/reference)."""
from __future__ import annotations

from collections import Counter
from typing import Any, Optional, Tuple, Union

from tools.references.stepping.facts import CONTINUE, O_CLOEXEC, SEND, SETFD, Addfd, Event, Fail
from tools.references.stepping.kernel import EMFILE, ENOENT, ESRCH, Kernel
from tools.references.stepping.rules import Copy, Mount, OpenAt, Rule, Sysinfo, base_of, decide, request_of

EFFECTS = ("act", "plant")
# in the place of an answer that there isn't yet
UNDONE = object()


class Serving:
    """What a worker has done for a notification, and the newest answer of each kind: None where it was done, a number, bytes, or an error."""

    def __init__(self, notif):
        self.notif, self.copy = notif, Copy(notif.number, notif.args)
        self.checks, self.answers = 0, {}
        self.is_over = False

    @property
    def request(self) -> Any:
        """What the call asks for, by the whole copy of its texts."""
        return request_of(self.notif.number, self.notif.args, self.copy.texts)

    def take(self, kind: str, answer: Any) -> None:
        """Notes an answer."""
        self.answers[kind] = answer
        self.checks += kind == "check"
        if kind == "read":
            self.copy.hear(answer)
        self.is_over |= gives_up(kind, answer)


def gives_up(kind: str, answer: Optional[Union[Fail, bytes, int]]) -> bool:
    """Whether nothing is left to do for the notification but to let go of it: it is answered, or nobody waits for an answer."""
    error = answer.number if isinstance(answer, Fail) else None
    if kind in ("open-mem", "open-base"):
        return error == ESRCH
    if kind == "check":
        return error is not None
    if kind == "addfd-take":
        return error in (None, ENOENT)
    return kind == "send" or (kind == "addfd-put" and error == ENOENT)


class Servers:
    """The workers of this project in one container. How often a rule grants is counted of all of them together."""

    def __init__(self, rules, kernel):
        self.rules, self.kernel = rules, kernel
        self.servings, self.spent = {}, Counter()

    def step(self, number: int) -> Any:
        """Makes the step that a worker has next; None where there is none, or what it has open and asked for doesn't allow it."""
        deed, *operands = self.next_deed(self.servings.get(number))
        if deed in ALLOWED and not ALLOWED[deed](self.kernel.worker(number)):
            return None
        event = deed(self.kernel, number, *operands)
        if event is not None:
            self.take(number, event)
        return event

    def take(self, number: int, event: Event) -> None:
        """Notes what came of a step."""
        answer = event.facts[-1] if event.facts else None
        if event.kind == "recv" and not isinstance(answer, Fail):
            self.servings[number] = Serving(answer)
        elif event.kind == "let-go":
            del self.servings[number]
        elif event.kind != "recv":
            self.servings[number].take(event.kind, answer)
        if event.kind in EFFECTS and answer is None:
            self.spent[self.place_of(self.rule_for(self.servings[number]))] += 1

    # ---- what is next

    def next_deed(self, serving: Optional[Serving]) -> Tuple[Any, ...]:
        """What a worker asks the kernel for next, with its operands."""
        if serving is None:
            return (Kernel.receive,)
        if serving.is_over:
            return (Kernel.let_go,)
        notif, dirfd = serving.notif, base_of(serving.notif.number, serving.notif.args)
        if "open-mem" not in serving.answers:
            return Kernel.open_memory, notif.pid
        if dirfd is not None and "open-base" not in serving.answers:
            return Kernel.open_base, notif.pid, dirfd
        if serving.checks and serving.copy.wanted:
            return Kernel.read, *serving.copy.wanted
        if serving.checks < 2:
            return Kernel.check, notif.id
        return (Kernel.send, notif.id, serving.copy.fault) if serving.copy.fault else self.decided(serving, self.rule_for(serving))

    def rule_for(self, serving: Serving) -> Rule:
        return decide(self.rules, serving.request)

    def place_of(self, rule: Rule) -> int:
        return self.rules.index(rule)

    def decided(self, serving: Serving, rule: Rule) -> Tuple[Any, ...]:
        """What a rule makes of the call."""
        if rule.verdict == "grant":
            return self.granted(serving, rule)
        if rule.verdict == "inject":
            return injected(serving, rule)
        return Kernel.send, serving.notif.id, CONTINUE if rule.verdict == "pass" else Fail(rule.error)

    def granted(self, serving: Serving, rule: Rule) -> Tuple[Any, ...]:
        """The effect; and then its outcome, as the answer."""
        done = next((serving.answers[kind] for kind in EFFECTS if kind in serving.answers), UNDONE)
        if done is not UNDONE:
            return Kernel.send, serving.notif.id, done or 0
        request, is_spent = serving.request, rule.times is not None and self.spent[self.place_of(rule)] >= rule.times
        if isinstance(request, Sysinfo):
            return Kernel.plant, request.address, self.kernel.container_sysinfo(), is_spent
        return Kernel.act, request._replace(via=rule.via, shift=rule.shift) if isinstance(request, Mount) else request, is_spent


def injected(serving: Serving, rule: Rule) -> Tuple[Any, ...]:
    """A descriptor, put in as the call's result; then what came of that; and an error as the answer, where nothing was installed."""
    put = serving.answers.get("addfd-put", UNDONE)
    if put is UNDONE:
        flags = serving.request.flags & O_CLOEXEC if isinstance(serving.request, OpenAt) else 0
        return Kernel.put, Addfd(serving.notif.id, SEND if rule.place is None else SEND | SETFD, rule.source, rule.place or 0, flags)
    if put is None and "addfd-take" not in serving.answers:
        return (Kernel.take,)
    return Kernel.send, serving.notif.id, put or Fail(EMFILE)


# what a worker must have open or have asked for
ALLOWED = {
    Kernel.open_memory: lambda worker: worker.memory is None,
    Kernel.plant: lambda worker: worker.memory is not None,
    Kernel.put: lambda worker: worker.request is None,
    Kernel.take: lambda worker: worker.request is not None,
}
