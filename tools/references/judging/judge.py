"""Follows a history of the kernel, whoever its workers are, and finds the first clause that is broken."""
from __future__ import annotations

from dataclasses import dataclass
from functools import lru_cache
from typing import Any, Dict, List, Optional, Tuple

from tools.references.judging import answers, clauses, decisions, effects
from tools.references.judging.clauses import Clause
from tools.references.judging.copies import Quality, Read, Reads
from tools.references.judging.effects import ACT, PLANT, PUT, TriedEffect
from tools.references.judging.faults import Fault, Reason
from tools.references.judging.servings import Effect, Entry, Serving
from tools.references.judging.tables import Tables
from tools.references.stepping.facts import CONTINUE, SEND, Fail
from tools.references.stepping.kernel import Call, Kernel, Task
from tools.references.stepping.rules import Rule
from tools.references.stepping.trees import EBADF

# of how many tasks the names are kept
MOST_NAMES = 4_096


@dataclass
class Counts:
    """What a history has: the calls that were received, and what was done and sent for them."""

    calls: int = 0
    effects: int = 0
    answers: int = 0


@lru_cache(MOST_NAMES)
def name_in(actor: str) -> Tuple[int, ...]:
    """The name of the task that an actor is."""
    return tuple(map(int, actor[1:].split(".")))


class Judge:
    """Hears each event of a kernel right behind it. `fault` is what was found first; nothing is looked for behind it."""

    def __init__(self, kernel: Kernel, rules, decided: Optional[Dict[tuple, Rule]] = None):
        """`decided` has what these rules were found to decide, of this history or of others."""
        self.kernel, self.rules = kernel, rules
        self.fault: Optional[Fault] = None
        # how many events were taken
        self.heard = len(kernel.events)
        self.counts = Counts()
        self.tables = Tables(kernel)
        self.entries: Dict[Call, Entry] = {}
        # how many calls each task has entered
        self.entered: Dict[Task, int] = {}
        # of each task that did nothing since but to enter a call again, where it entered it first, and the call
        self.begun: Dict[Task, tuple] = {}
        self.servings: Dict[int, Serving] = {}
        # of each task the listed call in which it waits
        self.entered_in: Dict[Task, Call] = {}
        self.effects: List[Effect] = []
        # the rules that were found to decide, by the number, the arguments and the texts of a call
        self.decided: Dict[tuple, Rule] = {} if decided is None else decided
        # of each rule with a limit the places of the effects that have spent its times
        self.times: Dict[str, List[int]] = {}
        # where each worker has opened the memory that it has
        self.opened_memory: Dict[int, int] = {}
        # the calls that were passed for their texts, by the number, the arguments and the texts, each with its rule
        self.passes: Dict[tuple, Rule] = {}

    def hear(self) -> None:
        """Takes the newest event of the kernel, if it is one that wasn't taken yet."""
        place = len(self.kernel.events) - 1
        if place >= self.heard:
            self.heard = place + 1
            event = self.kernel.events[place]
            self.take(place, event, event.facts[1] if event.kind == "plant" else b"")

    def take(self, place, event, content=b""):
        """Takes an event; `content` is what a plant was asked to write."""
        if self.fault is not None or event.kind == "skip":
            return
        if event.actor[0] == "w":
            self.take_of_worker(place, int(event.actor[1:]), event.kind, event.facts, content)
        elif event.actor[0] == "t":
            self.take_of_task(place, self.task_of(event.actor), event.kind, event.facts)

    def task_of(self, actor):
        return self.kernel.tasks[name_in(actor)]

    # ---- tasks

    def take_of_task(self, place, task, kind, facts):
        if kind not in ("call", "install", "skip") and not (kind == "deliver" and facts[1] in ("restart", "run")):
            self.begun.pop(task, None)
        if kind == "call":
            ordinal = self.entered[task] = self.entered.get(task, 0) + 1
            begun = self.begun.get(task)
            if begun is None or begun[1] != (facts[0], tuple(facts[1])):
                begun = self.begun[task] = (place, (facts[0], tuple(facts[1])))
            if task.call is not None:
                self.entries[task.call] = Entry(place, ordinal, begun[0])
                self.entered_in[task] = task.call
        elif kind in ("resume", "deliver"):
            self.note_leaving(place, task)
        elif kind == "native":
            self.tables.note(place, task.group)
        elif kind == "install":
            self.tables.note(place, task.group)
            self.test_waiting(place, task.call)
        elif kind == "spawn" and not isinstance(facts[1], Fail):
            self.tables.note(place, self.kernel.tasks[facts[0]].group)

    def note_leaving(self, place, task):
        """Notes where the call in which a task was has left the list."""
        call = self.entered_in.get(task)
        if call is not None and not call.is_listed:
            self.entries[call].left_at = place
            del self.entered_in[task]

    # ---- workers

    def take_of_worker(self, place: int, worker: int, kind: str, facts: Tuple[Any, ...], content: bytes) -> None:
        serving = self.servings.get(worker)
        if kind == "recv":
            self.receive(place, worker, facts[0])
        elif kind == "open-mem":
            self.note_memory(place, worker, serving, facts[1])
        elif kind == "open-base":
            self.note_base(place, worker, facts[1], facts[2])
        elif kind == "check":
            self.note_check(place, serving, facts[0], facts[1])
        elif kind == "read" and serving is not None:
            serving.reads.reads.append(Read(place, self.kernel.worker(worker).memory, facts[0], facts[1], facts[2], serving.call.is_listed))
        elif kind in (ACT, PLANT, PUT):
            self.take_effect(place, worker, kind, facts, content)
        elif kind == "send":
            self.take_answer(place, serving, *facts)
        elif kind == "let-go":
            self.let_go(place, worker)

    def receive(self, place, worker, notif):
        if isinstance(notif, Fail):
            return
        self.let_go(place, worker)
        self.counts.calls += 1
        call = self.kernel.named(notif.id)
        self.servings[worker] = Serving(worker, place, call, self.entries[call], Reads(call, call.task.group))

    def let_go(self, place: int, worker: int) -> None:
        serving = self.servings.pop(worker, None)
        if serving is not None:
            self.test_waiting(place, serving.call)

    def note_memory(self, place, worker, serving, answer):
        if answer is None:
            self.opened_memory[worker] = place
            if serving is not None:
                serving.checked_at = None

    def note_base(self, place, worker, dirfd, answer):
        serving = self.servings.get(worker)
        if answer is None:
            if serving is not None:
                serving.base, serving.base_opened_at = self.base_now(serving, self.kernel.worker(worker).base, place), place
        elif serving is not None and answer.number == EBADF and dirfd == decisions.dirfd_of(serving.call):
            if self.tables.directory(serving.call.task.group, dirfd, place) is None:
                serving.base_refused_at = place

    def base_now(self, serving: Serving, base: int, place: int) -> Quality:
        """How far a directory can be relied on that is opened now."""
        dirfd = decisions.dirfd_of(serving.call)
        own = None if dirfd is None else self.tables.directory(serving.call.task.group, dirfd, place)
        if own is None or own != base:
            return Quality.ANY
        return Quality.WHILE_LISTED if serving.call.is_listed else Quality.OF_CALLER

    def note_check(self, place, serving, identifier, answer):
        if serving is not None and answer is None and identifier == serving.call.id:
            serving.reads.checks.append(place)
            serving.checked_at = place
            if serving.base == Quality.WHILE_LISTED:
                serving.base = Quality.CHECKED

    def memory_opened_at(self, worker):
        return self.opened_memory.get(worker)

    def whose(self, memory):
        """Whose a memory is, in words."""
        owners = [task for task in self.kernel.tasks.values() if task.group is memory]
        return f"the memory of {owners[0].actor}" if owners else "no memory that is open"

    # ---- the policy

    def rule_for(self, call, texts):
        asked = (call.number, call.args, texts)
        if asked not in self.decided:
            self.decided[asked] = decisions.rule_for(self.rules, call, texts)
        return self.decided[asked]

    def is_spent(self, rule):
        return rule.times is not None and len(self.times.get(rule.name, ())) >= rule.times

    # ---- effects and answers

    def take_effect(self, place: int, worker: int, kind: str, facts: Tuple[Any, ...], content: bytes) -> None:
        serving, of_worker = self.servings.get(worker), self.kernel.worker(worker)
        tried = TriedEffect(place, kind, serving, facts[0], facts[-1], of_worker.base, of_worker.memory, content, self.rules)
        self.counts.effects += 1
        self.counts.answers += kind == PUT and facts[0].flags & SEND != 0
        if not self.test(tried, effects.ABOUT_CALL, self) and not self.test(tried, effects.OF_CALL, self):
            self.note_effect(tried)

    def note_effect(self, tried):
        call, is_put = tried.serving.call, tried.kind == PUT
        request = self.kernel.worker(tried.serving.worker).request if is_put and tried.answer is None else None
        effect = Effect(tried.place, tried.kind, call, tried.all_texts, tried.answer, request, tried.asked.flags if is_put else 0)
        tried.serving.effect = effect
        self.effects.append(effect)
        rule = self.rule_for(call, tried.texts) if tried.is_counted else None
        if rule is not None and rule.times is not None:
            self.times.setdefault(rule.name, []).append(tried.place)

    def take_answer(self, place, serving, identifier, back, answer):
        self.counts.answers += 1
        tried = answers.TriedAnswer(place, serving, identifier, back, answer, self)
        if self.test(tried, answers.CLAUSES):
            return
        if serving.answered_at is None:
            serving.answered_at = place
        if answer is None and back == CONTINUE:
            self.note_passed(tried)
        source = tried.effect if tried.effect is not None and tried.effect.has_succeeded else tried.remembered if tried.is_value else None
        if source is not None and answer is None:
            source.used_at = place

    def note_passed(self, tried: answers.TriedAnswer) -> None:
        """Notes the copies for which the policy passes a call."""
        for texts in (copy.texts for copy in tried.known if copy.texts):
            rule = self.rule_for(tried.call, texts)
            if rule.verdict == "pass":
                self.passes.setdefault((tried.call.number, tried.call.args, texts), rule)

    def unused_effect(self, call, copies):
        """An effect that succeeded for an earlier call of the same task, with equal registers and the texts of one of these copies, and whose outcome no call has returned."""
        alike = (
            effect for effect in self.effects
            if effect.call is not call and effect.call.task is call.task and (effect.call.number, effect.call.args) == (call.number, call.args)
        )
        texts, first = {copy.texts for copy in copies if copy.texts is not None}, self.entries[call].first
        alike = (it for it in alike if first <= self.entries[it.call].place < self.entries[call].place)
        return next((it for it in alike if (it.all_texts == () or texts.intersection(it.all_texts)) and it.has_succeeded and it.used_at is None and it.call.back is None), None)

    # ---- what is found

    def test(self, tried, table, *more):
        """Finds the first clause of a table that is broken, and whether there is one. The class is that of the event."""
        broken = ((clause, reasons) for clause, test in table for reasons in [test(tried, *more)] if reasons is not None)
        clause, reasons = next(broken, (None, None))
        if clause is None:
            return False
        gravity = clause.gravity_of(tried.has_failed, (later for later, _ in broken))
        self.find(tried.place, clause, tried.serving.call if tried.serving else None, reasons, gravity)
        return True

    def find(self, place, clause: Clause, call, reasons, gravity=None):
        entered_at = self.entries[call].place if call is not None else None
        self.fault = Fault(place, clause, gravity or clause.gravity, call, entered_at, reasons)

    def test_waiting(self, place, call):
        """A call that was received and waits is somebody's."""
        if call is None or not self.waits(call) or any(serving.call is call for serving in self.servings.values()):
            return
        self.find(place, clauses.UNANSWERED, call, [])

    def waits(self, call):
        return call.is_listed and call.is_waiting and not self.kernel.is_closed

    def left(self):
        """The oldest call that waits for an answer, whether it was received or not."""
        return None if self.kernel.is_closed else next((call for call in self.kernel.calls if call.is_listed and not call.is_answered), None)

    def note_idle(self):
        """The broker does nothing more by itself: each call is answered, or has gone."""
        waiting = self.left()
        if self.fault is None and waiting is not None:
            received = next((serving.place for serving in self.servings.values() if serving.call is waiting), None)
            reasons = [Reason("it was received here", received)] if received is not None else [] if waiting.is_fetched else [Reason("nobody has received it")]
            self.find(len(self.kernel.events) - 1, clauses.UNANSWERED, waiting, reasons)

    def head(self, is_idle: bool) -> str:
        """The first line of what is printed; with `is_idle` of a broker that does nothing more by itself. It changes nothing."""
        if is_idle and self.fault is None and self.left() is not None:
            return f"broken {len(self.kernel.events) - 1} {clauses.UNANSWERED.gravity.value} {clauses.UNANSWERED.name}\n"
        return self.text().partition("\n")[0] + "\n"

    def text(self) -> str:
        """What is printed: that the broker has mediated, or what it has broken."""
        if self.fault is not None:
            return self.fault.text(self.kernel.events)
        # a step that couldn't be made is none, and the close of the listener is nobody's
        events, counts = sum(event.kind not in ("skip", "close") for event in self.kernel.events), self.counts
        return f"mediated events={events} calls={counts.calls} effects={counts.effects} answers={counts.answers}\n"
