"""Histories of free workers, drawn at random: each serves its notifications in one of the ways that are right, or leaves something out, and now and then does what nobody would expect."""
from dataclasses import dataclass, field
from enum import Enum
from typing import NamedTuple, Optional

from tools.references.judging import decisions
from tools.references.judging.copies import Quality
from tools.references.judging.definition import Watched
from tools.references.stepping.drawn import Chooser
from tools.references.stepping.facts import CONTINUE, O_CLOEXEC, SEND, SETFD, Fail, signed
from tools.references.stepping.kernel import EDQUOT, EMFILE, ENOENT, ESRCH
from tools.references.stepping.rules import PIECE, Mount, OpenAt, Other, Sysinfo, base_of, path_of, request_of
from tools.references.stepping.trees import EBADF
from tools.references.stepping.turns import act_text, back_text

SEATS, LONGEST, MOST_READS, BEHIND_A_FAULT = 3, 140, 40, 3
# how likely a task steps, where one can
PACES, HASTE = (0.2, 0.4, 0.4, 0.7), 0.85
# how many of a worker's turns are unlikely ones, in hundredths, in a history that has some
RATES = (2, 5, 15)
WRONG_ERROR = Fail(1)


class Mistake(Enum):
    """What a worker does wrong each time."""

    RELIES_ON_LESS = "relies on reads that no good check follows"
    OPENS_NO_BASE = "opens no directory"
    OPENS_BASE_LATE = "opens the directory behind its last check"
    KEEPS_BASE = "receives again with the directory open that it had"
    OPENS_MEMORY_LATE = "opens the memory behind the check of a call without texts"

    KEEPS_MEMORY = "receives again with the memory open that it had"
    PASSES = "passes what is to be done or denied"
    DENIES = "denies with an error of its own"
    DOES_WHAT_IS_DENIED = "does what is to be passed or denied"
    NEVER_COUNTS = "does what a rule's times don't allow"
    DOES_NOTHING = "tells a success"
    DOES_AGAIN = "does it twice"
    DOES_AFTERWARDS = "answers, and does it then"
    HIDES = "tells another result"
    ANSWERS_AGAIN = "answers twice"
    ANSWERS_ANOTHER = "answers another call"
    LETS_GO = "lets go without an answer"


@dataclass
class Manner:
    """How a worker goes about a notification."""

    checks_first: bool
    piece: int
    puts_apart: bool
    asks_registers: bool
    retries: bool = False
    mistake: Optional[Mistake] = None
    # the worst reads that it relies on
    trusts: Quality = Quality.CHECKED
    # what it knows of the notification in hand
    is_over: bool = False
    has_base: bool = False
    reads: int = 0
    tries: int = 0
    newest: list = field(default_factory=list)

    def errs(self, *mistakes):
        return self.mistake in mistakes


class DrawnHistory(NamedTuple):
    """The lines of a schedule, what was watched as they were played, and whether each worker did what is right."""

    lines: list
    watched: Watched
    is_right: bool

    @property
    def script(self):
        front = self.watched.kernel.container.front
        return front + b"schedule\n" + "".join(f"{line}\n" for line in self.lines).encode("latin-1") + b"end\n"


class FreeWorkers(Chooser):
    """Draws one history."""

    def __init__(self, rules, container, chance, mistake=None):
        """With a mistake all workers may make this one and no other, while the tasks are in haste."""
        self.watched = Watched(rules, container)
        super().__init__(self.watched, chance)
        self.judge, self.kernel = self.watched.judge, self.watched.kernel
        kind = chance.random() if mistake is None else 0
        # nothing is wrong, or what is done is wrong in one way, or some turns are unlikely ones
        self.mistake = chance.choice(list(Mistake)) if 0.3 < kind < 0.85 else mistake
        self.rate = chance.choice(RATES) if kind > 0.8 else 0
        self.is_hasty = mistake is not None
        self.pace = HASTE if self.is_hasty else chance.choice(PACES)
        self.manners, self.lines, self.is_right = {}, [], True

    # ---- the whole

    def draw_history(self):
        left = self.chance.randrange(LONGEST // 2, LONGEST)
        while left > 0 and not (self.is_over() and not self.judge.servings):
            if self.judge.fault is not None:
                left = min(left, BEHIND_A_FAULT)
            self.turn()
            left -= 1
        return DrawnHistory(self.lines, self.watched, self.is_right)

    def turn(self):
        able, busy = self.kernel.able(), [seat for seat in self.judge.servings if seat < SEATS]
        seat = self.chance.choice(busy) if busy and self.chance.random() < 0.75 else self.chance.randrange(SEATS)
        if self.is_hasty and self.kernel.unfetched() is not None and self.judge.fault is None:
            self.add(f"w {seat} {self.due(seat)}")
        elif able and self.chance.random() < self.pace:
            # (the newest task makes its call before another one may end it)
            task = able[-1] if self.is_hasty and not self.judge.servings else self.chance.choice(able)
            self.add(f"t {task.actor[1:]}")
        elif self.judge.fault is not None or self.chance.random() < self.rate / 100:
            self.is_right = False
            self.add(f"w {seat} {self.unlikely(seat)}")
        else:
            self.add(f"w {seat} {self.due(seat)}")

    def add(self, line):
        before = len(self.kernel.events)
        if not self.watched.answer(line.encode("latin-1")).startswith("refused line"):
            # (a schedule may not have one that is no request)
            self.lines.append(line)
        if len(self.kernel.events) > before and line[0] == "w":
            self.take(int(line.split(" ")[1]), self.kernel.events[-1])

    # ---- what a worker knows

    def take(self, seat, event):
        if event.kind == "recv" and not isinstance(event.facts[0], Fail):
            self.notifs[seat], self.manners[seat] = event.facts[0], self.manner()
            self.manners[seat].has_base = self.manners[seat].errs(Mistake.KEEPS_BASE) and self.kernel.worker(seat).base is not None
            self.is_right &= self.manners[seat].mistake is None
            return
        if event.kind == "let-go":
            self.notifs.pop(seat, None)
        manner = self.manners.get(seat)
        answer = event.facts[-1] if event.facts else None
        if manner is None:
            return
        manner.newest.append(event)
        manner.reads += event.kind == "read"
        manner.has_base |= event.kind == "open-base"
        error = answer.number if isinstance(answer, Fail) else None
        manner.is_over |= event.kind == "send" or (event.kind == "check" and error == ENOENT) or (event.kind in ("open-mem", "open-base") and error == ESRCH)

    def manner(self):
        chance = self.chance
        found = Manner(chance.random() < 0.6, chance.choice((PIECE, PIECE, 1, 4, 4096)), chance.random() < 0.4, chance.random() < 0.5, chance.random() < 0.5)
        if chance.random() < 0.8:
            found.mistake = self.mistake
        if found.errs(Mistake.RELIES_ON_LESS, Mistake.KEEPS_MEMORY):
            found.trusts = chance.choice((Quality.NONE, Quality.ANY, Quality.ANY, Quality.ANY, Quality.OF_CALLER, Quality.WHILE_LISTED))
        return found

    # ---- what is right to do next

    def due(self, seat):
        """What a worker asks for next, as it goes about its notification."""
        serving, manner, notif = self.judge.servings.get(seat), self.manners.get(seat), self.notifs.get(seat)
        if serving is None:
            return "recv" if self.kernel.worker(seat).memory is None else "let-go"
        if manner.is_over or manner.reads > MOST_READS:
            return self.ending(serving, manner, notif)
        if serving.effect is not None:
            return self.told_of(seat, serving, serving.effect)
        rule = decisions.rule_by_registers(self.judge.rules, serving.call)
        if manner.asks_registers and rule is not None and rule.verdict in ("deny", "pass"):
            return self.sending(notif, CONTINUE if rule.verdict == "pass" else Fail(rule.error))
        if manner.asks_registers and rule is not None and rule.verdict == "inject":
            return self.decided(serving, (b"",) * len(serving.reads.parts))
        return self.opening(seat, manner, notif) or self.copying(serving, manner, notif)

    def ending(self, serving, manner, notif):
        """What is asked for behind the answer, or where the call is known to have gone."""
        if manner.errs(Mistake.ANSWERS_AGAIN) and serving.answered_at is not None:
            return self.sending(notif, WRONG_ERROR)
        if manner.errs(Mistake.DOES_AFTERWARDS) and serving.answered_at is not None and serving.effect is None:
            return self.deed(serving, self.texts_now(serving)) or "let-go"
        if self.judge.waits(serving.call) and not serving.was_answered:
            return f"check {notif.id}"
        return "recv" if manner.errs(Mistake.KEEPS_MEMORY, Mistake.KEEPS_BASE) else "let-go"

    def opening(self, seat, manner, notif):
        dirfd = base_of(notif.number, notif.args)
        serving = self.judge.servings[seat]
        if manner.errs(Mistake.OPENS_MEMORY_LATE) and not serving.reads.parts and not serving.reads.checks:
            return f"check {notif.id}"
        if self.kernel.worker(seat).memory is None:
            return f"open-mem {notif.pid}"
        if manner.errs(Mistake.OPENS_BASE_LATE) and not (serving.reads.checks and any(copy.is_known for copy in serving.valid_copies())):
            return None
        if dirfd is not None and not manner.has_base and not manner.errs(Mistake.OPENS_NO_BASE):
            return f"open-base {notif.pid} {dirfd}"
        return None

    def copying(self, serving, manner, notif):
        """A piece, a check, or what comes of the copy."""
        reads = serving.reads
        if manner.checks_first and not reads.checks and manner.trusts > Quality.ANY:
            return f"check {notif.id}"
        if manner.trusts == Quality.NONE:
            return self.decided(serving, self.texts_now(serving))
        known = next((copy for copy in reads.copies(manner.trusts) if copy.is_known), None)
        if known is not None and (reads.parts or reads.checks or manner.trusts < Quality.CHECKED):
            return self.decided(serving, known.texts) if known.fault is None else self.sending(notif, Fail(known.fault))
        newest = reads.newest_copy(Quality.ANY)
        if newest.is_known:
            return f"check {notif.id}"
        address = (reads.parts[newest.missing_part].address + newest.missing_byte) % 2**64
        return f"read {address} {PIECE - address % PIECE if manner.piece == PIECE else manner.piece}"

    def texts_now(self, serving):
        """The texts that stand in the caller's memory now, or none where there is a fault."""
        texts = tuple(serving.call.task.group.copy(part) for part in serving.reads.parts)
        return tuple(b"" if isinstance(text, Fail) else text for text in texts)

    def decided(self, serving, texts):
        """What the policy makes of these texts, or what the worker makes of them."""
        notif, manner, rule = self.notifs[serving.worker], self.manners[serving.worker], self.judge.rule_for(serving.call, texts)
        wrong = {
            Mistake.PASSES: self.sending(notif, CONTINUE), Mistake.DENIES: self.sending(notif, WRONG_ERROR), Mistake.DOES_NOTHING: self.sending(notif, 0), Mistake.LETS_GO: "let-go",
            Mistake.ANSWERS_ANOTHER: f"send {notif.id + 1} 0 0 1", Mistake.DOES_WHAT_IS_DENIED: self.deed(serving, texts),
        }.get(manner.mistake)
        if wrong is not None:
            return wrong
        if rule.verdict in ("pass", "deny"):
            return self.sending(notif, CONTINUE if rule.verdict == "pass" else Fail(rule.error))
        if self.judge.is_spent(rule) and not manner.errs(Mistake.NEVER_COUNTS):
            return self.sending(notif, Fail(EDQUOT))
        if self.judge.unused_effect(serving.call, serving.valid_copies()) is not None:
            return self.sending(notif, 0)
        if rule.verdict == "grant" and self.lacks_base(serving, texts) and self.chance.random() < 0.5:
            return self.sending(notif, Fail(EBADF))
        return self.deed(serving, texts)

    def lacks_base(self, serving, texts):
        path = path_of(request_of(serving.call.number, serving.call.args, texts))
        return serving.base_refused_at is not None and path is not None and not path.startswith(b"/")

    def deed(self, serving, texts):
        """The effect that a call asks for, made as the rule says if one grants it; None of a call that nothing is done for."""
        call, notif, rule = serving.call, self.notifs[serving.worker], self.judge.rule_for(serving.call, texts)
        request = request_of(call.number, call.args, texts)
        if isinstance(request, OpenAt):
            flags = (0 if self.manners[serving.worker].puts_apart else SEND) | (0 if rule.place is None else SETFD)
            return f"addfd {notif.id} {flags} {rule.source} {rule.place or 0} {notif.args[2] & O_CLOEXEC}"
        if isinstance(request, Sysinfo):
            return f"plant {request.address} {self.kernel.container_sysinfo().hex()}"
        if isinstance(request, Other):
            return None
        return "act " + act_text(request._replace(via=rule.via, shift=rule.shift) if isinstance(request, Mount) else request)

    def told_of(self, seat, serving, effect):
        """What is asked or answered behind an effect."""
        notif, manner, outcome = self.notifs[seat], self.manners[seat], effect.outcome
        if manner.errs(Mistake.DOES_AGAIN):
            return self.deed(serving, (effect.all_texts or ((b"",) * len(serving.reads.parts),))[0])
        if manner.retries and effect.has_failed and effect.kind == "addfd-put" and self.kernel.worker(seat).request is None and effect.outcome != Fail(ENOENT) and manner.tries < 3:
            manner.tries += 1
            return self.deed(serving, (effect.all_texts or ((b"",) * len(serving.reads.parts),))[0])
        if effect.kind != "addfd-put":
            return self.sending(notif, WRONG_ERROR if manner.errs(Mistake.HIDES) else outcome)
        if self.kernel.worker(seat).request is not None:
            return "addfd-result"
        if effect.has_answered or outcome == Fail(ENOENT):
            return "let-go"
        return self.sending(notif, Fail(EMFILE) if isinstance(outcome, Fail) and effect.answer is None else outcome)

    @staticmethod
    def sending(notif, back):
        return f"send {notif.id} {back_text(back)}"

    # ---- what is unlikely

    def unlikely(self, seat):
        return self.chance.choice((self.anything, self.anything, self.altered, self.altered, self.altered, self.early, self.early, self.once_more, self.otherwise, self.gone))(seat)

    def anything(self, seat):
        notif = self.notifs.get(seat)
        return self.chance.choice(self.deeds(notif, self.kernel.worker(seat)))(self, notif)

    def early(self, seat):
        """What would come of the copy, before there is one."""
        serving = self.judge.servings.get(seat) if self.judge.fault is None else None
        return (self.deed(serving, self.texts_now(serving)) if serving is not None else None) or self.anything(seat)

    def altered(self, seat):
        """What is right, or what would come of the copy, with another number."""
        words = self.chance.choice((self.due, self.early))(seat).split(" ") if self.judge.fault is None else ["recv"]
        places = [at for at, word in enumerate(words) if at and word.lstrip("-").isdigit()]
        if not places:
            return self.anything(seat)
        at = self.chance.choice(places)
        words[at] = str(self.chance.choice([signed(int(words[at]) + 1, 32), 0, 1, 2, 3, 9, 259, 261, -1, -13, -17, -100]))
        return " ".join(words)

    def otherwise(self, seat):
        """An answer of any kind."""
        notif = self.notifs.get(seat)
        back = self.chance.choice((0, 0, 3, CONTINUE, Fail(1), Fail(13), Fail(9), Fail(17), Fail(EDQUOT)))
        return self.sending(notif, back) if notif is not None else self.anything(seat)

    def once_more(self, seat):
        """The newest thing that its worker has done that changes something, once more."""
        done = [event for event in (self.manners[seat].newest if seat in self.manners else []) if event.kind in ("act", "send", "plant")]
        if not done:
            return self.anything(seat)
        event = done[-1]
        if event.kind == "act":
            return f"act {act_text(event.facts[0])}"
        return f"send {event.facts[0]} {back_text(event.facts[1])}" if event.kind == "send" else f"plant {event.facts[0]} {event.facts[1].hex()}"

    def gone(self, _):
        return self.chance.choice(("let-go", "recv"))
