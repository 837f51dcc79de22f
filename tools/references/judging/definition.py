"""The definition of crates/broker_verdict/specs, read word by word: what an event breaks is found by looking back over the whole history. Functions have the names of the definition where it has one, `at` is the number
of events before (its K), `seat` a worker's number (its w), and `call` the call that the seat has in hand (its c). It is slow, and stands beside the judge to be compared with it."""
from functools import lru_cache
from typing import NamedTuple

from tools.references.judging import clauses, decisions
from tools.references.judging.sessions import Follower
from tools.references.stepping.facts import AT_FDCWD, CALL_NAMES, CONTINUE, O_CLOEXEC, SEND, SETFD, Fail, signed
from tools.references.stepping.kernel import EDQUOT, EMFILE, ENOENT
from tools.references.stepping.rules import ADDRESSES, E2BIG, EFAULT, VALUE_LIMIT, Mknod, Mount, base_of, covers, decide, meets, plan, request_of
from tools.references.stepping.rules import Copy as Progress
from tools.references.stepping.trees import EBADF

FOREIGN, STALE, FRESH, VALID = 1, 2, 3, 4
ANY_TEXTS = "any texts"
UNMAPPED, UNREAD = "unmapped", "unread"
EFFECTS = ("act", "plant", "addfd-put")
LATER = (clauses.TORN, clauses.OTHER_BASE, clauses.UNGRANTED, clauses.SPENT, clauses.AGAIN, clauses.AFTER_ANSWER)


class Tables(NamedTuple):
    """What the kernel's tables say after so many events."""

    listed: frozenset
    waiting: frozenset
    settled: frozenset
    memory: dict
    base: dict
    slots: dict
    installed: dict
    in_call: dict


class SeatRead(NamedTuple):
    address: int
    length: int
    answer: object
    worth: int


class Watched(Follower):
    """A follower that keeps what the tables said before each event."""

    def __init__(self, rules, container):
        super().__init__(rules, container)
        self.tables, self.calls, self.puts = [None, self.tables_now((), {})], [], {}
        self.contents = {}

    def tables_now(self, calls, puts):
        kernel = self.kernel
        listed = frozenset(() if kernel.is_closed else kernel.calls)
        return Tables(
            listed, frozenset(call for call in listed if call.is_waiting), frozenset(call for call in calls if call.back is not None),
            {number: worker.memory for number, worker in kernel.workers.items()}, {number: worker.base for number, worker in kernel.workers.items()},
            {task.group: dict(task.group.slots) for task in kernel.tasks.values()}, {place: put.answer for place, put in puts.items()},
            {task: task.call for task in kernel.tasks.values()},
        )

    def answer(self, request):
        before = len(self.kernel.events)
        told = super().answer(request)
        if len(self.kernel.events) > before:
            event = self.kernel.events[before]
            if event.kind == "call":
                self.calls += [call for call in self.kernel.calls if call not in self.calls]
            elif event.kind == "addfd-put" and event.facts[-1] is None:
                self.puts[before] = self.kernel.worker(int(event.actor[1:])).request
            self.tables.append(self.tables_now(self.calls, self.puts))
        return told


def alike(rule, other):
    """Two rules say the same: of descriptors the same file at the same place."""
    return (rule.verdict, rule.error, *((rule.source, rule.place) if rule.verdict == "inject" else ())) == (
        other.verdict, other.error, *((other.source, other.place) if other.verdict == "inject" else ()))


class Definition:
    """The verdict on a watched history."""

    def __init__(self, watched: Watched):
        self.rules, self.kernel, self.events, self.tables = watched.session.rules, watched.kernel, watched.kernel.events, watched.tables
        self.puts = watched.puts
        for name in ("session_call", "reads", "is_checked", "base_worth", "effect_of", "has_sent", "is_base_refused", "copies_of", "texts_done", "done_by", "told", "remembered"):
            setattr(self, name, lru_cache(maxsize=None)(getattr(self, name)))

    # ---- Seats

    def of_seat(self, at, seat):
        """The events of a seat among the first ones, the newest first, with their places."""
        return [(place, self.events[place]) for place in range(at - 1, -1, -1) if self.events[place].actor == f"w{seat}"]

    @staticmethod
    def is_receive(event):
        return event.kind == "recv" and not isinstance(event.facts[0], Fail)

    def since_receive(self, at, seat):
        """The same up to where the seat received or let go last."""
        found = []
        for place, event in self.of_seat(at, seat):
            if self.is_receive(event) or event.kind == "let-go":
                break
            found.append((place, event))
        return found

    def session_call(self, at, seat):
        for place, event in self.of_seat(at, seat):
            if event.kind == "let-go":
                return None
            if self.is_receive(event):
                return next(call for call in self.tables[place].listed if call.id == event.facts[0].id)
        return None

    def reads(self, at, seat):
        """The newest first."""
        found = []
        for place, event in reversed(self.since_receive(at, seat)):
            call = self.session_call(place, seat)
            if event.kind == "read" and self.tables[place].memory.get(seat) is not None:
                is_own = call is not None and self.tables[place].memory[seat] is call.task.group
                found.insert(0, SeatRead(*event.facts, FOREIGN if not is_own else FRESH if call in self.tables[place].listed else STALE))
            elif event.kind == "check" and event.facts[1] is None and call is not None and call.id == event.facts[0]:
                found = [read._replace(worth=VALID if read.worth == FRESH else read.worth) for read in found]
        return found

    def is_good_check(self, place, event, call):
        return event.kind == "check" and event.facts[1] is None and call is not None and call.id == event.facts[0]

    def is_checked(self, at, seat):
        """A good check of the call's id follows the receive, and the opening of the memory that the seat has."""
        for place, event in self.since_receive(at, seat):
            if event.kind == "open-mem" and event.facts[1] is None:
                return False
            if self.is_good_check(place, event, self.session_call(place, seat)):
                return True
        return False

    def effect_of(self, at, seat):
        return next((place for place, event in self.since_receive(at, seat) if event.kind in EFFECTS), None)

    def has_sent(self, at, seat):
        return any(event.kind == "send" for _, event in self.since_receive(at, seat))

    def directory_named(self, at, group, dirfd):
        if dirfd == AT_FDCWD:
            return self.kernel.container.root
        slot = self.tables[at].slots.get(group, {}).get(dirfd)
        return slot[1] if slot and slot[0] == "node" and self.kernel.tree.is_directory(slot[1]) else None

    def is_base_refused(self, at, seat):
        for place, event in self.since_receive(at, seat):
            call = self.session_call(place, seat)
            if event.kind == "open-base" and isinstance(event.facts[2], Fail) and event.facts[2].number == EBADF and call is not None:
                if base_of(call.number, call.args) == event.facts[1] and self.directory_named(place, call.task.group, event.facts[1]) is None:
                    return True
        return False

    def base_now(self, at, seat, call):
        """How far a directory can be relied on that the seat opens after so many events."""
        dirfd = None if call is None else base_of(call.number, call.args)
        own = None if dirfd is None else self.directory_named(at, call.task.group, dirfd)
        if own is None or own != self.tables[at + 1].base.get(seat):
            return FOREIGN
        return FRESH if call in self.tables[at].listed else STALE

    def base_worth(self, at, seat):
        """The same of the directory that it has now: one that it opened for another call is none of this one."""
        found = FOREIGN
        for place, event in reversed(self.since_receive(at, seat)):
            call = self.session_call(place, seat)
            if event.kind == "open-base" and event.facts[2] is None:
                found = self.base_now(place, seat, call)
            elif found == FRESH and self.is_good_check(place, event, call):
                found = VALID
        return found

    # ---- SeatCopies

    @staticmethod
    def told_by(read, address):
        if isinstance(read.answer, Fail):
            return UNMAPPED if read.answer.number == EFAULT and address == read.address else UNREAD
        offset = address - read.address
        if 0 <= offset < len(read.answer):
            return read.answer[offset]
        return UNMAPPED if len(read.answer) < read.length and offset == len(read.answer) else UNREAD

    def newest_at(self, reads, address):
        return next((told for read in reads for told in [self.told_by(read, address)] if told != UNREAD), UNREAD)

    def gives_text(self, reads, part, text):
        wanted = text + b"\0" if part.is_text else text
        return all(any(self.told_by(read, (part.address + at) % ADDRESSES) == byte for read in reads) for at, byte in enumerate(wanted))

    def stands_at(self, reads, part, text):
        """The newest of these reads give the text."""
        wanted = text + b"\0" if part.is_text else text
        return all(self.newest_at(reads, (part.address + at) % ADDRESSES) == byte for at, byte in enumerate(wanted))

    def stood(self, reads, part, text):
        """At some moment the newest of the reads until then gave the text."""
        return any(self.stands_at(reads[at:], part, text) for at in range(len(reads) + 1))

    @staticmethod
    def fits_part(part, text):
        return b"\0" not in text and len(text) < part.limit if part.is_text else len(text) == part.limit <= VALUE_LIMIT

    def part_seen(self, reads, part):
        """A text, an error, or None where a byte wasn't read."""
        if not part.is_text and part.limit > VALUE_LIMIT:
            return Fail(E2BIG)
        found = b""
        for at in range(part.limit):
            seen = self.newest_at(reads, (part.address + at) % ADDRESSES)
            if seen in (UNMAPPED, UNREAD):
                return Fail(EFAULT) if seen == UNMAPPED else None
            if seen == 0 and part.is_text:
                return found
            found += bytes([seen])
        return Fail(part.fault) if part.is_text else found

    def newest_copy(self, reads, parts):
        """The texts, an error, or None where a byte wasn't read."""
        seen = [self.part_seen(reads, part) for part in parts]
        fault = next((it for it in seen if isinstance(it, Fail)), None)
        return fault if fault is not None else None if None in seen else tuple(seen)

    @staticmethod
    def planned_copy(reads, call):
        copy = Progress(call.number, call.args)
        for read in reversed(reads):
            if (read.address, read.length) == copy.wanted:
                copy.hear(read.answer)
        return copy.fault if copy.fault is not None else tuple(copy.texts) if copy.is_whole else None

    def worth_least(self, least, at, seat):
        return [read for read in self.reads(at, seat) if read.worth >= least]

    def copies_of(self, least, at, seat, call):
        reads = self.worth_least(least, at, seat)
        return self.newest_copy(reads, plan(call.number, call.args)), self.planned_copy(reads, call)

    def whole_in(self, least, at, seat, call):
        return [copy for copy in self.copies_of(least, at, seat, call) if isinstance(copy, tuple)]

    # ---- Choices

    def decided(self, call, texts):
        return decide(self.rules, request_of(call.number, call.args, texts))

    def by_registers(self, call):
        return self.by_registers_from(self.rules, request_of(call.number, call.args, [b""] * len(plan(call.number, call.args))))

    def by_registers_from(self, rules, request):
        if not rules:
            return None
        rule, more = rules[0], rules[1:]
        if not covers(rule, request) or not all(it.name in decisions.OF_TEXTS or meets(request, it) for it in rule.conditions):
            return self.by_registers_from(more, request)
        if not any(it.name in decisions.OF_TEXTS for it in rule.conditions):
            return rule
        later = self.by_registers_from(more, request)
        return later if later is not None and alike(rule, later) else None

    # ---- Effects

    @staticmethod
    def asks_other(call, event):
        name = CALL_NAMES.get(call.number)
        if event.kind == "plant":
            return not (name == "sysinfo" and call.args[0] == event.facts[0])
        asked = event.facts[0]
        if event.kind == "addfd-put":
            return not (name == "openat" and call.args[2] & O_CLOEXEC == asked.newfd_flags and asked.id == call.id)
        if isinstance(asked, Mknod):
            dirfd, mode, device = {"mknod": (AT_FDCWD, *call.args[1:3]), "mknodat": (signed(call.args[0], 32), *call.args[2:4])}.get(name, (None, 0, 0))
            same = (AT_FDCWD if asked.dirfd is None else asked.dirfd, asked.mode % 2**16, asked.device % 2**32) == (dirfd, mode % 2**16, device % 2**32)
            return not same
        if isinstance(asked, Mount):
            return not (name == "mount" and call.args[3] == asked.flags)
        return not (name == "setxattr" and call.args[4] % 2**32 == asked.flags)

    @staticmethod
    def texts_of(event):
        return decisions.texts_of(event.facts[0]) if event.kind == "act" else ()

    def rests_on(self, least, at, seat, call, event):
        if event.kind == "plant":
            return True
        if event.kind == "addfd-put":
            return self.injects_by_registers(call) or bool(self.whole_in(least, at, seat, call))
        reads = self.worth_least(least, at, seat)
        return all(self.gives_text(reads, part, text) for part, text in zip(plan(call.number, call.args), self.texts_of(event)))

    def injects_by_registers(self, call):
        rule = self.by_registers(call)
        return rule is not None and rule.verdict == "inject"

    def rests_on_nothing(self, at, seat, call, event):
        fits = event.kind != "act" or all(map(self.fits_part, plan(call.number, call.args), self.texts_of(event)))
        return not (fits and self.rests_on(FOREIGN, at, seat, call, event))

    def rests_on_others(self, at, seat, call, event):
        return not self.rests_on(STALE, at, seat, call, event) or (event.kind == "plant" and self.tables[at].memory.get(seat) is not call.task.group)

    def is_unchecked(self, at, seat, call, event):
        is_alone = not plan(call.number, call.args) and not self.is_checked(at, seat)
        return not self.rests_on(VALID, at, seat, call, event) or is_alone or (self.goes_from_base(event) and self.has_base(at, seat) and self.base_worth(at, seat) == FRESH)

    def is_torn(self, at, seat, call, event):
        """A text that it names never stood so in what was read."""
        if event.kind != "act":
            return False
        texts, parts = self.texts_of(event), plan(call.number, call.args)
        if tuple(texts) in self.whole_in(VALID, at, seat, call):
            return False
        return not any(all(self.stood(self.worth_least(least, at, seat), part, text) for part, text in zip(parts, texts)) for least in (VALID, FRESH))

    @staticmethod
    def goes_from_base(event):
        return event.kind == "act" and not decisions.path_of(event.facts[0]).startswith(b"/")

    def has_base(self, at, seat):
        return self.tables[at].base.get(seat) is not None

    def goes_elsewhere(self, at, seat, call, event):
        if not self.goes_from_base(event):
            return False
        return not (self.base_worth(at, seat) >= FRESH if self.has_base(at, seat) else self.is_base_refused(at, seat))

    def texts_done(self, at, seat, call, place):
        event = self.events[place]
        if event.kind != "addfd-put":
            return [self.texts_of(event)]
        # (where none is whole it rests on registers alone: any texts will do)
        copied = next(filter(None, (self.whole_in(least, at, seat, call) for least in (VALID, FRESH, STALE, FOREIGN))), [])
        return copied or [ANY_TEXTS]

    def grants_just(self, call, event, texts):
        rule = self.by_registers(call) if texts is ANY_TEXTS else self.decided(call, texts)
        if rule is None:
            return False
        if event.kind == "addfd-put":
            asked, put = event.facts[0], (rule.source, 0) if rule.place is None else (rule.source, rule.place)
            return rule.verdict == "inject" and (asked.srcfd, asked.newfd) == put and asked.flags & ~SEND == (0 if rule.place is None else SETFD)
        if rule.verdict != "grant":
            return False
        if event.kind == "plant":
            return event.facts[1] == self.kernel.container_sysinfo()
        return not isinstance(event.facts[0], Mount) or (event.facts[0].via, event.facts[0].shift) == (rule.via, rule.shift)

    def is_ungranted(self, at, seat, call, place):
        return not any(self.grants_just(call, self.events[place], texts) for texts in self.texts_done(at, seat, call, place))

    @staticmethod
    def is_done(event):
        return event.kind in ("act", "plant") and event.facts[-1] is None

    def done_by(self, at, rule):
        found = 0
        for place in range(at):
            event = self.events[place]
            if self.is_done(event) and event.actor[0] == "w":
                call = self.session_call(place, int(event.actor[1:]))
                found += call is not None and self.decided(call, self.texts_of(event)) is rule
        return found

    def is_used_up(self, at, rule):
        return rule.times is not None and rule.times <= self.done_by(at, rule)

    def is_too_often(self, at, call, event):
        return self.is_done(event) and self.is_used_up(at, self.decided(call, self.texts_of(event)))

    # ---- Answers

    def outcome_at(self, at, place):
        """A number, an error, or None where that isn't known yet."""
        if place is None:
            return None
        answer = self.events[place].facts[-1]
        if isinstance(answer, Fail):
            return answer
        if self.events[place].kind != "addfd-put":
            return 0
        installed = self.tables[at].installed[place]
        return Fail(ENOENT) if installed is None and self.puts[place].call not in self.tables[at].listed else installed

    def gave_at(self, at, place):
        outcome = self.outcome_at(at, place)
        return None if isinstance(outcome, Fail) else outcome

    def is_untold(self, at, call, texts, place):
        event = self.events[place]
        if event.kind not in EFFECTS or event.actor[0] != "w" or self.gave_at(at, place) is None:
            return False
        seat = int(event.actor[1:])
        earlier = self.session_call(place, seat)
        if earlier is None or earlier is call or earlier in self.tables[at].settled:
            return False
        are_alike = (earlier.task, earlier.number, earlier.args) == (call.task, call.number, call.args)
        done = self.texts_done(place, seat, earlier, place)
        return are_alike and self.is_entered_anew(at, earlier, call) and (done == [ANY_TEXTS] or bool(set(texts).intersection(done)))

    def is_entered_anew(self, at, earlier, call):
        """From its earlier call to this one the task did nothing else than to enter it again."""
        name = call.task.actor
        own = [(place, event) for place, event in enumerate(self.events[:at]) if event.actor == name]
        begun = next(place for place, event in own if self.tables[place + 1].in_call[call.task] is earlier and event.kind == "call")
        entered = next(place for place, event in own if self.tables[place + 1].in_call[call.task] is call and event.kind == "call")
        return begun < entered and all(self.enters_again(event, call) for place, event in own if begun < place < entered)

    @staticmethod
    def enters_again(event, call):
        if event.kind == "call":
            return (event.facts[0], tuple(event.facts[1])) == (call.number, tuple(call.args))
        return event.kind in ("install", "skip") or (event.kind == "deliver" and event.facts[1] in ("restart", "run"))

    def remembered(self, at, seat, call):
        texts = self.whole_in(VALID, at, seat, call)
        taken = self.told(at)
        return next((place for place in range(at) if place not in taken and self.is_untold(at, call, texts, place)), None)

    def told(self, at):
        """The places of the effects whose outcome a later call was told."""
        if at == 0:
            return frozenset()
        event, taken = self.events[at - 1], self.told(at - 1)
        is_accepted_value = event.kind == "send" and event.facts[2] is None and event.facts[1] != CONTINUE and not isinstance(event.facts[1], Fail)
        if not is_accepted_value or event.actor[0] != "w":
            return taken
        seat = int(event.actor[1:])
        call = self.session_call(at - 1, seat)
        if call is None or self.gave_at(at - 1, self.effect_of(at - 1, seat)) is not None:
            return taken
        place = self.remembered(at - 1, seat, call)
        return taken if place is None else taken | {place}

    def known_of(self, at, seat, call):
        return [copy for copy in self.copies_of(VALID, at, seat, call) if copy is not None]

    def has_effect(self, at, seat):
        return self.effect_of(at, seat) is not None

    def denies_by(self, at, rule, number):
        return rule is not None and (rule.error == number if rule.verdict == "deny" else rule.verdict == "grant" and number == EDQUOT and self.is_used_up(at, rule))

    def lacks_base(self, at, seat, call, texts, number):
        if self.decided(call, texts).verdict != "grant" or number != EBADF or not self.is_base_refused(at, seat):
            return False
        path = getattr(request_of(call.number, call.args, texts), "target", None) or getattr(request_of(call.number, call.args, texts), "path", None)
        return path is not None and not path.startswith(b"/")

    def leads_to_error(self, at, seat, call, number, copy):
        if isinstance(copy, Fail):
            return number == copy.number or self.denies_by(at, self.by_registers(call), number)
        return self.denies_by(at, self.decided(call, copy), number) or self.lacks_base(at, seat, call, copy, number)

    def denies_otherwise(self, at, seat, call, back):
        if not isinstance(back, Fail) or self.has_effect(at, seat):
            return False
        known = self.known_of(at, seat, call)
        return not (any(self.leads_to_error(at, seat, call, back.number, copy) for copy in known) or (not known and self.denies_by(at, self.by_registers(call), back.number)))

    def passes_by_registers(self, call):
        rule = self.by_registers(call)
        return rule is not None and rule.verdict == "pass"

    def passes_otherwise(self, at, seat, call, back):
        if back != CONTINUE:
            return False
        known = self.known_of(at, seat, call)
        is_said = any(self.passes_by_registers(call) if isinstance(copy, Fail) else self.decided(call, copy).verdict == "pass" for copy in known)
        return self.has_effect(at, seat) or not (is_said or (not known and self.passes_by_registers(call)))

    def has_no_cause(self, at, seat, call):
        return not self.has_effect(at, seat) and not self.known_of(at, seat, call) and self.by_registers(call) is None

    def number_told(self, at, seat, call):
        own = self.gave_at(at, self.effect_of(at, seat))
        return own if own is not None else self.gave_at(at, self.remembered(at, seat, call))

    @staticmethod
    def is_value(back):
        return back != CONTINUE and not isinstance(back, Fail)

    def reports_undone(self, at, seat, call, back):
        return self.is_value(back) and self.number_told(at, seat, call) is None

    def tells_otherwise(self, at, seat, call, back):
        if self.is_value(back):
            return self.number_told(at, seat, call) != back
        effect = self.effect_of(at, seat)
        if back == CONTINUE or effect is None:
            return False
        outcome, event = self.outcome_at(at, effect), self.events[effect]
        is_put = event.kind == "addfd-put" and event.facts[-1] is None
        return not (isinstance(outcome, Fail) and (back.number == outcome.number or (is_put and back.number == EMFILE)))

    def is_second(self, at, seat, answer):
        if answer is None:
            return False
        effect = self.effect_of(at, seat)
        outcome = self.outcome_at(at, effect)
        is_answering = effect is not None and self.events[effect].kind == "addfd-put" and self.events[effect].facts[0].flags & SEND != 0
        return self.has_sent(at, seat) or (is_answering and not (isinstance(outcome, Fail) and outcome.number in (EBADF, EMFILE)))

    # ---- Trusted

    def effect_breaks(self, at, seat, call):
        event = self.events[at]
        yield clauses.OTHER_REQUEST, lambda: self.asks_other(call, event)
        yield clauses.UNREAD, lambda: self.rests_on_nothing(at, seat, call, event)
        yield clauses.OTHER_MEMORY, lambda: self.rests_on_others(at, seat, call, event)
        yield clauses.STALE_COPY, lambda: not self.rests_on(FRESH, at, seat, call, event)
        yield clauses.UNCHECKED, lambda: self.is_unchecked(at, seat, call, event)
        yield clauses.TORN, lambda: self.is_torn(at, seat, call, event)
        yield clauses.OTHER_BASE, lambda: self.goes_elsewhere(at, seat, call, event)
        yield clauses.UNGRANTED, lambda: self.is_ungranted(at, seat, call, at)
        yield clauses.SPENT, lambda: self.is_too_often(at, call, event)
        yield clauses.AGAIN, lambda: self.has_effect(at, seat) and not isinstance(self.outcome_at(at, self.effect_of(at, seat)), Fail)
        yield clauses.AFTER_ANSWER, lambda: self.has_sent(at, seat)

    def answer_breaks(self, at, seat, call):
        identifier, back, answer = self.events[at].facts
        yield clauses.OTHER_ANSWER, lambda: call.id != identifier
        if answer is None:
            # (what the kernel refuses is told to nobody)
            yield clauses.UNCAUSED, lambda: self.has_no_cause(at, seat, call)
            yield clauses.DENIED_OTHERWISE, lambda: self.denies_otherwise(at, seat, call, back)
            yield clauses.PASSED_OTHERWISE, lambda: self.passes_otherwise(at, seat, call, back)
            yield clauses.GRANTED_NOT_DONE, lambda: self.reports_undone(at, seat, call, back)
            yield clauses.OTHER_OUTCOME, lambda: self.tells_otherwise(at, seat, call, back)
        yield clauses.ANSWERED_ALREADY, lambda: self.is_second(at, seat, answer)

    def call_left(self, at):
        """The call that an event may leave to nobody."""
        event = self.events[at]
        if event.actor[0] == "w" and (event.kind == "let-go" or self.is_receive(event)):
            return self.session_call(at, int(event.actor[1:]))
        if event.kind == "install":
            return self.tables[at].in_call[self.kernel.tasks[tuple(map(int, event.actor[1:].split(".")))]]
        return None

    def is_left(self, at, call):
        if call not in self.tables[at].waiting:
            return False
        fetchers = [int(event.actor[1:]) for place, event in enumerate(self.events[:at]) if self.is_receive(event) and event.facts[0].id == call.id and call in self.tables[place].listed]
        return not any(self.session_call(at, seat) is call for seat in fetchers)

    def broken_at(self, at):
        """The first clause that an event breaks, with its class, or None."""
        event = self.events[at]
        call = self.call_left(at)
        if call is not None and self.is_left(at + 1, call):
            return clauses.UNANSWERED, clauses.UNANSWERED.gravity
        if event.actor[0] != "w" or event.kind not in (*EFFECTS, "send"):
            return None
        seat = int(event.actor[1:])
        call = self.session_call(at, seat)
        has_failed = event.kind != "send" and isinstance(event.facts[-1], Fail)
        if call is None:
            clause = clauses.ANSWER_WITHOUT_CALL if event.kind == "send" else clauses.EFFECT_WITHOUT_CALL
            return clause, clause.gravity_of(has_failed)
        tests = list(self.answer_breaks(at, seat, call) if event.kind == "send" else self.effect_breaks(at, seat, call))
        clause = next((clause for clause, test in tests if test()), None)
        if clause is None:
            return None
        return clause, clause.gravity_of(has_failed, (later for later, test in tests if later in LATER and test()))

    def first_fault(self):
        """The place of the least event that breaks a clause, the clause and its class; None where no event does."""
        return next(((at, *found) for at in range(len(self.events)) for found in [self.broken_at(at)] if found is not None), None)
