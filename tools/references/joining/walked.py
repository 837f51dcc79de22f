"""The simulated kernel with the written worker, one step after another, and with what came of the calls so far. It keeps no events."""
from __future__ import annotations

import copy
from typing import TYPE_CHECKING, Any, Dict, List, Tuple

from tools.references.stepping.facts import CALL_NAMES, CONTINUE, SEND, SETFD, Addfd, Fail, call_text, result_text
from tools.references.stepping.kernel import ENOENT, ESRCH, Kernel, Worker
from tools.references.stepping.reports import EDQUOT, WORDS, outcome_at_entry, outcome_by, request_text
from tools.references.stepping.rules import Copy, Mount, OpenAt, SetXattr, Sysinfo, base_of, decide, request_of

if TYPE_CHECKING:
    from tools.references.stepping.trees import Tree

EMFILE = 24
O_CLOEXEC_BIT = 0o2000000


class Entry:
    """A call that a task entered, and what came of it."""

    __slots__ = ("number", "verdict", "outcome", "installed", "audit", "effect")

    def __init__(self, number: int, verdict: str, outcome: str) -> None:
        self.number, self.verdict, self.outcome = number, verdict, outcome
        # the number of a descriptor was given; the rule, the verdict and the reply of its session, where that is over; and what it did
        self.installed, self.audit, self.effect = False, None, None

    def copied(self):
        return copy.copy(self)


class Effect:
    """An effect of a session, with the node that it was done on, if it may be taken from sight."""

    __slots__ = ("text", "request", "node")

    def __init__(self, text, request, node):
        self.text, self.request, self.node = text, request, node


class Session:
    """A worker's open session: its steps, and what they say."""

    def __init__(self, notif, entry):
        self.notif, self.entry, self.own = notif, entry, [("recv", notif)]
        self.copy = Copy(notif.number, notif.args)
        self.opened = self.based = self.gives_up = self.is_gone = self.is_spent = self.has_sent = self.is_lost = False
        self.checks = self.good_checks = 0
        self.put = self.taken = self.outcome = None

    def copied(self, entries: Dict[int, Entry]) -> Session:
        new = copy.copy(self)
        new.own, new.copy, new.entry = list(self.own), copy.copy(self.copy), entries[id(self.entry)]
        new.copy.texts = list(self.copy.texts)
        return new

    def take(self, kind: str, facts: Tuple[Any, ...]) -> None:
        """Notes a step of the session."""
        self.own.append((kind, *facts))
        answer = facts[-1]
        error = answer.number if isinstance(answer, Fail) else None
        if kind == "open-mem":
            self.opened = True
        if kind == "open-base":
            self.based = True
        if kind in ("open-mem", "open-base") and error == ESRCH:
            self.gives_up = self.is_gone = True
        if kind == "check":
            self.checks += 1
            self.good_checks += error is None
            self.gives_up |= error is not None
            self.is_gone |= error == ENOENT
        if kind == "read" and self.good_checks < 2:
            self.copy.hear(answer)
        if kind in ("act", "plant"):
            self.outcome = (answer,)
            self.is_spent |= error == EDQUOT
        if kind == "addfd-put":
            self.put = (answer,)
            self.gives_up |= error == ENOENT
        if kind == "addfd-take":
            self.taken = (answer,)
            self.gives_up |= error in (None, ENOENT)
        if kind in ("addfd-put", "addfd-take", "send"):
            self.is_lost |= error == ENOENT
        if kind == "send":
            self.gives_up = True
            self.has_sent |= error is None

    def audit(self, rules):
        """The rule, the verdict and the reply, when it is over."""
        reply = "sent" if self.has_sent or self.entry.installed else "lost" if self.is_lost else "none"
        if self.is_gone:
            return "-", "gone", reply
        if self.good_checks < 2 or (self.copy.fault is None and not self.copy.is_whole):
            return "-", "open", reply
        if self.copy.fault:
            return "-", "fault", reply
        rule = decide(rules, self.request)
        return rule.name, "spent" if self.is_spent else rule.verdict, reply

    @property
    def request(self):
        return request_of(self.notif.number, self.notif.args, self.copy.texts)


class Walked(Kernel):
    def __init__(self, rules, container):
        self.rules = rules
        self.length, self.last, self.spent = 0, "t0", {}
        self.lines, self.sessions = {}, {}
        super().__init__(container)
        self.events = None

    def note(self, actor, kind, *facts):
        self.length += 1
        self.last = actor if actor[0] in "tw" else "t0"
        if actor[0] == "t":
            self.note_of_task(actor, kind, facts)
        return kind, facts

    # ---- what comes of the calls

    def note_of_task(self, actor, kind, facts):
        mine = self.lines.setdefault(actor, [])
        if kind == "call":
            number, _, verdict = facts
            text = WORDS["call"](number, (), verdict).split(" ")[-1] if verdict[0] != "notify" else "notify"
            mine.append(Entry(number, text, outcome_at_entry(verdict)))
        elif mine and not mine[-1].outcome:
            mine[-1].outcome = outcome_by(kind, facts)
            if kind == "install" and not isinstance(facts[0], Fail):
                mine[-1].installed = True

    # ---- the worker

    def deed(self, number):
        """What a worker does next, as a function that does it; None where it would wait."""
        session = self.sessions.get(number)
        if session is None:
            return None if self.received == self.entered_calls else (lambda: self.begin(number))
        notif = session.notif
        if session.gives_up:
            return lambda: self.end(number)
        if not session.opened:
            return lambda: self.open_memory(number, notif.pid)
        dirfd = base_of(notif.number, notif.args)
        if dirfd is not None and not session.based:
            return lambda: self.open_base(number, notif.pid, dirfd)
        if session.checks == 0:
            return lambda: self.check(number, notif.id)
        if session.copy.wanted is not None and session.copy.fault is None:
            return lambda: self.read(number, *session.copy.wanted)
        if session.checks == 1:
            return lambda: self.check(number, notif.id)
        if session.copy.fault:
            return lambda: self.send(number, notif.id, session.copy.fault)
        return self.decided_deed(number, session, decide(self.rules, session.request))

    def decided_deed(self, number, session, rule):
        request, x = session.request, session.notif.id
        if rule.verdict == "deny":
            return lambda: self.send(number, x, Fail(rule.error))
        if rule.verdict == "pass":
            return lambda: self.send(number, x, CONTINUE)
        if rule.verdict == "grant":
            if session.outcome is not None:
                return lambda: self.send(number, x, 0 if session.outcome[0] is None else session.outcome[0])
            return lambda: self.grant(number, rule, request)
        flags = (request.flags // O_CLOEXEC_BIT % 2) * O_CLOEXEC_BIT if isinstance(request, OpenAt) else 0
        if session.put is None:
            asked = Addfd(x, SEND if rule.place is None else SEND | SETFD, rule.source, rule.place or 0, flags)
            return lambda: self.put(number, asked)
        if session.put[0] is not None:
            return lambda: self.send(number, x, session.put[0])
        if session.taken is None:
            put = self.worker(number).request
            return None if put.answer is None and put.call.is_listed else (lambda: self.take(number))
        return lambda: self.send(number, x, Fail(EMFILE))

    def grant(self, number, rule, request):
        if rule.times is not None and self.spent.get(rule.name, 0) >= rule.times:
            if isinstance(request, Sysinfo):
                answer = ("plant", (request.address, Fail(EDQUOT)))
            else:
                answer = ("act", (self.as_granted(rule, request), Fail(EDQUOT)))
            self.note(f"w{number}", answer[0], *answer[1])
            self.of_session(number, *answer)
            return answer
        if isinstance(request, Sysinfo):
            kind, facts = self.plant(number, request.address, self.container_sysinfo())
        else:
            self.tree = copied_tree(self.tree)
            kind, facts = super().act(number, self.as_granted(rule, request))
            self.of_session(number, kind, facts)
        if facts[-1] is None and rule.times is not None:
            self.spent[rule.name] = self.spent.get(rule.name, 0) + 1
        return kind, facts

    @staticmethod
    def as_granted(rule, request):
        return request._replace(via=rule.via, shift=rule.shift) if isinstance(request, Mount) else request

    def begin(self, number: int) -> Tuple[str, Tuple[Any]]:
        kind, facts = super().receive(number)
        if not isinstance(facts[0], Fail):
            call = self.named(facts[0].id)
            self.sessions[number] = Session(facts[0], self.lines[call.task.actor][-1])
        return kind, facts

    def end(self, number):
        session = self.sessions.pop(number)
        session.entry.audit = session.audit(self.rules)
        return super().let_go(number)

    def of_session(self, number, kind, facts):
        session = self.sessions[number]
        session.take(kind, facts)
        if kind == "act":
            done = facts[1] is None
            node = None
            if done and isinstance(facts[0], Mount):
                node = len(self.tree.nodes) - 1
            elif done and isinstance(facts[0], SetXattr):
                node = self.tree.walk(facts[0].path, self.worker(number).base, creates=False)
            session.entry.effect = Effect(f"{request_text(facts[0])} {result_text(facts[1])}", facts[0], node)
        elif kind == "plant":
            session.entry.effect = Effect(WORDS["plant"](*facts), None, None)
        return kind, facts

    def open_memory(self, number, pid):
        return self.of_session(number, *super().open_memory(number, pid))

    def open_base(self, number, pid, dirfd):
        return self.of_session(number, *super().open_base(number, pid, dirfd))

    def check(self, number, identifier):
        return self.of_session(number, *super().check(number, identifier))

    def read(self, number, address, length):
        return self.of_session(number, *super().read(number, address, length))

    def plant(self, number, address, content):
        return self.of_session(number, *super().plant(number, address, content))

    def put(self, number, asked):
        return self.of_session(number, *super().put(number, asked))

    def take(self, number):
        return self.of_session(number, *super().take(number))

    def send(self, number, identifier, back):
        return self.of_session(number, *super().send(number, identifier, back))

    def run_natively(self, task):
        self.tree = copied_tree(self.tree)
        return super().run_natively(task)

    # ---- who may step

    def turns(self, most: int) -> List[str]:
        """The actors that are able to step, by their turns, each with its step; the number of the last worker is given."""
        circle = [task.actor for task in self.tasks.values()] + [f"w{number}" for number in range(most + 1)]
        at = circle.index(self.last)
        idle = next((number for number in range(most + 1) if number not in self.sessions), None)
        found = []
        for actor in circle[at:] + circle[:at]:
            if actor[0] == "t":
                step = self.step_of(self.by_actor(actor))
            else:
                number = int(actor[1:])
                step = self.deed(number) if number in self.sessions or number == idle else None
            if step is not None:
                found.append(actor)
        return found

    def by_actor(self, actor):
        return self.tasks[tuple(map(int, actor[1:].split(".")))]

    def go(self, actor: str) -> None:
        """The step of an actor that is able to step."""
        if actor[0] == "t":
            self.step(self.by_actor(actor))
        else:
            self.deed(int(actor[1:]))()

    # ---- a copy

    def copied(self):
        """The same tables again; what never changes is shared."""
        new = object.__new__(Walked)
        new.__dict__.update(self.__dict__)
        entries, groups, tasks, calls, requests = {}, {}, {}, {}, {}
        new.lines = {actor: [entries.setdefault(id(entry), copy.copy(entry)) for entry in mine] for actor, mine in self.lines.items()}
        new.sessions = {number: session.copied(entries) for number, session in self.sessions.items()}
        new.spent = dict(self.spent)

        def group(old):
            if id(old) not in groups:
                groups[id(old)] = old.copied()
            return groups[id(old)]

        def call(old):
            if old is None:
                return None
            if id(old) not in calls:
                calls[id(old)] = made = copy.copy(old)
                made.queue = [request(one) for one in old.queue]
                made.task = task(old.task)
            return calls[id(old)]

        def request(old):
            if old is None:
                return None
            if id(old) not in requests:
                requests[id(old)] = made = copy.copy(old)
                made.call = call(old.call)
            return requests[id(old)]

        def task(old):
            if old is None:
                return None
            if id(old) not in tasks:
                tasks[id(old)] = made = copy.copy(old)
                made.group = group(old.group)
                made.handlers, made.pending = dict(old.handlers), set(old.pending)
                made.parent = task(old.parent)
                made.children = {number: task(child) for number, child in old.children.items()}
                made.call = call(old.call)
            return tasks[id(old)]

        new.tasks = {name: task(one) for name, one in self.tasks.items()}
        new.holders = {pid: task(one) for pid, one in self.holders.items()}
        new.calls = [call(one) for one in self.calls]
        new.workers = {number: Worker(None if one.memory is None else group(one.memory), one.base, request(one.request)) for number, one in self.workers.items()}
        return new

    # ---- what it comes to

    def outcome_lines(self):
        """The lines of the outcome, where nobody is able to step."""
        lines = []
        for name in sorted(self.tasks):
            actor = "t" + ".".join(map(str, name))
            for number, entry in enumerate(self.lines.get(actor, []), 1):
                came = entry.outcome or "open"
                if entry.number in CALL_NAMES and CALL_NAMES[entry.number] == "getpid" and came.isdigit() and int(came) > 0:
                    came = "pid"
                audit = "rule={} verdict={} reply={}".format(*entry.audit) if entry.audit else "rule=- verdict=- reply=-"
                lines.append(f"{actor} {number} {call_text(entry.number)} {entry.verdict} {came} {audit}")
                if entry.effect is not None:
                    lines.append(f" did {entry.effect.text}{self.fate(entry.effect)}")
        return tuple(lines)

    def fate(self, effect: Effect) -> str:
        """What became of an effect that a later one took from sight."""
        if effect.node is None:
            return ""
        if isinstance(effect.request, Mount):
            return " covered" if effect.node in self.tree.mounted else ""
        return " replaced" if self.tree.attributes.get((effect.node, effect.request.name)) != effect.request.value else ""


def copied_tree(tree: Tree) -> Tree:
    """A tree of its own, since a step may change it."""
    new = copy.copy(tree)
    new.nodes, new.entries, new.attributes = list(tree.nodes), dict(tree.entries), dict(tree.attributes)
    new.mounted, new.covered = dict(tree.mounted), dict(tree.covered)
    return new
