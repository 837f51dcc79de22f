"""One run of a broker, in the order that a schedule says."""
import os
import re
from dataclasses import dataclass, field
from enum import Enum
from functools import lru_cache
from hashlib import blake2b
from itertools import islice
from typing import Callable, Dict, List, NamedTuple, Optional, Tuple

from tools.commands.exploring.bounds import Bounds, TooMuch
from tools.commands.exploring.foresight import Foreseen, Foresight, Foretold
from tools.commands.exploring.instances import Hangs, InlineInstance, NotSupported, ProcessInstance, drive
from tools.commands.exploring.kernels import Asked, Difference, Kernel
from tools.commands.exploring.schedules import Choice, Planned, first_difference
from tools.references.judging.passing import Note, notes
from tools.references.stepping.sessions import Session

SEATS = 16
# how many calls of the kernel may come to nothing one after another, and how many events a run may have
MOST_IDLE, MOST_EVENTS = 1_000, 100_000
OF_WORKER = re.compile(rb"w (\d+) (\S+)(.*)", re.S)
RECEIVES = (b"recv", b"recv-raw")
# a receive into a structure of zeros, as the kernel wants it
ZEROED = re.compile(rb"recv-raw 0{160}")
# of so many requests with at most so many bytes it is kept what they say
KEPT, MOST_KEPT = 4_096, 512


@dataclass
class Files:
    """A policy and a script: where they are, and what they say."""

    policy: str
    script: str
    rules: list
    container: object
    # what the rules were found to decide, and what they deny beside calls that they pass
    decided: dict = field(default_factory=dict)
    denied: dict = field(default_factory=dict)

    def words(self, program):
        """The words that start a program on them."""
        return [program, "step", os.fspath(self.policy), os.fspath(self.script)]


class Setting(NamedTuple):
    """What all runs of an exploration have in common."""

    files: Files
    # gives the instances of the broker, not yet started
    make: Callable
    program: Optional[str] = None
    bounds: Bounds = Bounds()

    def seats_each(self, instances):
        return SEATS // len(instances)


class Words(NamedTuple):
    """The words of a worker's request: the seat, what is asked for, and all behind it."""

    seat: int
    word: bytes
    rest: bytes


def words_of(request) -> Optional[Words]:
    """The words of a request; None where it isn't a worker's."""
    return words_of_short(request) if len(request) <= MOST_KEPT else words_in(request)


@lru_cache(KEPT)
def words_of_short(request):
    return words_in(request)


def words_in(request):
    found = OF_WORKER.fullmatch(ZEROED.sub(b"recv", request))
    return Words(int(found[1]), found[2], found[3]) if found else None


@lru_cache(KEPT)
def step_request(task):
    """The request by which a task steps."""
    return b"t " + ".".join(map(str, task)).encode()


class Kind(Enum):
    """What came of a run besides a broken clause."""

    DIED = "died"
    HANGS = "hangs"
    UNLIKE = "unlike"
    NOT_SUPPORTED = "not supported"
    TOO_MUCH = "too-much"
    KERNELS_DIFFER = "kernels differ"
    JUDGES_DIFFER = "judges differ"


class Trouble(NamedTuple):
    kind: Kind
    instance: int
    text: str


class Told(NamedTuple):
    """A broken clause, as it is told: its name and class, the call that it is about, and the judge's text."""

    clause: str
    gravity: str
    task: str
    ordinal: int
    text: str

    @property
    def about(self):
        return self.clause, self.task, self.ordinal


@dataclass
class Played:
    """What came of a run."""

    planned: Planned
    choices: List[Choice] = field(default_factory=list)
    steps: int = 0
    digest: bytes = b""
    told: Optional[Told] = None
    trouble: Optional[Trouble] = None
    # what the policy passes, and denies for other texts
    notes: Tuple[Note, ...] = ()
    # of a run that is told: what was asked, how much of it leads to the broken clause, the report, the script that plays to it, if there is one, and what the broker has written
    session: List[Asked] = field(default_factory=list)
    shown: int = 0
    report: str = ""
    script: str = ""
    output: bytes = b""


class Unlike(Exception):
    """The run isn't the one that it was planned to be."""


class Actor(NamedTuple):
    """A task by its name, or a thread of an instance by their numbers."""

    task: Optional[tuple] = None
    instance: int = -1
    thread: int = 0


class Turn(NamedTuple):
    """A turn of a run: how many actors were able, and which one stepped."""

    able: int
    actor: Actor


class Exchange(NamedTuple):
    """A request of a broker of one thread, and its answer."""

    request: bytes
    answer: bytes


@dataclass
class Past:
    """What a run was like, by which a later one goes up to the first choice where the two differ. `marks` has how many turns and exchanges there were before each choice."""

    delays: tuple = ()
    turns: List[Turn] = field(default_factory=list)
    exchanges: List[Exchange] = field(default_factory=list)
    marks: List[tuple] = field(default_factory=list)

    def shared(self, planned):
        """The turns and the exchanges with which a run begins as this one did, as far as that is known."""
        at = first_difference(self.delays, planned.delays)
        turns, exchanges = self.marks[at] if at is not None and at < len(self.marks) else (0, 0)
        return self.turns[:turns], self.exchanges[:exchanges]


class Run:
    def __init__(self, setting: Setting, planned: Planned, past: Optional[Past] = None, foresight: Optional[Foresight] = None):
        """`past` is a run before, of a broker with one instance; `foresight` is what was seen of such a one in all runs."""
        self.planned = planned
        self.delays = {delay.choice: delay.count for delay in planned.delays}
        self.setting, self.kernel = setting, Kernel(setting.files)
        self.instances = self.foreseen(setting.make(), foresight)
        self.seats = setting.seats_each(self.instances)
        # the tasks and the threads of instances that there are, in their order
        self.tasks: List[Actor] = []
        self.threads: List[Actor] = []
        # of each thread the request that isn't answered yet
        self.pending: Dict[Actor, bytes] = {}
        self.polled_at: Dict[Actor, int] = {}
        self.idle_calls = [0] * len(self.instances)
        self.calls = 0
        self.has_stepped = [False] * len(self.instances)
        # what is known in advance, and what there was
        self.known_turns, self.foretold = past.shared(planned) if past is not None else ([], [])
        self.past = Past(planned.delays)
        # the instance that was heard last
        self.current = 0
        self.last = Actor(task=(0,))
        self.hash = blake2b(digest_size=8)
        # how many requests had been made when a clause was broken
        self.shown = None
        self.is_given_up = False
        self.played = Played(planned)

    @staticmethod
    def foreseen(instances, foresight):
        """The instances, of which a single process is listened to where nothing is foreseen of it."""
        if foresight is None or foresight.is_over or len(instances) > 1 or not isinstance(instances[0], ProcessInstance):
            return instances
        return [Foreseen(instances[0], foresight)]

    @property
    def is_foreseen(self):
        """Whether it goes by what was foreseen, and that isn't seen yet."""
        return any(isinstance(it, Foreseen) and not it.is_seen for it in self.instances)

    # ---- the whole

    def play(self) -> Played:
        """Runs the broker. Raises Foretold."""
        try:
            self.begin()
            self.close()
        except BaseException:
            self.stop()
            raise
        return self.end()

    def begin(self):
        """Makes all steps. What is foreseen of the broker needn't have happened by then. Raises Foretold."""
        if isinstance(self.instances[0], InlineInstance):
            self.attempt(lambda: self.instances[0].drive(self.course()))
        else:
            self.attempt(lambda: drive(self.instances, self.course()))

    def close(self):
        """Behind that: starts what is to work by itself. Raises Foretold."""
        self.attempt(self.close_foreseen)
        if self.setting.program is not None:
            self.kernel.ask_program(self.setting.files.words(self.setting.program))
        self.attempt(self.greet_foreseen)

    def end(self) -> Played:
        """Waits for that, and tells what came of the run. Raises Foretold."""
        try:
            self.attempt(self.finish)
        finally:
            self.stop()
            difference = self.kernel.difference()
        if difference is not None and difference.place < len(self.kernel.requests):
            self.end_before(difference)
        elif difference is not None:
            self.played.trouble = None
            self.trouble_by(Kind.JUDGES_DIFFER, difference, "judge")
        self.tell()
        return self.played

    def attempt(self, part):
        """Does a part of the run, unless it was given up. Raises Foretold."""
        if self.is_given_up:
            return
        try:
            part()
        except (Hangs, NotSupported, TooMuch, Unlike) as wrong:
            if self.is_foreseen:
                raise Foretold from None
            self.is_given_up = True
            self.trouble(*self.told_of(wrong))

    def close_foreseen(self):
        for instance in self.instances:
            if isinstance(instance, Foreseen) and instance.status is None:
                instance.close()

    def greet_foreseen(self):
        for instance in self.instances:
            if isinstance(instance, Foreseen):
                instance.greet()

    def finish(self):
        for instance in self.instances:
            if instance.status is None:
                instance.finish()

    def stop(self):
        for instance in self.instances:
            instance.stop()

    @staticmethod
    def told_of(wrong):
        """What is told of a run that was given up."""
        if isinstance(wrong, Hangs):
            return Kind.HANGS, "it makes no call of the kernel, and doesn't end"
        if isinstance(wrong, NotSupported):
            return Kind.NOT_SUPPORTED, wrong.args[0]
        if isinstance(wrong, TooMuch):
            return Kind.TOO_MUCH, wrong.args[0]
        return Kind.UNLIKE, "it doesn't make the same calls as when it ran before, up to here"

    def course(self):
        """The run: it gives the number of each instance whose next call it wants to hear, and is sent the call. It goes on behind a broken clause, without delays, so that the broker ends as it would."""
        for number, instance in enumerate(self.instances):
            self.current = number
            instance.start()
            self.note_calls((yield number))
            first = Actor(instance=number)
            if self.pending.get(first) == b"able":
                # (a client asks it to see that policy and script were taken)
                self.answer(first)
                self.note_calls((yield number))
        while self.take_turn():
            if self.last.task is not None:
                self.ask(step_request(self.last.task))
            else:
                self.has_stepped[self.last.instance] = True
                self.answer(self.last)
                self.note_calls((yield self.current))
                while self.last in self.pending and self.instances[self.last.instance].goes_on(self.last.thread):
                    self.answer(self.last)
                    self.note_calls((yield self.current))
            if len(self.kernel.state.events) > MOST_EVENTS:
                raise Hangs
        self.kernel.note_idle()

    def end_before(self, difference: Difference):
        """Ends the run before a request that the program answers otherwise."""
        asked = self.kernel.session
        request = asked[difference.place].request
        self.kernel, self.shown, self.played.trouble = Kernel(self.setting.files), None, None
        for before in asked[:difference.place]:
            self.ask(before.request)
        self.kernel.follower.answer(request)
        self.trouble_by(Kind.KERNELS_DIFFER, difference, "kernel")

    def trouble_by(self, kind, difference, name):
        """Notes that the program answers otherwise than what has this name in Python."""
        texts = (it.decode("latin-1").rstrip().replace("\n", " ") for it in (difference.request, difference.told, difference.other))
        self.trouble(kind, "`{}` is answered `{}` by the {name} in Python, and `{}` by the program".format(*texts, name=name))

    def tell(self):
        """Writes down what came of the run."""
        state, fault = self.kernel.state, self.kernel.judge.fault
        self.played.steps = fault.place if fault is not None else len(state.events) - 1
        self.played.digest = self.hash.digest()
        self.played.shown = self.shown if self.shown is not None else len(self.kernel.requests)
        self.played.notes = tuple(notes(self.kernel.judge, self.setting.files.denied))
        is_judged = self.played.trouble is None or self.played.trouble.kind is not Kind.JUDGES_DIFFER
        if fault is not None and is_judged:
            entry = self.kernel.judge.entries.get(fault.call)
            task = fault.call.task.actor if fault.call is not None else "-"
            self.played.told = Told(fault.clause.name, fault.gravity.value, task, entry.ordinal if entry else 0, fault.text(state.events))
        if fault is not None or self.played.trouble is not None:
            self.played.session = self.kernel.session
            self.played.report, self.played.script = self.texts()
            self.played.output = b"".join(instance.output for instance in self.instances)

    def texts(self):
        """The report of the whole run, and the script that plays to it; empty where that would be longer than a script may be."""
        session: Session = self.kernel.follower.session
        if not self.kernel.state.is_closed:
            session.answer(b"close")
        return tuple(session.answer(word).partition("\n")[2] for word in (b"report", b"script"))

    def trouble(self, kind, text):
        if self.played.trouble is None:
            self.played.trouble = Trouble(kind, self.current, text)

    # ---- turns

    def choose(self, width):
        """How many able actors are passed over. Raises Unlike."""
        if width == 1 or self.shown is not None:
            return 0
        at, digest = len(self.played.choices), self.hash.digest()
        self.played.choices.append(Choice(width, digest))
        self.past.marks.append((len(self.past.turns), len(self.past.exchanges)))
        count = self.delays.get(at, 0)
        is_last = self.planned.delays and at == self.planned.delays[-1].choice
        if count >= width or (is_last and self.planned.wanted not in (None, digest)):
            raise Unlike
        return count

    def take_turn(self):
        """Finds who steps next; whether anybody does. Raises Unlike and Foretold."""
        at = len(self.past.turns)
        if at < len(self.known_turns):
            turn = self.known_turns[at]
            self.choose(turn.able)
            if turn.actor.task is None and turn.actor not in self.pending:
                raise Foretold
        else:
            able = self.able()
            if not able:
                return False
            turn = Turn(len(able), able[self.choose(len(able))])
        self.past.turns.append(turn)
        self.last = turn.actor
        return True

    def able(self):
        """The actors that can step, round the circle from the one that stepped last."""
        self.tasks.extend(Actor(task=name) for name in islice(self.kernel.state.tasks, len(self.tasks), None))
        circle = self.tasks + self.threads
        begin = circle.index(self.last)
        return [actor for actor in circle[begin:] + circle[:begin] if self.is_able(actor)]

    def is_able(self, actor):
        if actor.task is not None:
            state = self.kernel.state
            return state.step_of(state.tasks[actor.task]) is not None
        return actor in self.pending and not self.is_waiting(actor) and not self.is_alike(actor.instance)

    def calls_of(self, number):
        """The requests of an instance that aren't answered yet."""
        return {actor.thread: request for actor, request in self.pending.items() if actor.instance == number}

    def is_alike(self, number):
        """Whether an instance before this one has done nothing yet either, and waits for the same."""
        if number == 0 or self.has_stepped[number]:
            return False
        return any(not self.has_stepped[before] and self.calls_of(before) == self.calls_of(number) for before in range(number))

    def is_waiting(self, actor):
        """Whether the real call would wait: a receive, the result of a descriptor, and a poll that was answered just before."""
        state, request = self.kernel.state, self.pending[actor]
        if request == b"able":
            return self.polled_at.get(actor) == len(state.events)
        words = words_of(request)
        if words is None or words.seat >= self.seats:
            return False
        if words.word in RECEIVES:
            return state.received == state.entered_calls
        if words.word != b"addfd-result":
            return False
        put = state.worker(self.seat(actor.instance, words.seat)).request
        return put is not None and put.answer is None and put.call.is_listed

    # ---- calls of the broker

    def ask(self, request):
        told = self.kernel.ask(request)
        self.hash.update(request + b"\n" + told)
        if self.kernel.judge.fault is not None and self.shown is None:
            self.shown = len(self.kernel.requests)
        return told

    def seat(self, number, seat):
        """The worker that the seat of an instance is."""
        return number * self.seats + seat

    def mapped(self, number, request):
        """A request of an instance as the kernel gets it. Raises NotSupported."""
        words = words_of(request)
        if words is None:
            if request.split(b" ")[0] in (b"t", b"close"):
                raise NotSupported(f"the broker asks for `{request.decode('latin-1')}`: under this tool the tasks step by themselves")
            return request
        if words.seat >= SEATS:
            return request
        return b"w %d %s%s" % (self.seat(number, words.seat) if words.seat < self.seats else SEATS, words.word, words.rest)

    def answer(self, actor):
        """Makes the call that a thread waits for."""
        number, request, before = actor.instance, self.pending.pop(actor), len(self.kernel.state.events)
        told = self.ask(self.mapped(number, request))
        if request == b"able":
            self.polled_at[actor] = len(self.kernel.state.events)
        self.idle_calls[number] = 0 if len(self.kernel.state.events) > before else self.idle_calls[number] + 1
        if self.idle_calls[number] > MOST_IDLE:
            raise Hangs
        self.calls += 1
        self.setting.bounds.test_calls(self.calls)
        at, exchange = len(self.past.exchanges), Exchange(request, told)
        self.past.exchanges.append(exchange)
        if at < len(self.foretold) and exchange != self.foretold[at]:
            raise Foretold
        self.current = number
        self.instances[number].reply(actor.thread, told)

    def note_calls(self, calls):
        """Notes the calls that the instance waits for that was heard last, each with its thread; or that it has ended."""
        if calls is None:
            self.note_end(self.current)
            return
        for thread, request in calls:
            actor = Actor(instance=self.current, thread=thread)
            self.pending[actor] = request
            if actor not in self.threads:
                self.threads.append(actor)
                self.threads.sort()

    def note_end(self, number):
        """Notes that an instance has ended in the midst of the run."""
        self.pending = {actor: request for actor, request in self.pending.items() if actor.instance != number}
        status = self.instances[number].status
        if status:
            self.trouble(Kind.DIED, f"it was ended by signal {-status}" if status < 0 else f"it ended with status {status}")
