"""All runs of a broker within a bound of delays, and what was found in them."""
import gc
import multiprocessing
import signal
import sys
from contextlib import contextmanager
from dataclasses import dataclass, field
from itertools import chain, islice, takewhile
from typing import Any, Dict, Iterator, List, Optional

from tools.commands.exploring.foresight import Foresight, Foretold
from tools.commands.exploring.runs import Kind, Past, Played, Run, Setting
from tools.commands.exploring.schedules import Planned, followers, is_run_in
from tools.commands.sharding.shares import WHOLE
from tools.references.judging.passing import Note

# how many runs one process takes at once
AT_ONCE = 8
# after how many objects it is looked for those that nobody holds
GARBAGE = 50_000
# these leave open what else there is
UNDECIDED = {Kind.HANGS, Kind.UNLIKE, Kind.NOT_SUPPORTED, Kind.TOO_MUCH, Kind.KERNELS_DIFFER, Kind.JUDGES_DIFFER}


@dataclass
class Found:
    """Something that was found, by its smallest run, and in how many runs it was."""

    played: Played
    runs: int = 1

    @property
    def size(self):
        return self.played.planned.total, self.played.steps, self.played.planned.order()


@dataclass
class Explored:
    """What came of an exploration."""

    delays: int
    runs: int = 0
    histories: set = field(default_factory=set)
    findings: Dict[tuple, Found] = field(default_factory=dict)
    troubles: Dict[tuple, Found] = field(default_factory=dict)
    # of each rule that passes calls of which other texts are denied, the first note
    notes: Dict[str, Note] = field(default_factory=dict)
    is_whole: bool = True

    def take(self, played: Played):
        self.runs += 1
        self.histories.add(played.digest)
        if played.told is not None:
            self.note(self.findings, played.told.about, played)
        if played.trouble is not None:
            self.note(self.troubles, tuple(played.trouble), played)
        for note in played.notes:
            self.notes.setdefault(note.rule, note)

    @staticmethod
    def note(known, key, played):
        """Keeps the smallest run of each thing that was found."""
        found = known.setdefault(key, Found(played, 0))
        found.runs += 1
        if Found(played).size < found.size:
            found.played = played

    @property
    def is_decided(self):
        return not any(kind in UNDECIDED for kind, _, _ in self.troubles)

    def in_order(self, known) -> List[Found]:
        """What was found, the smallest first."""
        return sorted(known.values(), key=lambda found: found.size)

    @property
    def has_found(self):
        return bool(self.findings) or any(kind is Kind.DIED for kind, _, _ in self.troubles)


class Sequence:
    """Runs, one after another: while the processes of one work by themselves, the next is foreseen. A broker is started when the one before has ended."""

    def __init__(self, setting: Setting):
        self.setting = setting
        # the newest run, and what was seen of the broker
        self.past: Optional[Past] = None
        self.foresight = Foresight(self.end)
        # the run that isn't over, and what came of those that are
        self.open: Optional[Run] = None
        self.played: List[Played] = []

    def play(self, schedules) -> Iterator[Played]:
        """Runs these schedules. Neighbours in their order have much in common, which is known from the run before."""
        for planned in schedules:
            self.begin(planned)
            yield from self.taken()
        self.end()
        yield from self.taken()

    def taken(self):
        """What came of the runs that are over by now."""
        taken, self.played = self.played, []
        return taken

    def begin(self, planned):
        try:
            self.begin_run(Run(self.setting, planned, self.past, self.foresight))
        except Foretold:
            self.foresight.give_up()
            self.begin_run(Run(self.setting, planned))

    def begin_run(self, run):
        """Begins a run, and ends the one before. Raises Foretold."""
        try:
            if not run.is_foreseen:
                self.end()
            run.begin()
            self.end()
            run.close()
        except BaseException:
            run.stop()
            raise
        self.open = run
        self.past = run.past if len(run.threads) == 1 else None

    def end(self):
        """Ends the run that isn't over, if there is one. Where it isn't what was foreseen, or not the same as before, it is run again, and nothing is known of it in advance."""
        run, self.open = self.open, None
        if run is None:
            return
        try:
            self.played.append(run.end())
        except Foretold:
            self.foresight.give_up()
            self.played.append(Run(self.setting, run.planned).play())

    def stop(self):
        """Ends what is still running."""
        if self.open is not None:
            self.open.stop()
            self.open.kernel.difference()
            self.open = None


# the sequence of the process that runs, and whether no more is to be run; a process of a pool gets them when it is made
sequence: Optional[Sequence] = None
over: Any = None


def set_sequence(setting):
    global sequence
    sequence = Sequence(setting)
    # (what there is by now stays, and a run leaves little behind)
    gc.freeze()
    gc.set_threshold(GARBAGE)


def begin_process(is_over):
    """What a process of a pool does first: an interrupt is for the one that has made it, and the end is told by `is_over`."""
    global over
    over = is_over
    signal.signal(signal.SIGINT, signal.SIG_IGN)
    signal.signal(signal.SIGTERM, lambda *_: sys.exit(1))


def run_some(schedules) -> List[Played]:
    """Runs schedules, or fewer where the end was told."""
    assert sequence is not None
    try:
        return list(sequence.play(takewhile(lambda _: not over.is_set(), schedules)))
    finally:
        sequence.stop()


def parts(schedules):
    """Schedules, so many of them at once."""
    left = iter(schedules)
    return iter(lambda: list(islice(left, AT_ONCE)), [])


@contextmanager
def runner(setting, jobs):
    """A function that runs schedules, in order, with so many processes. At the end each process finishes its run, and ends with all that it has started; none is killed, which could leave a lock of the
    pool taken. An interrupt doesn't wait for them: `watched` ends them."""
    set_sequence(setting)
    if jobs == 1:
        try:
            yield sequence.play
        finally:
            sequence.stop()
        return
    context = multiprocessing.get_context("fork")
    is_over = context.Event()
    pool = context.Pool(jobs, begin_process, (is_over,))
    is_interrupted = False
    try:
        yield lambda batch: chain.from_iterable(pool.imap(run_some, parts(batch)))
    except KeyboardInterrupt:
        is_interrupted = True
        raise
    finally:
        is_over.set()
        if not is_interrupted:
            pool.close()
            pool.join()


def explore(setting, delays, limit=None, jobs=1, tell=lambda explored: None, share=WHOLE, explored=None) -> Explored:
    """Runs a broker with every schedule of at most so many delays, those with fewer delays first; of more schedules than the limit only the first ones; of a share
    those that it takes. What comes of it is added to `explored`, if that is given."""
    explored = Explored(delays) if explored is None else explored
    planned = {0: [it for it in [Planned()] if is_run_in(it, share, delays)]}
    with runner(setting, jobs) as run:
        for total in range(delays + 1):
            batch = sorted(planned.pop(total, []), key=Planned.order)
            left = len(batch) if limit is None else max(limit - explored.runs, 0)
            if left < len(batch):
                explored.is_whole = False
            for played in run(islice(batch, left)):
                explored.take(played)
                tell(explored)
                if not explored.is_decided:
                    explored.is_whole = False
                    return explored
                for follower in followers(played.planned, played.choices, delays):
                    if is_run_in(follower, share, delays):
                        planned.setdefault(follower.total, []).append(follower)
    return explored
