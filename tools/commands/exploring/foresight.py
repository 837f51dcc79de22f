"""What a broker of one thread asks for next, as it was seen in earlier runs.

A broker goes by the answers that it gets. So where it has got the same ones before, it is known what comes next, and it needn't be listened to: it is sent all answers at once, and what it has asked for is compared with what was
foreseen. An answer begins with the number of its event, which differs as soon as a task steps between; few brokers look at it, so it is left out first. Where that has led astray once, answers are taken as they are; and nothing is
foreseen of a broker that differs even then, or has threads.
"""
from typing import Callable, Dict, List, NamedTuple, Optional

from tools.commands.exploring.bounds import TooMuch
from tools.commands.exploring.instances import CLOSED, Hangs, NotSupported, ProcessInstance

DIGITS = b"0123456789"
# how many places are kept of a broker
MOST_PLACES = 100_000


class Foretold(Exception):
    """A run isn't like the earlier ones, by which it was foreseen or answered in advance."""


class Place:
    """Where a broker is, by the answers that it has got: what it asks for there, once that was seen, and where each answer to it leads."""

    __slots__ = ("request", "behind")

    def __init__(self):
        self.request: Optional[bytes] = None
        self.behind: Dict[bytes, Place] = {}


class Foresight:
    """All that was seen of a broker."""

    def __init__(self, before_start: Callable = lambda: None):
        """`before_start` is called before an instance is started."""
        self.before_start = before_start
        self.has_numbers, self.is_over = False, False
        self.first, self.places = Place(), 1

    def behind(self, place, answer):
        """The place to which an answer leads."""
        seen = answer if self.has_numbers else answer.lstrip(DIGITS)
        found = place.behind.get(seen)
        if found is None:
            found = Place()
            if self.places < MOST_PLACES:
                place.behind[seen] = found
                self.places += 1
        return found

    def give_up(self):
        """Foresees less, since a broker differed."""
        self.is_over = self.is_over or self.has_numbers
        self.has_numbers = True
        self.first, self.places = Place(), 1


class Answered(NamedTuple):
    """A request that was foreseen, and its answer."""

    request: bytes
    answer: bytes


class Foreseen:
    """An instance that isn't listened to as long as it is known what it asks for. It is started once that isn't known any more, or all of the run is."""

    def __init__(self, instance: ProcessInstance, foresight: Foresight):
        self.instance, self.foresight, self.place = instance, foresight, foresight.first
        self.answered: List[Answered] = []
        # whether it has asked for what was foreseen, and whether it is told of the close
        self.is_seen = self.is_closed = False

    @property
    def status(self):
        return self.instance.status

    @property
    def output(self):
        return self.instance.output

    def start(self):
        pass

    def wait(self):
        """The calls for which it waits, or None where it has ended. Raises Foretold, and what an instance raises."""
        if not self.is_seen:
            if self.place.request is not None:
                return [(0, self.place.request)]
            self.begin()
            self.see()
        calls = self.instance.wait()
        self.learn(calls)
        return calls

    def learn(self, calls):
        if calls is None:
            return
        if len(calls) != 1 or calls[0][0] != 0:
            self.foresight.is_over = True
        elif self.place.request is None:
            self.place.request = calls[0][1]

    def reply(self, thread, answer):
        if self.is_seen:
            self.instance.reply(thread, answer)
        else:
            self.answered.append(Answered(self.place.request, answer))
        self.place = self.foresight.behind(self.place, answer)

    def goes_on(self, thread):
        return self.is_seen and self.instance.goes_on(thread)

    def begin(self, *more):
        """Starts it, with all of its answers, and more ones. Raises NotSupported."""
        self.foresight.before_start()
        self.instance.start()
        self.instance.foretell([it.answer for it in self.answered] + list(more))

    def see(self):
        """Sees whether it asks for what was foreseen. Raises Foretold."""
        try:
            if not self.makes_all():
                raise Foretold
        except (Hangs, NotSupported, TooMuch):
            raise Foretold from None
        self.is_seen = True

    def makes_all(self):
        """Whether it makes the calls that were foreseen, and waits for the answer to the last one where it is told of the close."""
        if self.instance.advance >= len(self.answered):
            has_made = self.instance.makes([it.request for it in self.answered])
        else:
            # (there was no room for all answers)
            has_made = all(self.makes(it) for it in self.answered)
        return has_made and (not self.is_closed or self.waits_for(self.place.request))

    def makes(self, answered):
        if not self.waits_for(answered.request):
            return False
        self.instance.reply(0, answered.answer)
        return True

    def waits_for(self, request):
        return self.instance.wait() == [(0, request)]

    def close(self):
        """Tells it that the listener is closed, for which it isn't waited. Raises NotSupported."""
        self.is_closed = True
        if self.is_seen:
            self.instance.close()
        else:
            self.begin(CLOSED)

    def greet(self):
        self.instance.greet()

    def finish(self):
        """Waits for its end. Raises Foretold, and what an instance raises."""
        if not self.is_seen:
            self.see()
        self.instance.finish()

    def stop(self):
        self.instance.stop()
