"""Right brokers in other styles than the manual's. They serve the policy beside this file, and nothing is found of any of them, with none of the scripts."""
import sys
from collections import deque

from common import CONTINUE, Broker, CallerGone, Decision, decide, main, path_address, receive, received_now


# ---- one call after another


class ReadsUntilTheSame(Broker):
    """Reads the whole path until it is twice the same, and checks once."""

    def copy(self, notif):
        self.open(notif)
        try:
            last, path = None, self.read(notif)
            while path != last:
                last, path = path, self.read(notif)
            return path
        finally:
            self.check(notif)


class MeasuresFirst(Broker):
    """Reads the path for its length, and then just so many bytes: those alone count."""

    def read(self, notif):
        while True:
            path = super().read(notif)
            again, end, _ = self.seat.pread(len(path) + 1, path_address(notif)).partition(b"\0")
            if end:
                return again


class ChecksAroundAll(Broker):
    """Checks before and behind whatever it does."""

    def open(self, notif):
        self.check(notif)
        super().open(notif)

    def read(self, notif):
        self.check(notif)
        try:
            return super().read(notif)
        finally:
            self.check(notif)

    def carry_out(self, notif, path, decision):
        self.check(notif)
        super().carry_out(notif, path, decision)


class OpensBehindTheRead(Broker):
    """Opens the directory behind the read: the check behind it says whose it is."""

    def open(self, notif):
        try:
            self.seat.open_mem(notif.pid)
        except ProcessLookupError:
            raise CallerGone from None

    def read(self, notif):
        path = super().read(notif)
        try:
            self.seat.open_dir(notif.pid)
        except ProcessLookupError:
            raise CallerGone from None
        return path


class OpensAgain(Broker):
    """Opens the memory anew for each piece, and checks behind the last one."""

    def read(self, notif):
        self.open(notif)
        return super().read(notif)


class NeverLetsGo(Broker):
    """Lets go of nothing: the next receive does that."""

    def run(self):
        for notif in self.seat.notifications():
            try:
                self.answer(notif)
            except (CallerGone, FileNotFoundError):
                pass


class PollsFirst(Broker):
    """Asks whether a call is there before it waits for one."""

    def run(self):
        while True:
            self.kernel.is_notified()
            notif = next(self.seat.notifications(), None)
            if notif is None:
                return
            self.serve(notif)


class KeepsDecisions(Broker):
    """Decides once for each path and device, and keeps the decision."""

    def __init__(self, kernel, number=0):
        super().__init__(kernel, number)
        self.decisions = {}

    def carry_out(self, notif, path, decision):
        known = self.decisions.setdefault((notif.nr, path, notif.args[1:3]), decision)
        super().carry_out(notif, path, known)


class TriesAgain(Broker):
    """Makes a node once more where that has failed."""

    def effect(self, notif, path):
        error = super().effect(notif, path)
        return super().effect(notif, path) if error else 0


# ---- several calls in hand


class ThreeInHand:
    """Receives up to three calls, reads for all of them, and answers them in the order in which they came."""

    def __init__(self, kernel):
        self.kernel = kernel

    def run(self):
        while hands := receive(self.kernel, 3):
            copies = [(broker, notif, self.copied(broker, notif)) for broker, notif in hands]
            for broker, notif, path in copies:
                self.answered(broker, notif, path)

    @staticmethod
    def copied(broker, notif):
        """The path, or why there is none."""
        try:
            return broker.copy(notif) if path_address(notif) is not None else b""
        except (CallerGone, OSError) as fault:
            return fault

    @staticmethod
    def answered(broker, notif, path):
        try:
            if isinstance(path, OSError):
                broker.seat.send(notif.id, error=path.errno)
            elif not isinstance(path, CallerGone):
                broker.carry_out(notif, path, decide(notif, path) if path_address(notif) is not None else Decision.PASS)
        except (CallerGone, FileNotFoundError):
            pass
        broker.seat.let_go()


class PoolOfWorkers:
    """Workers that make their calls in turn, as the threads of a pool do, and receive where a call is there."""

    MOST = 3

    def __init__(self, kernel):
        self.kernel = kernel

    def run(self):
        at_work = {}
        while True:
            idle = next((number for number in range(self.MOST) if number not in at_work), None)
            notif = None if idle is None else self.received(self.kernel.seat(idle), bool(at_work))
            if notif is not None:
                at_work[idle] = self.serving(Broker(self.kernel, idle), notif)
            if not at_work:
                return
            for number, steps in list(at_work.items()):
                if next(steps, self) is self:
                    del at_work[number]

    def received(self, seat, is_at_work):
        """A call. Only where no worker is at work it is waited for; then None says that the listener is closed."""
        if not is_at_work:
            return next(seat.notifications(), None)
        return received_now(seat) if self.kernel.is_notified() else None

    def serving(self, broker, notif):
        """Serves a call, and rests behind each step."""
        try:
            yield from self.answering(broker, notif)
        except (CallerGone, FileNotFoundError):
            pass
        broker.seat.let_go()

    def answering(self, broker, notif):
        if path_address(notif) is None:
            broker.seat.send(notif.id, flags=CONTINUE)
            return
        broker.open(notif)
        yield
        broker.check(notif)
        yield
        try:
            path = broker.read(notif)
        except OSError as error:
            path = error
        yield
        broker.check(notif)
        yield
        if isinstance(path, OSError):
            broker.seat.send(notif.id, error=path.errno)
        else:
            broker.carry_out(notif, path, decide(notif, path))


class ReceivesThenQueues:
    """Receives all that is there into a queue, and serves the oldest."""

    def __init__(self, kernel):
        self.kernel, self.queue = kernel, deque()

    def run(self):
        while True:
            self.queue.extend(receive(self.kernel) if not self.queue else ())
            if not self.queue:
                return
            broker, notif = self.queue.popleft()
            broker.serve(notif)


STYLES = (
    ReadsUntilTheSame, MeasuresFirst, ChecksAroundAll, OpensBehindTheRead, OpensAgain, NeverLetsGo, PollsFirst, KeepsDecisions, TriesAgain, ThreeInHand, PoolOfWorkers,
    ReceivesThenQueues,
)


if __name__ == "__main__":
    # (the name of a class, and a policy and a script where the environment names no kernel)
    name = sys.argv.pop(1)
    main(globals()[name])
