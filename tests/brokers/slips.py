"""Wrong brokers, a slip each: with each the clause that finds it, over which script, and with how many delays.

They serve the policy beside this file. Those of clauses.py are one for each clause; here are what brokers do that were written in haste.
"""
import errno
import sys
from typing import NamedTuple

from common import CONTINUE, HARMLESS, LOG, Broker, CallerGone, Decision, decide, main, path_address, receive, received_now


# ---- those that stop, or never begin


class Quits(Broker):
    """Ends at once."""

    def run(self):
        pass


class ServesOnce(Broker):
    """Ends behind its first call."""

    def run(self):
        notif = next(self.seat.notifications(), None)
        if notif is not None:
            self.serve(notif)


class OnlyPolls(Broker):
    """Asks for ever whether a call is there, and receives none."""

    def run(self):
        while True:
            self.kernel.is_notified()


class ForgetsTheSecond(Broker):
    """Receives a second call where one is there, and serves the first alone."""

    def run(self):
        while hands := receive(self.kernel):
            hands[0][0].serve(hands[0][1])


class OneSeatForTwo(Broker):
    """Receives the next call before it has answered the first, in the same seat."""

    def run(self):
        for notif in self.seat.notifications():
            self.serve(self.kernel.is_notified() and received_now(self.seat) or notif)


class LeavesFaults(Broker):
    """Answers nothing where the path can't be read."""

    def answer(self, notif):
        try:
            super().answer(notif)
        except OSError:
            pass

    def copy(self, notif):
        try:
            return super().copy(notif)
        except OSError as error:
            raise CallerGone from error


class PutsWithoutAnAnswer(Broker):
    """Puts the descriptor in, and takes that for the answer."""

    def inject(self, notif):
        self.seat.addfd(notif.id, LOG, flags=0)
        self.seat.addfd_result()


# ---- those that read another's memory, or nothing


class ChecksFirst(Broker):
    """Checks, and then opens and reads."""

    def copy(self, notif):
        self.check(notif)
        self.open(notif)
        return self.read(notif)


class IgnoresTheCheck(Broker):
    """Checks, and goes on whatever comes of it."""

    def check(self, notif):
        self.seat.id_valid(notif.id)


class OpensOnce(Broker):
    """Opens the memory of its first caller, and of no other."""

    has_opened = False

    def serve(self, notif):
        try:
            self.answer(notif)
        except (CallerGone, FileNotFoundError):
            pass

    def open(self, notif):
        if not self.has_opened:
            super().open(notif)
            self.has_opened = True


class KeepsPaths(Broker):
    """Keeps the path of an address, and reads it once."""

    def __init__(self, kernel):
        super().__init__(kernel)
        self.paths = {}

    def read(self, notif):
        key = notif.pid, path_address(notif)
        if key not in self.paths:
            self.paths[key] = super().read(notif)
        return self.paths[key]


class CutsPaths(Broker):
    """Reads the first four bytes, and takes them for the path."""

    def read(self, notif):
        return self.seat.pread(4, path_address(notif)).rstrip(b"\0")


class ReadsBehindTheCheck(Broker):
    """Opens and checks in one order and reads behind the last check."""

    def copy(self, notif):
        self.open(notif)
        self.check(notif)
        self.check(notif)
        return self.read(notif)


# ---- those that decide or do otherwise than they should


class GrantsAll(Broker):
    """Grants each device, wherever it is."""

    def carry_out(self, notif, path, decision):
        super().carry_out(notif, path, Decision.GRANT if decision is Decision.DENY else decision)


class LooksAtTheName(Broker):
    """Makes the node at the path's last name."""

    def effect(self, notif, path):
        return super().effect(notif, path.split(b"/")[-1])


class MakesAnotherMode(Broker):
    """Makes the node for its owner alone."""

    def effect(self, notif, path):
        try:
            self.seat.mknodat(path, 0o020600, notif.args[2])
        except OSError as error:
            return error.errno
        return 0


class MakesTheFirst(Broker):
    """Makes always the same device."""

    def effect(self, notif, path):
        major, minor = sorted(HARMLESS)[1]
        try:
            self.seat.mknodat(path, notif.args[1] % 2**16, major * 256 + minor)
        except OSError as error:
            return error.errno
        return 0


class MakesTwice(Broker):
    """Makes the node twice, since a second time does no harm."""

    def effect(self, notif, path):
        error = super().effect(notif, path)
        super().effect(notif, path)
        return error


class MakesBeforeItChecks(Broker):
    """Makes the node as soon as the path is read, and checks before the answer."""

    def copy(self, notif):
        self.open(notif)
        return self.read(notif)

    def make(self, notif, path):
        error = self.effect(notif, path)
        self.check(notif)
        self.seat.send(notif.id, error=error)


class AnswersFirst(Broker):
    """Answers with success, and then makes the node."""

    def make(self, notif, path):
        self.seat.send(notif.id)
        self.effect(notif, path)


class MakesBehindTheLetGo(Broker):
    """Lets go of a call, and makes its node then."""

    def make(self, notif, path):
        self.seat.let_go()
        self.seat.send(notif.id, error=self.effect(notif, path))


class PutsAnother(Broker):
    """Puts another descriptor in than the policy says, which the broker has open too."""

    def inject(self, notif):
        self.seat.addfd(notif.id, LOG, newfd=9, flags=3)
        self.seat.addfd_result()


# ---- those that answer otherwise than they should


class DeniesWithAnother(Broker):
    """Denies with EACCES, where the policy says EPERM."""

    def carry_out(self, notif, path, decision):
        if decision is Decision.DENY:
            self.seat.send(notif.id, error=errno.EACCES)
        else:
            super().carry_out(notif, path, decision)


class DeniesAll(Broker):
    """Denies each call with EPERM, and reads nothing."""

    def answer(self, notif):
        self.seat.send(notif.id, error=errno.EPERM)


class PassesFaults(Broker):
    """Leaves a call to the kernel whose path can't be read."""

    def answer(self, notif):
        try:
            path = self.copy(notif)
        except OSError:
            self.seat.send(notif.id, flags=CONTINUE)
            return
        self.carry_out(notif, path, decide(notif, path))


class PassesDenied(Broker):
    """Leaves to the kernel what the policy denies."""

    def carry_out(self, notif, path, decision):
        super().carry_out(notif, path, Decision.PASS if decision is Decision.DENY else decision)


class HidesErrors(Broker):
    """Answers EPERM for each error of the effect."""

    def effect(self, notif, path):
        return errno.EPERM if super().effect(notif, path) else 0


class SaysNothingWasDone(Broker):
    """Answers ENOSYS behind an effect that was done."""

    def effect(self, notif, path):
        super().effect(notif, path)
        return errno.ENOSYS


class AnswersZero(Broker):
    """Puts the descriptor in, and answers 0 in place of its number."""

    def inject(self, notif):
        self.seat.addfd(notif.id, LOG, flags=0)
        try:
            self.seat.addfd_result()
        except FileNotFoundError:
            raise CallerGone from None
        self.seat.send(notif.id)


class SwapsAnswers:
    """Holds two calls, and answers each with the id of the other."""

    def __init__(self, kernel):
        self.kernel = kernel

    def run(self):
        while hands := receive(self.kernel):
            for (broker, notif), (_, other) in zip(hands, reversed(hands)):
                self.serve(broker, notif, other)

    @staticmethod
    def serve(broker, notif, other):
        try:
            path = broker.copy(notif)
            broker.seat.send(other.id, error=broker.effect(notif, path))
        except (CallerGone, FileNotFoundError):
            pass
        broker.seat.let_go()


class Slip(NamedTuple):
    """A broker, the clause and its class, over which script it is found, and with how many delays."""

    broker: type
    clause: str
    gravity: str
    script: str
    delays: int = 0


SLIPS = (
    Slip(Quits, "unanswered", "answer", "existing"), Slip(ServesOnce, "unanswered", "answer", "followed"), Slip(OnlyPolls, "unanswered", "answer", "existing"),
    Slip(ForgetsTheSecond, "unanswered", "answer", "together", 2), Slip(OneSeatForTwo, "unanswered", "answer", "together", 2),
    Slip(LeavesFaults, "unanswered", "answer", "unmapped"), Slip(PutsWithoutAnAnswer, "unanswered", "answer", "opened", 1),
    Slip(ChecksFirst, "unchecked", "order", "existing"), Slip(IgnoresTheCheck, "stale-copy", "harm", "reused", 3), Slip(OpensOnce, "other-memory", "order", "followed"),
    Slip(KeepsPaths, "unread", "order", "followed"), Slip(CutsPaths, "unread", "harm", "followed"),
    Slip(ReadsBehindTheCheck, "unchecked", "order", "existing"),
    Slip(GrantsAll, "ungranted", "harm", "followed"), Slip(LooksAtTheName, "unread", "harm", "followed"), Slip(MakesAnotherMode, "other-request", "harm", "followed"),
    Slip(MakesTheFirst, "other-request", "harm", "together"), Slip(MakesTwice, "again", "order", "followed"), Slip(MakesBeforeItChecks, "unchecked", "order", "followed"),
    Slip(AnswersFirst, "granted-not-done", "answer", "followed"), Slip(MakesBehindTheLetGo, "unanswered", "answer", "followed"), Slip(PutsAnother, "ungranted", "harm", "opened", 1),
    Slip(DeniesWithAnother, "denied-otherwise", "answer", "followed"), Slip(DeniesAll, "uncaused", "answer", "followed"), Slip(PassesFaults, "passed-otherwise", "answer", "unmapped"),
    Slip(PassesDenied, "passed-otherwise", "answer", "followed"), Slip(HidesErrors, "other-outcome", "answer", "existing"), Slip(SaysNothingWasDone, "other-outcome", "answer", "followed"),
    Slip(AnswersZero, "other-outcome", "answer", "opened", 1), Slip(SwapsAnswers, "other-answer", "harm", "together", 2),
)


if __name__ == "__main__":
    # (the name of a class, and a policy and a script where the environment names no kernel)
    name = sys.argv.pop(1)
    main(globals()[name])
