"""For each clause of the judge a broker that breaks it, in a few lines, and what it does wrong. docs/reference/CLAUSES.md shows them.

All serve the policy of tests/judged/defined, as the broker does from which they are made: the node /a may be made once and a always, /b may not, the container's figures are told once, and other nodes are left to the kernel.
"""
import errno
import os
import sys
from typing import NamedTuple

from common import Broker, CallerGone
from seccomp_step import CONTINUE

SYS_SYSINFO = 99
NULL, ZERO = os.makedev(1, 3), os.makedev(1, 5)
FIGURES = bytes.fromhex("00" * 104 + "01000000" + "00000000")


class Right(Broker):
    """Does what is right; each of the others does a part of it in another way."""

    def __init__(self, kernel):
        super().__init__(kernel)
        self.spent = set()

    def serve(self, notif):
        try:
            self.answer(notif)
        except (CallerGone, OSError):
            # (an answer that comes too late is refused)
            pass
        self.seat.let_go()

    def reply(self, notif, error=0, flags=0):
        self.seat.send(notif.id, error=error, flags=flags)

    def answer(self, notif):
        if notif.nr == SYS_SYSINFO:
            self.tell_figures(notif)
        else:
            self.decide(notif, self.copy(notif))

    def decide(self, notif, path):
        if path in (b"/a", b"a"):
            self.grant(notif, path)
        elif path == b"/b":
            self.reply(notif, error=errno.EACCES)
        else:
            self.reply(notif, flags=CONTINUE)

    def grant(self, notif, path):
        if path in self.spent:
            self.reply(notif, error=errno.EDQUOT)
            return
        self.reply(notif, error=self.effect(notif, path))

    def effect(self, notif, path):
        error = super().effect(notif, path)
        if error == 0 and path == b"/a":
            self.spent.add(path)
        return error

    def tell_figures(self, notif):
        if SYS_SYSINFO in self.spent:
            self.reply(notif, error=errno.EDQUOT)
            return
        self.open(notif)
        self.check(notif)
        self.seat.write_sysinfo(notif.args[0], FIGURES)
        self.spent.add(SYS_SYSINFO)
        self.reply(notif)


# ---- mistakes of an effect


class MakesInAdvance(Right):
    def run(self):
        # a device that everybody asks for sooner or later
        self.seat.mknodat(b"/a", 0o020666, NULL)
        super().run()


class MakesAnotherDevice(Right):
    def effect(self, notif, path):
        self.seat.mknodat(path, 0o020666, ZERO)
        return 0


class ReadsNothing(Right):
    def copy(self, notif):
        self.check(notif)
        # what was asked for the last time
        return b"/a"


class ReadsAnother(Right):
    def copy(self, notif):
        # whoever has the caller's PID by now
        self.open(notif)
        return self.read(notif)


class ReadsLate(Right):
    def copy(self, notif):
        self.open(notif)
        self.check(notif)
        # no check after the read: the call may have been given up meanwhile
        return self.read(notif)


class ChecksBefore(Right):
    def copy(self, notif):
        # the call waits, so its memory is opened and read
        self.check(notif)
        self.open(notif)
        return self.read(notif)


class ReadsTwice(Right):
    def read(self, notif):
        # the directory first, and the name when it is needed: another task may write between them
        path = super().read(notif)
        name_at = path.rfind(b"/") + 1
        return path[:name_at] + super().read(notif)[name_at:]


class OpensNoDirectory(Right):
    def open(self, notif):
        # a relative path goes from wherever the broker is
        self.seat.open_mem(notif.pid)


class MakesWhatIsDenied(Right):
    def decide(self, notif, path):
        # the device is harmless, so its place doesn't matter
        self.grant(notif, path)


class NeverCounts(Right):
    def tell_figures(self, notif):
        self.open(notif)
        self.check(notif)
        # as often as it is asked
        self.seat.write_sysinfo(notif.args[0], FIGURES)
        self.reply(notif)


class MakesAgain(Right):
    def reply(self, notif, error=0, flags=0):
        try:
            super().reply(notif, error, flags)
        except FileNotFoundError:
            # the answer was lost, so all of it is done once more
            self.effect(notif, b"/a")


class MakesBehindTheAnswer(Right):
    def grant(self, notif, path):
        if path in self.spent:
            self.reply(notif, error=errno.EDQUOT)
        # (the `return` is missing)
        self.reply(notif, error=self.effect(notif, path))


# ---- mistakes of an answer


class AnswersBehindTheLetGo(Right):
    def serve(self, notif):
        super().serve(notif)
        try:
            # in case that nothing was answered
            self.reply(notif, error=errno.EIO)
        except OSError:
            pass


class AnswersByPid(Right):
    def reply(self, notif, error=0, flags=0):
        # the id that the process had when it was first seen
        identifier = self.ids.setdefault(notif.pid, notif.id)
        self.seat.send(identifier, error=error, flags=flags)

    def run(self):
        self.ids = {}
        super().run()


class PassesUnread(Right):
    def answer(self, notif):
        # a null device does no harm, wherever it is
        self.reply(notif, flags=CONTINUE)


class DeniesWithAnother(Right):
    def reply(self, notif, error=0, flags=0):
        super().reply(notif, errno.EPERM if error else 0, flags)


class PassesWhatIsDenied(Right):
    def decide(self, notif, path):
        if path in (b"/a", b"a"):
            self.grant(notif, path)
        else:
            # the kernel will refuse what isn't allowed
            self.reply(notif, flags=CONTINUE)


class TellsUndone(Right):
    def grant(self, notif, path):
        # it is made later, by another thread
        self.reply(notif)


class HidesSuccess(Right):
    def grant(self, notif, path):
        self.effect(notif, path)
        # whatever came of it
        self.reply(notif, error=errno.EPERM)


class AnswersTwice(Right):
    def decide(self, notif, path):
        if path == b"/b":
            self.reply(notif, error=errno.EACCES)
        # (the `return` is missing)
        super().decide(notif, path)


class LetsGo(Right):
    def decide(self, notif, path):
        if path == b"/b":
            # nothing is done for it
            return
        super().decide(notif, path)


class Shown(NamedTuple):
    """A broker, the history of its clause, the clause and its class, over which script it is found, and with how many delays."""

    broker: type
    history: str
    clause: str
    gravity: str
    script: str
    delays: int = 0


CLAUSES = (
    Shown(MakesInAdvance, "acts_unasked", "no-call", "harm", "one_node"), Shown(MakesAnotherDevice, "makes_other", "other-request", "harm", "one_node"),
    Shown(ReadsNothing, "reads_nothing", "unread", "harm", "one_node"), Shown(ReadsAnother, "reads_another", "other-memory", "harm", "reused", 3),
    Shown(ReadsLate, "reads_late", "stale-copy", "harm", "reused", 3), Shown(ChecksBefore, "checks_before", "unchecked", "order", "one_node"),
    Shown(ReadsTwice, "tears", "torn", "harm", "rewritten", 2),
    Shown(OpensNoDirectory, "opens_no_base", "other-base", "order", "near_node"), Shown(MakesWhatIsDenied, "makes_denied", "ungranted", "harm", "shut_node"),
    Shown(NeverCounts, "tells_too_often", "spent", "harm", "two_figures"), Shown(MakesAgain, "makes_again", "again", "order", "restarted", 3),
    Shown(MakesBehindTheAnswer, "acts_late", "after-answer", "order", "two_nodes"),
    Shown(AnswersBehindTheLetGo, "answers_unasked", "no-call", "answer", "one_node"), Shown(AnswersByPid, "answers_another", "other-answer", "harm", "two_nodes"),
    Shown(PassesUnread, "passes_unread", "uncaused", "answer", "one_node"), Shown(DeniesWithAnother, "denies_with_another", "denied-otherwise", "answer", "shut_node"),
    Shown(PassesWhatIsDenied, "passes_denied", "passed-otherwise", "answer", "shut_node"), Shown(TellsUndone, "tells_undone", "granted-not-done", "answer", "one_node"),
    Shown(HidesSuccess, "hides_success", "other-outcome", "answer", "one_node"), Shown(AnswersTwice, "answers_twice", "answered-already", "answer", "shut_node"),
    Shown(LetsGo, "lets_go", "unanswered", "answer", "shut_node"),
)


if __name__ == "__main__":
    # (the name of a class, and a policy and a script where the environment names no kernel)
    from common import main

    name = sys.argv.pop(1)
    main(globals()[name])
