"""Remembers that it has made a node whose answer was lost, and tells it to the call when that is entered anew.

It knows such a call by its PID, its registers and its path, read again and checked. Another task may have got that PID and ask for the very same: so a broker on Linux would hold a pidfd of the
caller (pidfd_open(2)), and forget the node once that process has ended. The simulated kernel has no pidfds.
"""
import sys
from pathlib import Path

sys.path.insert(0, str(Path(__file__).resolve().parents[1]))
from common import Broker, main  # noqa: E402


class RemembersLostAnswers(Broker):
    def __init__(self, kernel):
        super().__init__(kernel)
        self.made = set()

    def make(self, notif, path):
        wanted = (notif.pid, notif.nr, notif.args, path)
        error = 0 if wanted in self.made else self.effect(notif, path)
        try:
            self.seat.send(notif.id, error=error)
        except FileNotFoundError:
            if error == 0:
                self.made.add(wanted)
            raise
        self.made.discard(wanted)


if __name__ == "__main__":
    main(RemembersLostAnswers)
