"""Polls for a second call while it has one in hand, and then waits for it, though it may have gone between the two."""
import sys
from pathlib import Path

sys.path.insert(0, str(Path(__file__).resolve().parents[1]))
from common import Broker, main  # noqa: E402


class WaitsWithACallInHand(Broker):
    def run(self):
        other = Broker(self.kernel, 1)
        for notif in self.seat.notifications():
            second = next(other.seat.notifications(), None) if self.kernel.is_notified() else None
            self.serve(notif)
            if second is not None:
                other.serve(second)


if __name__ == "__main__":
    main(WaitsWithACallInHand)
