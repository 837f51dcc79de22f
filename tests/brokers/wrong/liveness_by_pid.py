"""Asks whether somebody with the caller's PID lives, and not whether the call still waits."""
import sys
from pathlib import Path

sys.path.insert(0, str(Path(__file__).resolve().parents[1]))
from common import Broker, CallerGone, main  # noqa: E402


class LivenessByPid(Broker):
    def check(self, notif):
        other = self.kernel.seat(1)
        try:
            other.open_mem(notif.pid)
        except ProcessLookupError:
            raise CallerGone from None
        other.let_go()


if __name__ == "__main__":
    main(LivenessByPid)
