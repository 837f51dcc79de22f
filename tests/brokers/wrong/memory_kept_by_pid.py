"""Keeps the memory of a caller open, and takes it for that of the next one with the same PID."""
import sys
from pathlib import Path

sys.path.insert(0, str(Path(__file__).resolve().parents[1]))
from common import Broker, CallerGone, main  # noqa: E402


class MemoryKeptByPid(Broker):
    opened_for = None

    def serve(self, notif):
        # (without letting go, which would close the memory)
        try:
            self.answer(notif)
        except (CallerGone, FileNotFoundError):
            pass

    def open(self, notif):
        if self.opened_for != notif.pid:
            super().open(notif)
            self.opened_for = notif.pid


if __name__ == "__main__":
    main(MemoryKeptByPid)
