"""Remembers what came of a call whose answer was lost, and tells it to the next caller with the same PID."""
import sys
from pathlib import Path

sys.path.insert(0, str(Path(__file__).resolve().parents[1]))
from common import Broker, main  # noqa: E402


class RemembersResultsByPid(Broker):
    def __init__(self, kernel):
        super().__init__(kernel)
        self.results = {}

    def make(self, notif, path):
        error = self.results.pop(notif.pid) if notif.pid in self.results else self.effect(notif, path)
        try:
            self.seat.send(notif.id, error=error)
        except FileNotFoundError:
            self.results[notif.pid] = error
            raise


if __name__ == "__main__":
    main(RemembersResultsByPid)
