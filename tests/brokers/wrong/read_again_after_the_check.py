"""Reads the path once more behind the last check, and makes the node there."""
import sys
from pathlib import Path

sys.path.insert(0, str(Path(__file__).resolve().parents[1]))
from common import Broker, main  # noqa: E402


class ReadAgainAfterTheCheck(Broker):
    def make(self, notif, path):
        super().make(notif, self.read(notif))


if __name__ == "__main__":
    main(ReadAgainAfterTheCheck)
