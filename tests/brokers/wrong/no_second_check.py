"""Doesn't check again behind the copy: the call may have been interrupted while the path was read, and its memory used for something else."""
import sys
from pathlib import Path

sys.path.insert(0, str(Path(__file__).resolve().parents[1]))
from common import Broker, main  # noqa: E402


class NoSecondCheck(Broker):
    def copy(self, notif):
        self.open(notif)
        self.check(notif)
        return self.read(notif)


if __name__ == "__main__":
    main(NoSecondCheck)
