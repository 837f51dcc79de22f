"""Tells the caller that its node was made where there was one already."""
import errno
import sys
from pathlib import Path

sys.path.insert(0, str(Path(__file__).resolve().parents[1]))
from common import Broker, main  # noqa: E402


class HidesEexist(Broker):
    def effect(self, notif, path):
        error = super().effect(notif, path)
        return 0 if error == errno.EEXIST else error


if __name__ == "__main__":
    main(HidesEexist)
