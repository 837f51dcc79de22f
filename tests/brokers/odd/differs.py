"""Makes other calls each time that it is started."""
import os
import sys
from pathlib import Path

sys.path.insert(0, str(Path(__file__).resolve().parents[1]))
from common import Broker, main  # noqa: E402


class Differs(Broker):
    def check(self, notif):
        self.seat.pread(int.from_bytes(os.urandom(2), "little"), 0x10000)
        super().check(notif)


if __name__ == "__main__":
    main(Differs)
