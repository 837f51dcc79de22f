"""Makes no check at all: the memory that it opens by the caller's PID may be another task's."""
import sys
from pathlib import Path

sys.path.insert(0, str(Path(__file__).resolve().parents[1]))
from common import Broker, main  # noqa: E402


class NoCheck(Broker):
    def check(self, notif):
        pass


if __name__ == "__main__":
    main(NoCheck)
