"""Takes what can't be read for an empty path."""
import sys
from pathlib import Path

sys.path.insert(0, str(Path(__file__).resolve().parents[1]))
from common import Broker, main  # noqa: E402


class ForgetsEfault(Broker):
    def read(self, notif):
        try:
            return super().read(notif)
        except OSError:
            return b""


if __name__ == "__main__":
    main(ForgetsEfault)
