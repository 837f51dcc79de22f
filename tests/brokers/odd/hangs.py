"""Receives a call, and then does nothing more."""
import sys
import time
from pathlib import Path

sys.path.insert(0, str(Path(__file__).resolve().parents[1]))
from common import Broker, main  # noqa: E402


class Hangs(Broker):
    def answer(self, notif):
        time.sleep(60)


if __name__ == "__main__":
    main(Hangs)
