"""Takes an answer that came too late for one that has failed, and makes the node once more."""
import sys
from pathlib import Path

sys.path.insert(0, str(Path(__file__).resolve().parents[1]))
from common import Broker, main  # noqa: E402


class ActsAgainAfterAFailedSend(Broker):
    def make(self, notif, path):
        try:
            super().make(notif, path)
        except FileNotFoundError:
            super().make(notif, path)


if __name__ == "__main__":
    main(ActsAgainAfterAFailedSend)
