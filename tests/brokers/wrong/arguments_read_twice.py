"""Decides by one reading of the path, and makes the node at what it reads later."""
import sys
from pathlib import Path

sys.path.insert(0, str(Path(__file__).resolve().parents[1]))
from common import Broker, main  # noqa: E402


class ArgumentsReadTwice(Broker):
    def make(self, notif, path):
        again = self.read(notif)
        self.check(notif)
        super().make(notif, again)


if __name__ == "__main__":
    main(ArgumentsReadTwice)
