"""Ends with a status where the call that it answers has gone."""
import sys
from pathlib import Path

sys.path.insert(0, str(Path(__file__).resolve().parents[1]))
from common import Broker, main  # noqa: E402


class Dies(Broker):
    def check(self, notif):
        if not self.seat.id_valid(notif.id):
            print("the call has gone")
            sys.exit(3)


if __name__ == "__main__":
    main(Dies)
