"""Puts the descriptor into the caller first, and then answers the call with the number that it has got."""
import errno
import sys
from pathlib import Path

sys.path.insert(0, str(Path(__file__).resolve().parents[1]))
from common import Broker, CallerGone, LOG, main  # noqa: E402


class PutAndSendApart(Broker):
    def inject(self, notif):
        try:
            self.seat.addfd(notif.id, LOG, flags=0)
            number = self.seat.addfd_result()
        except FileNotFoundError:
            raise CallerGone from None
        except OSError:
            self.seat.send(notif.id, error=errno.EMFILE)
        else:
            self.seat.send(notif.id, value=number)


if __name__ == "__main__":
    main(PutAndSendApart)
