"""Holds all calls that are there, each in a seat of its own: reads for all of them, and only then acts and answers."""
import sys
from pathlib import Path

sys.path.insert(0, str(Path(__file__).resolve().parents[1]))
from common import CallerGone, Decision, decide, main, path_address, receive  # noqa: E402


class SeveralInHand:
    def __init__(self, kernel):
        self.kernel = kernel

    def run(self):
        while hands := receive(self.kernel):
            copied = [(broker, notif, self.copy(broker, notif)) for broker, notif in hands]
            for broker, notif, copy in reversed(copied):
                try:
                    self.answer(broker, notif, copy)
                except (CallerGone, FileNotFoundError):
                    pass
                broker.seat.let_go()

    @staticmethod
    def copy(broker, notif):
        """The path, why it can't be read, or None where the caller has gone."""
        try:
            return broker.copy(notif) if path_address(notif) is not None else b""
        except CallerGone:
            return None
        except OSError as error:
            return error

    @staticmethod
    def answer(broker, notif, copy):
        if isinstance(copy, OSError):
            broker.seat.send(notif.id, error=copy.errno)
        elif copy is not None:
            broker.carry_out(notif, copy, decide(notif, copy) if path_address(notif) is not None else Decision.PASS)


if __name__ == "__main__":
    main(SeveralInHand)
