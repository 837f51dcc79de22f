"""Holds several calls, leaves one that has gone out of its list of results, and gives each result to the call that stands at its place."""
import sys
from pathlib import Path

sys.path.insert(0, str(Path(__file__).resolve().parents[1]))
from common import CallerGone, main, receive  # noqa: E402


class AnswersByPosition:
    def __init__(self, kernel):
        self.kernel = kernel

    def run(self):
        while hands := receive(self.kernel):
            results = []
            for broker, notif in hands:
                try:
                    path = broker.copy(notif)
                except CallerGone:
                    continue
                results.append((broker, broker.effect(notif, path)))
            for (broker, error), (_, notif) in zip(results, hands):
                try:
                    broker.seat.send(notif.id, error=error)
                except FileNotFoundError:
                    continue
            for broker, _ in hands:
                broker.seat.let_go()


if __name__ == "__main__":
    main(AnswersByPosition)
