"""Steps the container's tasks itself, as a test does."""
import sys
from pathlib import Path

sys.path.insert(0, str(Path(__file__).resolve().parents[1]))
from common import Broker, main  # noqa: E402


class StepsTasks(Broker):
    def run(self):
        list(self.kernel.steps("0"))
        super().run()


if __name__ == "__main__":
    main(StepsTasks)
