"""A right broker for the policy passes_nodes.json, which makes no node: it leaves them to the kernel, but for those below /kept."""
import sys
from pathlib import Path

sys.path.insert(0, str(Path(__file__).resolve().parents[1]))
from common import Broker, Decision, main  # noqa: E402


class PassesNodes(Broker):
    def carry_out(self, notif, path, decision):
        super().carry_out(notif, path, Decision.PASS if decision is Decision.GRANT else decision)


if __name__ == "__main__":
    main(PassesNodes)
