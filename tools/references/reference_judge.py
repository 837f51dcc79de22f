"""Says whether a broker mediated, by a session of `step`. `./broker help reference-judge` has its words."""
from __future__ import annotations

import sys

from tools.references.judging import command


def main() -> int:
    return command.main(sys.argv[1:])
