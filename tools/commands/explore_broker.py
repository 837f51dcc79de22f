"""Tries a broker in every order of steps within a bound of delays, and says which clauses it breaks. `./broker help explore-broker` has its words."""
from __future__ import annotations

import sys

from tools.commands.exploring import command


def main() -> int:
    return command.main(sys.argv[1:])
