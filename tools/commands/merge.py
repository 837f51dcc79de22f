"""Joins the results of shares of test files or of an exploration of a broker. `./broker help merge` has its words."""
from __future__ import annotations

import sys

from tools.commands.sharding import command


def main() -> int:
    return command.main(sys.argv[1:])
