"""Runs test files: what calls come to under policies, compared with what is expected. `./broker help test` has its words."""
from __future__ import annotations


from tools.commands.testing import command


def main() -> int:
    return command.main()
