"""Explores a script as `explore` does, over the simulated kernel of tools/references/reference-step, and joins histories that come to the same tables.

    tools/references/reference-states [--without FIELD]... [--by-delays] [--counts] POLICY SCRIPT WORKERS DELAYS

--without leaves out a field of the key by which histories are joined, --by-delays joins only those with equally many delays, and --counts prints how
many states and steps there were in place of the text. It knows no limit of states or events.
"""
import sys
import time
from argparse import Namespace

from tools.commands.command_line.arguments import ToolParser
from tools.references.joining.exploration import Exploration
from tools.references.stepping import inputs


def explored(asked: Namespace) -> None:
    """Prints the exploration. Raises inputs.Ended."""
    begin = time.monotonic()
    bound = None if asked.delays == "all" else int(asked.delays)
    found = Exploration(*inputs.read_files(asked.policy, asked.script), asked.workers, bound, asked.without, asked.by_delays).walk()
    if asked.counts:
        print(f"histories={found.histories} states={found.states} widest={found.widest} steps={found.steps} seconds={time.monotonic() - begin:.1f}")
    else:
        sys.stdout.write(found.text())


def main() -> int:
    parser = ToolParser()
    parser.add_argument("--without", action="append", default=[])
    parser.add_argument("--by-delays", action="store_true")
    parser.add_argument("--counts", action="store_true")
    parser.add_argument("policy")
    parser.add_argument("script")
    parser.add_argument("workers", type=int)
    parser.add_argument("delays")
    return inputs.status_of(explored, parser.parse_args())
