"""Runs a word of the program, and prints its output as one JSON document. `./broker help json` has its words."""
from __future__ import annotations

import argparse
import json
import subprocess
import sys
from typing import NoReturn

from tools.commands.command_line import place, table
from tools.commands.command_line.arguments import Parser
from tools.commands.command_line.ending import reason
from tools.commands.command_line.command import HELP_OPTIONS, WRONG_WORDS
from tools.commands.json_documents.documents import WHOLE, WORDS, document
from tools.commands.pages.reports import NotAReport

NOT_READ = 1


class Words(Parser):
    def error(self, message: str) -> NoReturn:
        """Wrong words end with the status that they have with the program."""
        self.exit(WRONG_WORDS, f"{self.format_usage()}json: {message}\n")


def asked() -> argparse.Namespace:
    """What was asked for: the program, a word, and the operands behind it."""
    parser = Words("json")
    parser.add_argument("--program", metavar="PATH", help="runs this program, in place of the command's own")
    parser.add_argument("word", metavar="COMMAND", help="a command of the program")
    parser.add_argument("operands", metavar="..", nargs=argparse.REMAINDER, help="its arguments")
    found = parser.parse_args()
    if found.word not in WORDS:
        parser.error(f"the program has no command {found.word!r}{table.meant(found.word, WORDS)}")
    if found.operands and found.operands[0] in HELP_OPTIONS:
        parser.print_help()
        parser.exit()
    return found


def show(word: str, status: int, output: bytes) -> int:
    """Prints the document of what a word printed, and answers the exit status."""
    try:
        text = json.dumps(document(word, output), ensure_ascii=False)
    except NotAReport as fault:
        print(f"json: what {word} printed: {fault}", file=sys.stderr)
        return NOT_READ
    sys.stdout.buffer.write(f"{text}\n".encode())
    return status


def main() -> int:
    words = asked()
    program = words.program or place.runnable()
    if program is None:
        return NOT_READ
    try:
        ended = subprocess.run([program, words.word, *words.operands], stdout=subprocess.PIPE)
    except OSError as fault:
        print(f"json: {program}: {reason(fault)}", file=sys.stderr)
        return NOT_READ
    if ended.returncode < 0:
        # it was ended by a signal, as a shell tells it
        return 128 - ended.returncode
    return show(words.word, ended.returncode, ended.stdout) if ended.returncode in WHOLE else ended.returncode
