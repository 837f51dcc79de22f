"""What the command does with its words."""
from __future__ import annotations

import os
import signal
import sys
from typing import Any, Callable, Dict, List, Optional

from tools.commands.command_line import place, table

WRONG_WORDS = 1
HELP_OPTIONS = ("--help", "-h")
# where this is 1, the program's own line is all that is said of a refusal
PLAIN = "SECCOMP_BROKER_PLAIN"


def run(path: str, words: List[str]) -> int:
    """Runs a file in place of this process, so that its output and its end are the command's. Python ignores two signals; what is run doesn't."""
    for number in (signal.SIGPIPE, signal.SIGXFSZ):
        signal.signal(number, signal.SIG_DFL)
    try:
        os.execv(path, words)
    except OSError as fault:
        print(f"broker: {path}: {fault.strerror}", file=sys.stderr)
        return WRONG_WORDS


def run_program(known: Dict[str, Any], entry: Dict[str, Any], operands: List[str], runnable: Callable[[], Optional[str]]) -> int:
    """Runs a word of the program. What it refuses is explained, unless its own line alone is asked for."""
    options = table.options(known, entry)
    asked, is_plain = (known[name] in options and operands[:1] == known[name]["names"] for name in ("explain", "plain"))
    operands = operands[1:] if asked or is_plain else operands
    path = runnable()
    if path is None:
        return WRONG_WORDS
    if is_plain or known["explain"] not in options or os.environ.get(PLAIN) == "1" and not asked:
        return run(path, [path, entry["word"], *operands])
    # (what other calls don't need isn't read for them)
    from tools.commands.messages import running
    if entry["word"] == "explore" and operands and os.isatty(sys.stderr.fileno()):
        from tools.commands.command_line import exploring
        return exploring.run(path, entry, operands, place.command(), asked)
    return running.run(path, entry, operands, place.command(), asked)


def run_tool(found: Dict[str, Any], words: List[str]) -> Optional[int]:
    """Runs a tool in this process, as if it had been called by its path."""
    from tools.commands.command_line import entry
    sys.argv = [found["word"], *words]
    return entry.loaded(table.module_name(found)).main()


def show(text: str) -> int:
    sys.stdout.write(text)
    return 0


def list_of(known: Dict[str, Any]) -> str:
    from tools.commands.command_line import pages
    return pages.list_page(known, place.command(), place.examples(), place.about() is None, place.documents())


def unknown(known: Dict[str, Any], word: str) -> int:
    command, is_checkout = place.command(), place.about() is None
    options = [name for it in known["options"] if is_checkout or "only" not in it for name in it["names"]]
    what = f"there is no command {word!r}{table.meant(word, options if word.startswith('-') else table.names(known))}"
    if word in known["explain"]["names"] + known["plain"]["names"]:
        what = f"{word} comes after a command, as in {command} play {word} POLICY SCRIPT"
    elif os.path.isfile(word):
        what = f"{word!r} is a file, and comes after a command, as in {command} play POLICY SCRIPT"
    print(f"broker: {what}\nhelp: `{command} help` lists all commands", file=sys.stderr)
    return WRONG_WORDS


def help_of(known: Dict[str, Any], words: List[str]) -> int:
    """The list, or the page of one word."""
    if not words or words[0] in (table.HELP, *HELP_OPTIONS):
        return show(list_of(known))
    entry = table.entry(known, words[0])
    if entry is None:
        return unknown(known, words[0])
    from tools.commands.command_line import pages
    return show(pages.word_page(known, entry, place.command(), place.examples()))


def main(words: List[str], runnable: Callable[[], Optional[str]] = place.runnable) -> Optional[int]:
    """Does what the words say. `runnable` answers the path of the program, or None."""
    known = table.read()
    if not words:
        print(list_of(known), end="", file=sys.stderr)
        return WRONG_WORDS
    word, rest = words[0], words[1:]
    if word == "--version":
        return show("\n".join(place.version_lines()) + "\n")
    if word == "--prove" and place.about() is None:
        return run(f"{place.HOME}/tools/commands/prove", [f"{place.HOME}/tools/commands/prove"])
    if word in (table.HELP, *HELP_OPTIONS):
        return help_of(known, rest)
    entry = table.entry(known, word)
    if entry is None:
        return unknown(known, word)
    if rest and rest[0] in HELP_OPTIONS:
        return help_of(known, [word])
    return run_program(known, entry, rest, runnable) if entry["kind"] == "program" else run_tool(entry, rest)
