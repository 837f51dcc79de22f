"""The command explore-broker: its words, and how it ends."""
from __future__ import annotations

import os
import sys
from argparse import Namespace
from functools import lru_cache
from typing import List

from tools.commands.command_line import place
from tools.commands.command_line.ending import is_want
from tools.commands.exploring import telling
from tools.commands.exploring.bounds import Bounds, is_sanitized
from tools.commands.exploring.exploration import Explored, explore
from tools.commands.exploring.instances import Door, ProcessInstance
from tools.commands.exploring.passing import Listening, is_served
from tools.commands.exploring.preloading import program_of, why_not
from tools.commands.exploring.runs import SEATS, Files, Setting
from tools.commands.exploring.shims import Shim
from tools.commands.messages import likely
from tools.commands.messages.findings import Text, message
from tools.commands.sharding import explorations
from tools.commands.sharding.shares import WHOLE, fingerprint, share
from tools.commands.watched import watched
from tools.references.judging.command import Words
from tools.references.stepping.inputs import USAGE, Ended, bytes_of, read_files, status_of as ended_status

FOUND, UNDECIDED, WRITE_FAULT, INTERRUPTED = 11, 12, 6, 130
NO_PROGRAM, STANDARD_INPUT = 7, "-"
MOST_DELAYS, MOST_JOBS, MOST_PATIENCE = 8, 64, 86_400
MOST_CALLS, MOST_MIB, MOST_DESCRIPTOR = 10**9, 1 << 20, 1_023
UNGUARDED = "explore-broker: without --shim the broker's own calls reach this machine; only its client's are answered"


def number(least, most):
    """Reads a word as a number within a range."""
    def read(text):
        found = int(text)
        if not least <= found <= most:
            raise ValueError(text)
        return found
    read.__name__ = f"number from {least} to {most}"
    return read


def descriptor(text):
    """Reads `N=PATH`: the script's descriptor N is what the broker has open at PATH."""
    number_of_it, equals, path = text.partition("=")
    if not equals or not path.startswith("/") or "\n" in path or not 0 <= int(number_of_it) <= MOST_DESCRIPTOR:
        raise ValueError(text)
    return int(number_of_it), path


def folder(text):
    """Reads a folder, as the machine finds it."""
    found = os.path.realpath(text)
    if not os.path.isdir(found) or ":" in found:
        raise ValueError(text)
    return found


# what stands only beside --shim
OF_SHIM = ("same_root", "writable", "broker_fd", "unguarded")


def words_of(words):
    """The words up to `--`, read, and the command behind it."""
    parser = Words("explore-broker", " -- COMMAND [ARGUMENT ..]")
    parser.add_argument("policy", metavar="POLICY")
    parser.add_argument("script", metavar="SCRIPT")
    parser.add_argument("delays", metavar="DELAYS", type=number(0, MOST_DELAYS))
    parser.add_argument("--instances", metavar="N", type=number(1, SEATS), default=1)
    parser.add_argument("--limit", metavar="RUNS", type=number(1, 10**9))
    parser.add_argument("--jobs", metavar="N", type=number(1, MOST_JOBS), default=min(os.cpu_count() or 1, MOST_JOBS))
    parser.add_argument("--patience", metavar="SECONDS", type=number(1, MOST_PATIENCE), default=Bounds().patience)
    parser.add_argument("--most-calls", metavar="N", type=number(1, MOST_CALLS), default=Bounds().calls)
    parser.add_argument("--most-output", metavar="MIB", type=number(1, MOST_MIB), default=Bounds().output)
    parser.add_argument("--most-memory", metavar="MIB", type=number(0, MOST_MIB))
    parser.add_argument("--save", metavar="FOLDER")
    parser.add_argument("--json", action="store_true")
    parser.add_argument("--shard", metavar="I/N", type=share)
    parser.add_argument("--shim", metavar="FILE", type=os.path.abspath)
    parser.add_argument("--same-root", action="store_true")
    parser.add_argument("--writable", metavar="FOLDER", type=folder, action="append", default=[])
    parser.add_argument("--broker-fd", metavar="N=PATH", type=descriptor, action="append", default=[])
    parser.add_argument("--unguarded", action="store_true")
    parser.add_argument("--listener-path", metavar="SOCKET")
    parser.add_argument("--listener-metadata", metavar="TEXT", default="")
    parser.add_argument("--program", metavar="PATH")
    parser.add_argument("--no-program", action="store_true")
    at = words.index("--") if "--" in words else len(words)
    asked = parser.parse_args(words[:at])
    asked.command = words[at + 1:]
    if not asked.command:
        parser.error("after `--` comes the command that starts the broker")
    for name in OF_SHIM:
        if getattr(asked, name) and asked.shim is None:
            parser.error(f"--{name.replace('_', '-')} is for a broker as it is, with --shim")
    if asked.listener_path is not None and not any(asked.listener_path in word for word in asked.command):
        # (all would wait at the same one)
        if asked.instances > 1:
            parser.error("of several instances each needs its own SOCKET, so it has to be in COMMAND")
        asked.jobs = 1
    return asked


class Progress:
    """A line on standard error that says how far an exploration is, where that is a terminal."""

    def __init__(self):
        self.is_shown = sys.stderr.isatty()

    def tell(self, explored: Explored):
        if self.is_shown:
            print(f"\r{explored.runs} runs, {len(explored.findings)} findings", end="", file=sys.stderr, flush=True)

    def clear(self):
        if self.is_shown:
            print("\r\x1b[K", end="", file=sys.stderr, flush=True)


def test_command(asked: Namespace) -> None:
    """Tells that a broker's own calls reach the machine, or refuses one that no library can be preloaded into. Raises Ended."""
    if asked.shim is None:
        print(UNGUARDED, file=sys.stderr)
        return
    wrong = why_not(asked.command)
    if wrong is not None:
        raise Ended(UNDECIDED, f"explore-broker: --shim: {wrong}")


def shim_of(asked, files, sanitized):
    """How the library answers the broker. Raises Ended."""
    unknown = [number_of_it for number_of_it, _ in asked.broker_fd if number_of_it not in files.container.broker]
    if unknown:
        raise Ended(USAGE, f"explore-broker: --broker-fd: the script has no line `broker {unknown[0]}`")
    at_paths = dict(asked.broker_fd)
    descriptors = [f"{it}={at_paths[it]}" if it in at_paths else str(it) for it in sorted(files.container.broker)]
    return Shim(asked.shim, asked.same_root, tuple(asked.writable), tuple(descriptors), asked.unguarded, sanitized)


def test_listening(asked: Namespace) -> None:
    """Refuses a place at which somebody waits for a listener already. Raises Ended."""
    if asked.listener_path is not None and is_served(asked.listener_path):
        raise Ended(UNDECIDED, f"explore-broker: --listener-path: somebody listens at {asked.listener_path} already: end that, or name another path")


def setting_of(asked, room):
    """What all runs have in common. Raises Ended."""
    files = Files(asked.policy, asked.script, *read_files(asked.policy, asked.script))
    program = None
    if not asked.no_program:
        program = asked.program or place.runnable()
        if program is None:
            raise Ended(NO_PROGRAM, "explore-broker: there is no program; --no-program asks the kernel in Python alone")

    sanitized = is_sanitized(program_of(asked.command) or "")
    memory = asked.most_memory if asked.most_memory is not None else 0 if sanitized else Bounds().memory
    bounds = Bounds(asked.patience, asked.most_calls, asked.most_output, memory)
    shim = shim_of(asked, files, sanitized) if asked.shim is not None else None
    passing = Listening(asked.listener_path, asked.listener_metadata, files.container.pidbase + 1) if asked.listener_path is not None else None

    @lru_cache(maxsize=None)
    def door(process, at):
        return Door(f"{room}/{process}-{at}")

    def make():
        return [ProcessInstance(asked.command, door(os.getpid(), at), bounds, shim, passing) for at in range(asked.instances)]

    return Setting(files, make, program, bounds)


def status_of(explored):
    return FOUND if explored.has_found else 0 if explored.is_decided else UNDECIDED


def fingerprint_of(asked):
    """What an exploration is known by in each of its shares. A file that is read from standard input has none."""
    files = [bytes_of(path, what) for path, what in ((asked.policy, "policy"), (asked.script, "script")) if path != STANDARD_INPUT]
    return fingerprint([*files, b"%d %d" % (asked.delays, asked.instances)])


def text_of(asked, explored, is_interrupted):
    """What is printed: lines, or a JSON document."""
    if not asked.json:
        return telling.whole_text(explored, asked.shard)
    # (what most explorations don't need isn't read for them)
    import json
    found = explorations.share_document(explored, asked.shard, fingerprint_of(asked), asked.limit, is_interrupted) if asked.shard else explorations.document(explored)
    return json.dumps(found, ensure_ascii=False, indent=None if asked.shard else 1) + "\n"


def run(asked, room):
    """Explores, with a folder for what it makes: the status. Raises Ended and OSError."""
    progress, status = Progress(), None
    setting = setting_of(asked, room)
    explored = explorations.ExploredShare(asked.delays) if asked.shard else Explored(asked.delays)
    try:
        explore(setting, asked.delays, asked.limit, asked.jobs, progress.tell, asked.shard or WHOLE, explored)
    except KeyboardInterrupt:
        status = INTERRUPTED
        explored.is_whole = False
    progress.clear()
    sys.stdout.buffer.write(text_of(asked, explored, status == INTERRUPTED).encode("utf-8", "backslashreplace"))
    sys.stdout.flush()
    if asked.save is not None:
        telling.save(asked.save, explored)
    return status_of(explored) if status is None else status


def told(action, *arguments):
    """The status of something, whose failure is told on standard error."""
    try:
        return ended_status(action, *arguments)
    except OSError as error:
        if is_want(error):
            raise
        print(f"explore-broker: {error}", file=sys.stderr)
        return WRITE_FAULT


def lint(script: str) -> None:
    """Tells what is likely a mistake in the script, with its cure. Raises Ended."""
    data = bytes_of(script, "script")
    for found in likely.findings(Text(data), likely.EXPLORE_BROKER):
        print("\n".join(message(found, script, Text(data), f"{found.name}: ")), file=sys.stderr)


def begin(words):
    asked = words_of(words)
    if STANDARD_INPUT not in (asked.policy, asked.script):
        # (what isn't understood is refused first)
        read_files(asked.policy, asked.script)
        lint(asked.script)
    test_command(asked)
    test_listening(asked)
    watched(lambda room: told(run, asked, room), "explore-broker-")


def main(words: List[str]) -> int:
    return told(begin, words)
