"""What the word `test` does with its words."""
from __future__ import annotations

import os
import sys
import threading
import time
from argparse import Namespace
from typing import TYPE_CHECKING, List

from tools.commands.command_line import place, written
from tools.commands.command_line.arguments import Parser
from tools.commands.command_line.ending import reason
from tools.commands.messages import speaking
from tools.commands.sharding.shares import WHOLE, share
from tools.commands.testing import asking, named_files, output
from tools.commands.testing.lines import NotUnderstood
from tools.commands.testing.running import Dealer, Runner, Tests, read

if TYPE_CHECKING:
    from tools.commands.testing.asking import Program

PASSED, FAILED, NOT_UNDERSTOOD, INTERRUPTED = 0, 1, 2, 130
# seconds after which progress is shown, between two lines of it, and between two looks at the files
BEGIN, TURN, LOOK = 1.0, 0.2, 0.3
CLEAR = "\r\x1b[K"
# how the names of test files end
SUFFIX = ".test"


def asked() -> Namespace:
    parser = Parser("test")
    parser.add_argument("--junit", metavar="FILE", help="writes the results as XML")
    parser.add_argument("--json", action="store_true", help="prints a JSON document in place of the lines")
    parser.add_argument("--shard", metavar="I/N", type=share, help="runs the I-th of N parts of the tests")
    parser.add_argument("--show", action="store_true", help="prints the scripts and the calls that are made, and runs nothing")
    parser.add_argument("--watch", action="store_true", help="runs again each time that a file changes")
    parser.add_argument("--program", metavar="PATH", help="asks this program, in place of the command's own")
    parser.add_argument("paths", metavar="FILE", nargs="+", help="test files, and folders of them")
    return parser.parse_args()


class NoTests(Exception):
    """A folder has no test file; the text says which."""


def below(folder):
    """The test files below a folder, in the order of their bytes. Links aren't followed."""
    found = [os.path.join(at, name) for at, _, names in os.walk(folder) for name in names if name.endswith(SUFFIX)]
    return sorted((it for it in found if not os.path.islink(it)), key=os.fsencode)


def files_of(paths: List[str]) -> List[str]:
    """The test files that are named, and those below folders that are."""
    found = []
    for path in paths:
        files = below(path) if os.path.isdir(path) else [path]
        if not files:
            raise NoTests(f"{path}: no file below this folder ends with {SUFFIX}")
        found += files
    return found


class Progress:
    """Says on a terminal how many scripts were answered, once it takes long."""

    def __init__(self, is_shown: bool) -> None:
        self.is_shown, self.lock = is_shown, threading.Lock()
        self.begin(0)

    def begin(self, count: int) -> None:
        self.count, self.done, self.begun, self.said = count, 0, time.monotonic(), 0.0

    def step(self) -> None:
        with self.lock:
            self.done += 1
            now = time.monotonic()
            if self.is_shown and now - self.begun > BEGIN and now - self.said > TURN:
                self.said = now
                speaking.put(f"\rtesting: {self.done} of {self.count} scripts, {int(now - self.begun)} s")

    def end(self) -> None:
        if self.said:
            speaking.put(CLEAR)


def show_scripts(paths, dealer):
    """Prints the scripts and the calls that are made of the files, each with the words that the program is asked by."""
    status = PASSED
    for path in paths:
        file, about = read(path), ()
        try:
            jobs = dealer.own(Tests(file).jobs() if not file.faults else [])
        except NotUnderstood as fault:
            file.faults.append(fault.found)
            about = fault.about
        if file.faults:
            say_faults(path, file, about)
            status = NOT_UNDERSTOOD
            continue
        for job in jobs:
            lines = ", ".join(map(str, job.names))
            words = "line" if len(job.names) == 1 else "lines"
            show([f"# {path}, {words} {lines}", f"# {job.words}", *job.shown])
    return status


def say_faults(path, file, about):
    speaking.say([*(line for it in file.faults for line in output.message(it, path, file.text)), *about])


def show(lines: List[str]) -> None:
    """Prints lines. Bytes of a file that aren't UTF-8 are printed as they are."""
    sys.stdout.buffer.write("".join(f"{line}\n" for line in lines).encode("utf-8", "surrogateescape"))
    sys.stdout.buffer.flush()


def run_once(words: Namespace, program: Program) -> int:
    """Runs the files, prints and writes what came of them, and answers the exit status."""
    runner = Runner(program, Progress(sys.stderr.isatty()), words.shard or WHOLE)
    every = runner.run(files_of(words.paths))
    if words.junit:
        # (what most runs don't need isn't read for them)
        from tools.commands.testing import junit
        written.write(words.junit, junit.text_of(every, runner.seconds, words.shard).encode("utf-8", "replace"))
    lines = output.Lines(output.has_colours(sys.stdout))
    for results in every:
        speaking.say(results.warnings)
        if not results.is_understood:
            speaking.say(lines.of_file(results))
        elif not words.json:
            show(lines.of_file(results))
    show([output.json_text(output.document_of(every, words.shard))] if words.json else [output.summary(every, words.shard)])
    if not all(it.is_understood for it in every):
        return NOT_UNDERSTOOD
    return FAILED if any(it.failed for it in every) else PASSED


def watched(paths):
    """The files of which a change counts, with the times of their last ones."""
    found = {}
    for path in paths:
        file, folder = read(path), os.path.dirname(path)
        named = [named_files.path_of(folder, word) for group in file.groups for word in group.files]
        for name in (path, *named):
            try:
                found[name] = os.stat(name).st_mtime_ns
            except OSError:
                found[name] = None
    return found


def watch(words, program):
    """Runs the files again each time that one of them, or one that they name, changes."""
    status = PASSED
    try:
        while True:
            seen = watched(files_of(words.paths))
            status = run_once(words, program)
            show(["waiting for a change; Ctrl-C ends it"])
            while watched(files_of(words.paths)) == seen:
                time.sleep(LOOK)
    except KeyboardInterrupt:
        return status


def main():
    words = asked()
    try:
        if words.show:
            return show_scripts(files_of(words.paths), Dealer(words.shard or WHOLE))
        path = words.program or place.runnable()
        if path is None:
            return NOT_UNDERSTOOD
        program = asking.Program(os.path.abspath(path), place.command())
        return watch(words, program) if words.watch else run_once(words, program)
    except NoTests as fault:
        print(f"test: {fault}", file=sys.stderr)
        return FAILED
    except asking.NotAsked as fault:
        print(f"test: {fault}", file=sys.stderr)
        return NOT_UNDERSTOOD
    except OSError as fault:
        print(f"test: {fault.filename}: {reason(fault)}", file=sys.stderr)
        return NOT_UNDERSTOOD
    except KeyboardInterrupt:
        return INTERRUPTED
