"""Calls each executable of tools/, and the command, in ways that must do nothing, or can't be done: tools/checks/check-executables [PROGRAM]

`--help` prints help, and neither writes a file nor starts another program. A word that is no option is refused. Where the output can't be written
(a full device, a closed descriptor, a pipe whose reader is gone) there is one line on standard error, and the status is 6. This is tried of each
executable's help, and of what the users' tools print over PROGRAM, which is the one that ./broker runs, if none is named. An input without an end is
refused in a line or two, and so is a machine that gives no more memory. Where it gives no more descriptors, the status is 7.

Exit status: 0 if all is so, else 1. The last line is `executables: N passed, N failed`.
"""
import os
import resource
import subprocess
import sys
import tempfile
from concurrent.futures import ThreadPoolExecutor
from pathlib import Path

from tools.checks.outputs import closed_pipe
from tools.checks.tallies import Tally
from tools.commands.command_line import arguments, ending
from tools.commands.command_line.top import TOP

FIRST = TOP / "examples/first"
SECONDS, FEW = 60, 2
# commands of the machine that no call of help starts
WATCHED = ("rt", "cc", "ar", "apt-get", "strace", "git", "go", "cargo", "make")
WATCH = '#!/bin/sh\necho "$0 $*" >>{mark}\nexit 1\n'
# what users' tools print, with {program} where they ask one
PRINTED = {
    "json": f"--program {{program}} play {FIRST}/policy.json {FIRST}/script.txt",
    "lint-script": f"--program {{program}} {FIRST}/script.txt",
    "test": f"--program {{program}} {TOP}/examples/tests/container.test",
    "picture": f"{FIRST}/report.txt",
    "script-of-strace": f"{TOP}/examples/traced-tar/trace.txt",
    "tools/references/reference-explain": f"{FIRST}/policy.json {TOP}/examples/policies/lxd-calls.txt",
    "tools/references/reference-step": f"play {FIRST}/policy.json {FIRST}/script.txt",
}
# users' tools with an input that has no end, and one that gets little memory
ENDLESS = {
    "lint-script": "--program {program} /dev/zero", "test": "--program {program} /dev/zero", "picture": "/dev/zero", "script-of-strace": "/dev/zero",
    "filter-of-profile": "/dev/zero", "merge": "/dev/zero", "compare-with-trace": "/dev/zero /dev/zero", "reference-judge": f"{FIRST}/policy.json {FIRST}/script.txt /dev/zero",
}
ENOUGH, LITTLE = 2 << 30, 30 << 20
WITHOUT_MEMORY = {"test": f"--program {{program}} {TOP}/examples/tests/container.test", "picture": f"{FIRST}/report.txt"}
# descriptors that are enough for Python, and not for starting the program
DESCRIPTORS = 7
WITHOUT_DESCRIPTORS = {"lint-script": PRINTED["lint-script"], "test": PRINTED["test"]}
OF_COMMAND = ("help", "--help", "--version", "help play", "play --help", "test --help")


def executables():
    return sorted(path for folder in (TOP / "tools").iterdir() if folder.is_dir() for path in folder.iterdir() if path.is_file() and os.access(path, os.X_OK))


def executable(word):
    """The words by which a user's tool is called, or an executable by its path."""
    return [TOP / word] if "/" in word else [TOP / "broker", word]


OUTPUTS = {"a full device": lambda: os.open("/dev/full", os.O_WRONLY), "a pipe without a reader": closed_pipe, "a closed descriptor": lambda: None}


class Place:
    """A folder in which a call is made, with commands before those of the machine that note that they were called."""

    def __init__(self, room):
        self.folder, self.mark = Path(room, "here"), Path(room, "called")
        commands = Path(room, "commands")
        for folder in (self.folder, commands):
            folder.mkdir()
        for name in WATCHED:
            path = commands / name
            path.write_text(WATCH.format(mark=self.mark))
            path.chmod(0o755)
        self.environment = {**os.environ, "PATH": f"{commands}:{os.environ['PATH']}", "HOME": room, "XDG_CACHE_HOME": f"{room}/cache"}

    def run(self, words, out=subprocess.PIPE, **how):
        return subprocess.run(words, cwd=self.folder, env=self.environment, stdin=subprocess.DEVNULL, stdout=out, stderr=subprocess.PIPE, timeout=SECONDS, text=True, **how)

    def traces(self):
        """What a call that should do nothing has left."""
        called = self.mark.read_text().splitlines() if self.mark.exists() else []
        return [*called, *(str(path.name) for path in self.folder.iterdir())]


def told(ended):
    return f"status {ended.returncode}, standard error {ended.stderr[-300:]!r}"


def of_help(here, words):
    ended = here.run([*words, "--help"])
    if ended.returncode or not ended.stdout.strip() or ended.stderr:
        yield f"--help: {told(ended)}"
    ended = here.run([*words, "--no-such-option"])
    if ended.returncode == 0 or not ended.stderr or "Traceback" in ended.stderr:
        yield f"--no-such-option: {told(ended)}"
    yield from (f"--help or --no-such-option left {it}" for it in here.traces())


def of_outputs(here, words):
    for name, opened in OUTPUTS.items():
        out = opened()
        shell = ["sh", "-c", 'exec "$@" >&-', "sh", *words] if out is None else words
        ended = here.run(shell, subprocess.DEVNULL if out is None else out)
        if out is not None:
            os.close(out)
        if ended.returncode != ending.WRITE_FAULT or ended.stderr.count("\n") != 1:
            yield f"{' '.join(words[1:])} to {name}: {told(ended)}"


def of_bytes(most, least):
    """Whether a call with at most so many bytes of memory ends in a few lines, with this status or a greater one."""
    def holds(here, words):
        ended = here.run(words, preexec_fn=lambda: resource.setrlimit(resource.RLIMIT_AS, (most, most)))
        if ended.returncode < least or "Traceback" in ended.stderr or ended.stderr.count("\n") > FEW:
            yield f"{' '.join(words[1:])} with {most} bytes of memory: {told(ended)}"

    return holds


def of_descriptors(here, words):
    # (what the machine has in place of Python, as a script that looks for one, may take more)
    ended = here.run([sys.executable, *words], preexec_fn=lambda: resource.setrlimit(resource.RLIMIT_NOFILE, (DESCRIPTORS, DESCRIPTORS)))
    if ended.returncode != ending.NO_MEMORY or ended.stderr.count("\n") != 1:
        yield f"{' '.join(words[1:])} with {DESCRIPTORS} descriptors: {told(ended)}"


def calls(program):
    """What is tried: the words, and what has to be so of them."""
    for path in executables():
        yield [path], of_help
        yield [path, "--help"], of_outputs
    for word, operands in PRINTED.items():
        yield [*executable(word), *operands.format(program=program).split()], of_outputs
    for table, most, least in ((ENDLESS, ENOUGH, 1), (WITHOUT_MEMORY, LITTLE, 0)):
        for word, operands in table.items():
            yield [*executable(word), *operands.format(program=program).split()], of_bytes(most, least)
    for word, operands in WITHOUT_DESCRIPTORS.items():
        yield [*executable(word), *operands.format(program=program).split()], of_descriptors
    for words in OF_COMMAND:
        yield [TOP / "broker", *words.split()], of_outputs


def faults(words, holds):
    words = [str(it) for it in words]
    with tempfile.TemporaryDirectory(prefix="check-executables-") as room:
        try:
            return list(holds(Place(room), words))
        except subprocess.TimeoutExpired:
            return [f"{' '.join(words)} hadn't ended after {SECONDS} s"]


def main():
    program = arguments.program_asked()
    tried = list(calls(program))
    with ThreadPoolExecutor(len(os.sched_getaffinity(0))) as pool:
        return Tally("executables").note_all(zip((os.path.basename(words[0]) for words, _ in tried), pool.map(lambda it: faults(*it), tried))).ended()
