"""Runs the program with files and outputs that fail or change, and prints one line for each case.

    tools/checks/hostile-edges [PROGRAM]

A case is good if the status is that of the table in docs/reference/STATUSES.md, if standard error has the line that belongs to it, if the program ends
within a second, and if standard output has the whole report with status 0, or a prefix of it that isn't whole with another status. Other
lines begin with "differs", and say what came instead.
"""
from __future__ import annotations

import os
import resource
import signal
import socket
import subprocess
import tempfile
import threading
import time
from pathlib import Path
from typing import Any, BinaryIO, Callable, List, Optional, Tuple, Union

from tools.checks.outputs import closed_pipe
from tools.commands.command_line import arguments, ending
from tools.commands.command_line.top import TOP

PLAY = ["play", "policy.json", "script.txt"]
SECONDS = 1.0
POLICY = Path(f"{TOP}/examples/container-boot/policy.json").read_bytes()
SCRIPT = Path(f"{TOP}/examples/container-boot/script.txt").read_bytes()
REPORT = Path(f"{TOP}/examples/container-boot/report.txt").read_bytes()
# a play that takes a while, and one of more output than is gathered at once
BUSY = b"prog main\n" + b"wait\n" * 99_999 + b"end\nschedule\nt 0 99999\nend\n"
LONG = b"prog main\n" + b'poke 0x10000 "%s"\n' % (b"a" * 60_000) * 3 + b"end\nschedule\nt 0 3\nend\n"


class Run:
    """One run of the program in the folder of the case. What is opened for it here is closed again."""

    program: str

    def __init__(self, words=PLAY, out=None, err=None, signals=True, limits=(), closed=()):
        def limited() -> None:
            for kind, most in [(resource.RLIMIT_CORE, 0), *limits]:
                resource.setrlimit(kind, (most, most))
            for number in closed:
                os.close(number)

        self.begun = time.monotonic()
        self.run = subprocess.Popen([self.program, *words], stdin=subprocess.DEVNULL, stdout=subprocess.PIPE if out is None else out,
                                    stderr=subprocess.PIPE if err is None else err, restore_signals=signals, preexec_fn=limited)

    def answer(self) -> Tuple[int, bytes, bytes, float]:
        """The status, the output where it is a pipe of ours, the line, and how long it took."""
        try:
            printed, said = self.run.communicate(timeout=4 * SECONDS)
        except subprocess.TimeoutExpired:
            self.run.kill()
            printed, said = self.run.communicate()
        return self.run.returncode, printed or b"", said or b"", time.monotonic() - self.begun


def write(name, content):
    with open(name, "wb") as file:
        file.write(content)


def played(**ways: Union[BinaryIO, List[Any], int]) -> List[Tuple[int, bytes, bytes, float]]:
    return [Run(**ways).answer()]


def into_file(**ways):
    """A run whose output is a file; what stands there is its output."""
    with open("out", "wb") as out:
        status, _, said, took = Run(out=out, **ways).answer()
    return [(status, Path("out").read_bytes(), said, took)]


def from_fifo(name: str, content: bytes) -> List[Tuple[int, bytes, bytes, float]]:
    """A run for which one file is a named pipe that ends after these bytes."""
    os.remove(name)
    os.mkfifo(name)
    feeder = threading.Thread(target=lambda: Path(name).write_bytes(content))
    feeder.start()
    answers = played()
    feeder.join()
    return answers


def while_changed(name: str, content: bytes, mode: str, change: Callable[..., Any]) -> List[Tuple[int, bytes, bytes, float]]:
    """Runs while one file, which has this content at first, is changed again and again."""
    over, answers = threading.Event(), []

    def changes() -> None:
        with open(name, mode) as file:
            while not over.is_set():
                change(file)

    changer = threading.Thread(target=changes)
    changer.start()
    for _ in range(10):
        write(name, content)
        answers += played()
    over.set()
    changer.join()
    return answers


def grows(file: BinaryIO) -> None:
    file.write(b" " * 64)
    file.flush()


def shrinks(content: bytes) -> Callable[..., Any]:
    def change(file: BinaryIO) -> None:
        file.truncate(len(content) // 2)
        file.seek(0)
        file.write(content)
        file.flush()

    return change


def with_file(name: Union[bytes, str], content: Optional[bytes] = None, make: Optional[Callable[..., Any]] = None, **ways: List[Any]) -> List[Tuple[int, bytes, bytes, float]]:
    """A run where a file has this content, or is made otherwise."""
    if os.path.lexists(name):
        os.remove(name)
    if make:
        make(name)
    else:
        write(name, content)
    return played(**ways)


def bound(name: str) -> None:
    socket.socket(socket.AF_UNIX).bind(name)


def at_once(count: int) -> List[Tuple[int, bytes, bytes, float]]:
    runs = [Run() for _ in range(count)]
    return [run.answer() for run in runs]


def closed_terminal() -> int:
    """The end of a terminal whose other end has gone."""
    other, terminal = os.openpty()
    os.close(other)
    return terminal


def interrupted(after: float) -> List[Tuple[int, bytes, bytes, float]]:
    """A run that is interrupted so many seconds after it began."""
    run = Run()
    time.sleep(after)
    run.run.send_signal(signal.SIGINT)
    return [run.answer()]


def interrupted_at_pipe() -> List[Tuple[int, bytes, bytes, float]]:
    """A run that is interrupted while it waits for its script."""
    os.remove("script.txt")
    os.mkfifo("script.txt")
    return interrupted(0.1)


def interrupted_at_play() -> List[Tuple[int, bytes, bytes, float]]:
    """Runs that are interrupted while they play: what they have printed is a part of their report, or nothing."""
    write("script.txt", BUSY)
    return [answer for after in (0.01, 0.02, 0.04, 0.06, 0.08) for answer in interrupted(after)]


def long_into(**ways: Union[BinaryIO, List[Tuple[int, int]], bool]) -> List[Tuple[int, bytes, bytes, float]]:
    write("script.txt", LONG)
    return into_file(**ways) if "out" not in ways else played(**ways)


FSIZE, AS = resource.RLIMIT_FSIZE, resource.RLIMIT_AS
USAGE = (
    b"usage: play POLICY SCRIPT | run POLICY SCRIPT WORKERS CPUS [every EVERY] | stress FROM COUNT | audit-check POLICY SCRIPT REPORT | "
    b"lanes POLICY SCRIPT CPUS [every EVERY] | handover POLICY SCRIPT EVERY | pod WORKERS CPUS [every EVERY] POLICY SCRIPT .. | "
    b"pod lanes CPUS [every EVERY] POLICY SCRIPT .. | explore POLICY SCRIPT WORKERS DELAYS | step POLICY SCRIPT | "
    b"judge POLICY SCRIPT | explain POLICY CALLS | compare OLD NEW [SCRIPT] | check POLICY CLAIMS | lint POLICY\n"
)
WHOLE, INTERRUPTED = (0, b""), (-signal.SIGINT, b"")
NO_POLICY, NO_SCRIPT, WRITE = (2, b"read fault: policy\n"), (2, b"read fault: script\n"), (6, b"write fault\n")
NOT_JSON = (4, b"policy: not JSON\n")
# at the line that opens the schedule
NOT_CLOSED = (5, b"script: line %d: not closed\n" % (SCRIPT.splitlines().index(b"schedule") + 1))
SMALL = [(AS, 6 << 20)]
# each case: its name, what runs, and the statuses with their lines that it may have
CASES = [
    ("the files as they are", played, [WHOLE]),
    ("output to /dev/full", lambda: played(out=open("/dev/full", "wb")), [WRITE]),
    ("output of 360 kB to /dev/full", lambda: long_into(out=open("/dev/full", "wb")), [WRITE]),
    ("output to a pipe that nobody reads, SIGPIPE as a shell leaves it", lambda: played(out=closed_pipe()), [WRITE]),
    ("output to a pipe that nobody reads, SIGPIPE ignored", lambda: played(out=closed_pipe(), signals=False), [WRITE]),
    ("output closed", lambda: played(closed=[1]), [WRITE]),
    ("input, output and standard error closed", lambda: played(closed=[0, 1, 2]), [(6, b"")]),
    ("ulimit -f of 1000 bytes, SIGXFSZ ignored", lambda: into_file(limits=[(FSIZE, 1000)], signals=False), [WRITE]),
    ("ulimit -f of 100 kB for 360 kB, SIGXFSZ ignored", lambda: long_into(limits=[(FSIZE, 100_000)], signals=False), [WRITE]),
    ("ulimit -f of 1000 bytes, SIGXFSZ as a shell leaves it", lambda: into_file(limits=[(FSIZE, 1000)]), [WRITE]),
    ("standard error to /dev/full, output closed", lambda: played(closed=[1], err=open("/dev/full", "wb")), [(6, b"")]),
    ("standard error to a pipe that nobody reads, a refused policy", lambda: played(words=["play", "/dev/null", "script.txt"], err=closed_pipe()), [(4, b"")]),
    ("the policy is a directory", lambda: with_file("policy.json", make=os.mkdir), [NO_POLICY]),
    ("the script is a directory", lambda: with_file("script.txt", make=os.mkdir), [NO_SCRIPT]),
    ("the policy is a socket", lambda: with_file("policy.json", make=bound), [NO_POLICY]),
    ("the policy is a link to itself", lambda: with_file("policy.json", make=lambda name: os.symlink(name, name)), [NO_POLICY]),
    ("the policy is a named pipe", lambda: from_fifo("policy.json", POLICY), [WHOLE]),
    ("the policy is a named pipe that ends early", lambda: from_fifo("policy.json", POLICY[:-3]), [NOT_JSON]),
    ("the script is a named pipe that ends early", lambda: from_fifo("script.txt", SCRIPT[:-5]), [NOT_CLOSED]),
    ("the policy is /proc/self/status, of size 0", lambda: played(words=["play", "/proc/self/status", "script.txt"]), [NOT_JSON]),
    ("the script is /proc/version, of size 0", lambda: played(words=["play", "policy.json", "/proc/version"]), [(5, b"script: line 1: unknown word\n")]),
    ("the policy is /proc/self/mem, which can't be read at 0", lambda: played(words=["play", "/proc/self/mem", "script.txt"]), [NO_POLICY]),
    ("the policy is /dev/null", lambda: played(words=["play", "/dev/null", "script.txt"]), [NOT_JSON]),
    ("the script is /dev/null", lambda: played(words=["play", "policy.json", "/dev/null"]), [(5, b"script: line 0: no program\n")]),
    ("the policy is /dev/zero, which doesn't end", lambda: played(words=["play", "/dev/zero", "script.txt"]), [(3, b"too long: policy\n")]),
    ("the script is /dev/zero, which doesn't end", lambda: played(words=["play", "policy.json", "/dev/zero"]), [(3, b"too long: script\n")]),
    ("the policy grows while it is read, 10 times", lambda: while_changed("policy.json", POLICY, "ab", grows), [WHOLE, (3, b"too long: policy\n")]),
    ("the script grows while it is read, 10 times", lambda: while_changed("script.txt", SCRIPT, "ab", grows), [WHOLE, (3, b"too long: script\n")]),
    ("the policy is cut and written anew while it is read, 10 times", lambda: while_changed("policy.json", POLICY, "r+b", shrinks(POLICY)), [WHOLE, NOT_JSON]),
    ("the name isn't UTF-8", lambda: with_file(b"\xff.json", POLICY, words=["play", b"\xff.json", "script.txt"]), [(1, USAGE)]),
    ("the name has a newline, and the file is there", lambda: with_file("a\nb", POLICY, words=["play", "a\nb", "script.txt"]), [WHOLE]),
    ("the name has a newline, and the file isn't there", lambda: played(words=["play", "a\nb", "script.txt"]), [NO_POLICY]),
    ("the name is empty", lambda: played(words=["play", "", "script.txt"]), [NO_POLICY]),
    ("the name has 5000 bytes", lambda: played(words=["play", "a" * 5000, "script.txt"]), [NO_POLICY]),
    ("a thousand words", lambda: played(words=["x" * 1000] * 1000), [(1, USAGE)]),
    ("output to a terminal that has gone", lambda: played(out=closed_terminal()), [WRITE]),
    ("an interrupt while it waits for its script", interrupted_at_pipe, [INTERRUPTED]),
    ("an interrupt while it plays, 5 times", interrupted_at_play, [INTERRUPTED, WHOLE]),
    ("ulimit -v of 6 MB for a script of 8 MB", lambda: with_file("script.txt", SCRIPT.ljust(8_388_608, b"\n"), limits=SMALL), [(7, b"no memory\n")]),
    ("16 programs at once on the same files", lambda: at_once(16), [WHOLE]),
]


def fault_of(answer: Any, wanted: Any, report: bytes) -> Optional[str]:
    """What differs of an answer from what the table says."""
    status, printed, said, took = answer
    if took > SECONDS:
        return f"it took {took:.1f} s"
    if status < 0 and (status, said) not in wanted:
        return f"ended by {signal.Signals(-status).name}, said {said!r}"
    if (status, said) not in wanted:
        return f"status {status}, said {said[:100]!r}"
    if status == 0 and printed != report:
        return "the report isn't the whole one"
    if status != 0 and (not report.startswith(printed) or printed == report):
        return "what is printed is no part of the report"
    return None


def told_of(status: int, said: bytes) -> str:
    """How a run ended, in words."""
    if status < 0:
        return f"ended by {signal.Signals(-status).name}"
    return f"status {status}, {said.decode().strip()}" if said else f"status {status}"


def main():
    Run.program = arguments.program_asked()
    ending.as_in_foreground()
    with tempfile.TemporaryDirectory(prefix="edges-") as room:
        os.chdir(room)
        write("policy.json", b"{}")
        reports = {}
        for word, script in (("360 kB", LONG), ("plays", BUSY)):
            write("script.txt", script)
            reports[word] = Run().answer()[1]
        differing = 0
        for at, (name, runs, wanted) in enumerate(CASES):
            os.mkdir(f"{room}/{at}")
            os.chdir(f"{room}/{at}")
            write("policy.json", POLICY)
            write("script.txt", SCRIPT)
            answers = runs()
            report = next((report for word, report in reports.items() if word in name), REPORT)
            faults = [fault for answer in answers if (fault := fault_of(answer, wanted, report))]
            told = sorted({told_of(status, said) for status, _, said, _ in answers})
            print(f"differs  {name}: {faults[0]}" if faults else f"good     {name}: {'; '.join(told)}", flush=True)
            differing += bool(faults)
        os.chdir("/")
    print(f"{len(CASES) - differing} good, {differing} differ")
    return differing > 0
