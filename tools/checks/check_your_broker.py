"""Tries `step`, and the brokers in C, Python, Go and Rust that ask for it.

    tools/checks/check-your-broker [--sessions N] [--schedules N] [--seed N] [PROGRAM]
    tools/checks/check-your-broker --print N [--seed N]

The tests of the brokers and of their libraries run as far as cc, python3, go and cargo are on the PATH. The stored reports of cases and
examples are led through again, as requests. Then N random sessions (200), over the scripts of cases and examples, are answered by the
program and by tools/references/reference-step: every answer has to be equal, byte for byte. The script of each is played, which has to give
its report, and so is that script with lines that are changed, as both understand it. Stored reports, with two workers in the place of each,
are played again, one of the workers by counts of its steps and the others by their requests; and N random schedules (120) of such workers
are played by both, as drawn and changed. So are lines that no broker would write: random bytes, requests that are cut and changed, very
long lines, and 100,000 at once. Inputs and outputs that fail end the program as docs/reference/STATUSES.md says. PROGRAM is the one that
./broker runs, if none is named. --print prints the requests of session N.

Exit status: 0 where all passed, else 1. The last line is `your-broker: N passed, N failed`.
"""
from __future__ import annotations

import functools
import os
import random
import shutil
import socket
import subprocess
import sys
import tempfile
from pathlib import Path
from typing import Any, List, Optional, Tuple

from tools.checks.tallies import Tally
from tools.commands.command_line import arguments
from tools.commands.command_line.arguments import ToolParser
from tools.commands.command_line.top import TOP
from tools.references.stepping.asking import Files, answers_of, at_once, folders, in_pieces, one_by_one, play_ended
from tools.references.stepping.drawn import Drawn, drawn, script_and_report
from tools.references.stepping.drawn_schedules import scheduled
from tools.references.stepping.fuzzing import changed_script, trials
from tools.references.stepping.plays import ended_slowly
from tools.references.stepping.replay import NotReplayed, replayed
from tools.references.stepping.shared import shared_again, with_two_workers

WARNINGS = ["-std=c11", "-Wall", "-Wextra", "-Wpedantic", "-Werror", "-g"]
SANITIZED = ["-fsanitize=address,undefined", "-fno-sanitize-recover"]
# of so many sessions one is asked request by request, and another is sent in pieces
EACH = 8
# so many scripts are made of each session's by changes
CHANGES = 2
# scripts with descriptors of the broker are few, and are drawn more often
OFTEN = 4
# in seconds
PATIENCE = 300


# ---- the brokers in other languages


def has(command: str, what: str) -> bool:
    if shutil.which(command):
        return True
    print(f"your-broker: {command} isn't on the PATH, so {what} isn't run")
    return False


def run(words, folder, **variables):
    """What is wrong with a command's end, or None."""
    try:
        ended = subprocess.run(words, cwd=f"{TOP}/{folder}", env={**os.environ, **variables}, stdin=subprocess.DEVNULL, stdout=subprocess.PIPE, stderr=subprocess.STDOUT, timeout=PATIENCE, text=True)
    except subprocess.TimeoutExpired:
        return f"it hasn't ended after {PATIENCE} seconds"
    return None if ended.returncode == 0 else f"status {ended.returncode}\n{ended.stdout}"


def sanitizers(room: str) -> List[str]:
    """The flags of the sanitizers, where the compiler has them."""
    Path(f"{room}/empty.c").write_text("int main(void) { return 0; }\n")
    tried = subprocess.run(["cc", *SANITIZED, "empty.c", "-o", "empty"], cwd=room, capture_output=True)
    return SANITIZED if tried.returncode == 0 else []


def try_languages(count: Tally, program: str) -> None:
    named = {"SECCOMP_BROKER": program}
    with tempfile.TemporaryDirectory(prefix="check-your-broker-") as room:
        if has("cc", "the broker in C"):
            built = run(["cc", *WARNINGS, *sanitizers(room), f"-I{TOP}/include", "-o", f"{room}/calls", "lib/seccomp_step_test.c", "lib/seccomp_step.c"], ".")
            count.note("the library in C", built or run([f"{room}/calls"], "examples/own-broker", **named))
            count.note("the broker in C", run(["make", "-s", "-B", "test-step"], "examples/c", **named) or run(["make", "-s", "clean"], "examples/c"))
        if has("python3", "the broker in Python"):
            count.note("the broker in Python", run(["python3", "-B", "-m", "unittest", "-q", "step_broker_test"], "examples/python", **named))
        if has("go", "the broker in Go"):
            count.note("the broker in Go", run(["go", "test", "-count=1", "./step", "./stepbroker"], "examples/go", **named))
        if has("cargo", "the library in Rust"):
            count.note("the library in Rust", run(["cargo", "test", "--offline", "-q"], "examples/rust", CARGO_TARGET_DIR=f"{room}/target", **named))
        try_explorer(count, room)


def explored(command, status, told):
    """What is wrong with what explore-broker tells of a broker, or None."""
    words = [f"{TOP}/tools/commands/explore-broker", "policy.json", "script.txt", "1", "--no-program", "--", *command]
    ended = subprocess.run(words, cwd=f"{TOP}/examples/own-broker", stdin=subprocess.DEVNULL, stdout=subprocess.PIPE, stderr=subprocess.STDOUT, timeout=PATIENCE, text=True)
    return None if ended.returncode == status and told in ended.stdout else f"status {ended.returncode}\n{ended.stdout}"


def try_explorer(count: Tally, room: str) -> None:
    """Explores the brokers in each language, which connect to the explorer's kernel."""
    nothing = (0, " findings=0 whole=bound\n")
    if shutil.which("cc"):
        built = run(["cc", *WARNINGS, f"-I{TOP}/include", "-o", f"{room}/c", *(f"{TOP}/examples/c/{name}.c" for name in ("step_broker_main", "step_broker")), "lib/seccomp_step.c"], ".")
        count.note("the broker in C, explored", built or explored([f"{room}/c"], *nothing))
    if shutil.which("python3"):
        count.note("the broker in Python, explored", explored(["python3", "-B", f"{TOP}/examples/python/step_broker.py"], *nothing))
    if shutil.which("go"):
        built = run(["go", "build", "-o", f"{room}/go", "./stepbroker/serve"], "examples/go")
        count.note("the broker in Go, explored", built or explored([f"{room}/go"], *nothing))
    if shutil.which("cargo"):
        built = run(["cargo", "build", "--offline", "-q", "--examples"], "examples/rust", CARGO_TARGET_DIR=f"{room}/target")
        count.note("the broker in Rust, explored", built or explored([f"{room}/target/debug/examples/pass_all"], 11, "\nbroken 5 answer passed-otherwise\n"))


# ---- sessions


def report_in(folder: str) -> Optional[str]:
    """The report that a play of a folder's files gave, or None."""
    found = next((path for path in (Path(f"{TOP}/{folder}/stdout"), Path(f"{TOP}/{folder}/report.txt")) if path.is_file()), None)
    text = found.read_text("latin-1").partition("handovers ")[0] if found else ""
    return text if text.startswith("journal ") and "\nsummary " in text else None


@functools.cache
def known_folders() -> List[Tuple[str, Files]]:
    """The folders of cases and examples, with those more often whose broker has descriptors."""
    known = list(folders())
    return known + [(folder, files) for folder, files in known if files.session().kernel.container.broker] * OFTEN


def try_reports(count, program):
    """Leads the program through the events of each stored report."""
    for folder, files in dict(known_folders()).items():
        report = report_in(folder)
        if report is None:
            continue
        session = files.session()
        try:
            requests, wanted = replayed(report, session.kernel.container_sysinfo())
        except NotReplayed:
            continue
        requests = [line.encode("latin-1") for line in requests]
        answers = [*answers_of(session, requests), f"report {len(wanted)}\n{wanted}"]
        count.note(f"the report of {folder}", at_once(program, files, [*requests, b"report"], answers))
        try_shared(count, program, folder, files, with_two_workers(report))


def try_shared(count, program, folder, files, report):
    """Plays a report of several workers by schedules in which each of them in turn is this project's, and the others are another broker's. Skips are left out of it."""
    kernel = files.session().kernel
    planted = kernel.container_sysinfo()
    _, wanted = replayed(report, planted)
    for own, script in shared_again(kernel.container.front, report, planted):
        count.note(f"the report of {folder}, with {own} as this project's worker", unlike_play(program, files, script, (0, wanted.encode("latin-1"), b"")))


def session_numbered(number: int, seed: int) -> Tuple[str, Files, Drawn]:
    """A drawn session: its name, its files, and its requests with their answers."""
    folder, files = random.Random(f"{seed} {number}").choice(known_folders())
    return f"session {number} over {folder}", files, drawn(files.session(), f"{seed} {number}")


def try_sessions(count, program, number_of_sessions, seed):
    for number in range(number_of_sessions):
        name, files, session = session_numbered(number, seed)
        wrong = {0: one_by_one, 1: functools.partial(in_pieces, chance=random.Random(number))}.get(number % EACH, at_once)(program, files, session.requests, session.answers)
        count.note(f"{name} (--print {number} --seed {seed})", wrong)
        try_script(count, program, files, session, f"the script of {name}", f"{seed} {number}")


def unlike_play(program, files, script, wanted):
    """What a play of a script has in the place of the end that is expected; None where it ends so."""
    with tempfile.TemporaryDirectory(prefix="check-your-broker-") as room:
        played = play_ended(program, files, script, room)
    return None if played == wanted else f"expected {wanted}, and it is {played}, of\n{script.decode('latin-1')}"


def try_script(count: Tally, program: str, files: Files, session: Drawn, name: str, seed: str) -> None:
    """Plays the script of a session, which gives the session's report, and scripts that are made of it by changes."""
    script, report = script_and_report(session)
    count.note(name, unlike_play(program, files, script, (0, report, b"")))
    try_changes(count, program, files, script, name, seed)


def try_changes(count: Tally, program: str, files: Files, script: bytes, name: str, seed: str) -> None:
    """Plays scripts that are made of one by changes: as the simulated kernel does."""
    for number in range(CHANGES):
        changed = changed_script(random.Random(f"{seed} {number}"), script)
        count.note(f"{name}, changed {number}", unlike_play(program, files, changed, ended_slowly(files, changed)))


def try_schedules(count: Tally, program: str, number_of_schedules: int, seed: int) -> None:
    """Plays schedules with workers of this project and of another broker."""
    for number in range(number_of_schedules):
        folder, files = random.Random(f"{seed} schedule {number}").choice(known_folders())
        name, own_seed = f"schedule {number} over {folder}", f"{seed} schedule {number}"
        script = scheduled(files, own_seed)
        count.note(name, unlike_play(program, files, script, ended_slowly(files, script)))
        try_changes(count, program, files, script, name, own_seed)


def try_fuzz(count: Tally, program: str, seed: int) -> None:
    for name, files, lines in trials(seed, known_folders()):
        count.note(name, at_once(program, files, lines, answers_of(files.session(), lines)))


# ---- inputs and outputs that fail


def ended(program: str, **streams: Any) -> Tuple[int, bytes]:
    """How the program ends over such streams: its status, and its line on standard error."""
    _, files = known_folders()[0]
    done = subprocess.run(files.words(program), stderr=subprocess.PIPE, timeout=PATIENCE, **streams)
    return done.returncode, done.stderr


def try_ends(count, program):
    """Standard inputs that can't be opened or read, and an output that takes nothing."""
    one, other = socket.socketpair()
    with one, other, tempfile.TemporaryDirectory() as room, open("/dev/full", "wb") as full:
        other.sendall(b"able\n")
        other.shutdown(socket.SHUT_WR)
        folder = os.open(room, os.O_RDONLY)
        unread = 2, b"read fault: requests\n"
        rows = [("a socket", unread, {"stdin": one, "stdout": subprocess.DEVNULL}), ("a folder", unread, {"stdin": folder, "stdout": subprocess.DEVNULL}),
                ("no input", unread, {"preexec_fn": lambda: os.close(0), "stdout": subprocess.DEVNULL}), ("a full output", (6, b"write fault\n"), {"input": b"able\n", "stdout": full}),
                ("a full output that takes nothing", (0, b""), {"input": b"", "stdout": full})]
        for name, wanted, streams in rows:
            found = ended(program, **streams)
            count.note(f"step over {name}", None if found == wanted else f"expected {wanted}, and it is {found}")
        os.close(folder)


def main():
    parser = ToolParser()
    parser.add_argument("--sessions", type=int, default=200)
    parser.add_argument("--schedules", type=int, default=120)
    parser.add_argument("--seed", type=int, default=1)
    parser.add_argument("--print", type=int)
    parser.add_program()
    asked = parser.parse_args()
    if asked.print is not None:
        name, files, session = session_numbered(asked.print, asked.seed)
        print(f"# {name}: step {files.policy} {files.script}", flush=True)
        sys.stdout.buffer.write(b"".join(line + b"\n" for line in session.requests))
        return 0
    program = arguments.named_or_own(asked.program)
    count = Tally("your-broker")
    try_languages(count, program)
    try_reports(count, program)
    try_sessions(count, program, asked.sessions, asked.seed)
    try_schedules(count, program, asked.schedules, asked.seed)
    try_fuzz(count, program, asked.seed)
    try_ends(count, program)
    return count.ended()
