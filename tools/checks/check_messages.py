"""Checks what is said of each mistake in mistakes/, and that programs read what they read without it: tools/checks/check-messages [PROGRAM]

A file there has a policy, a script, calls, claims or a report, a line, and behind it the whole message. Those of policies/, scripts/, calls/ and claims/ are refused by
the program, and those of reports/ aren't reports of examples/first; those of warnings/ are policies, and those of likely/ scripts, that it takes.
Each refusal of cases/ has a message with a cure, too. The command itself is run with a terminal and without one, and an exploration is
interrupted. Last, each text of tools/commands/messages has to stand in one of those messages, or in mistakes/unshown.txt: so no text changes unnoticed, also none that no mistake here
leads to. `--unshown` writes that file.

PROGRAM is the program that is asked; without it, the one that ./broker runs. Exit status: 0 where all is so, else 1. The last line is
`messages: N passed, N failed`.
"""
from __future__ import annotations

import ast
import os
import shutil
import socket
import subprocess
import tempfile
from concurrent.futures import ThreadPoolExecutor
from difflib import unified_diff
from pathlib import Path
from typing import Any, Iterator, List, Tuple

from tools.checks.outputs import on_terminal
from tools.checks.tallies import Tally
from tools.commands.command_line import arguments, ending
from tools.commands.command_line.top import TOP
from tools.commands.messages import running
from tools.commands.messages.refusals import entry_of

MARK = b"---- what is said\n"
FILES = {"policy": "policy.json", "script": "script.txt", "report": "report.txt", "calls": "calls.txt", "claims": "claims.json"}
# what stands beside a mistake, in which nothing is wrong
PLAIN = {"policy": b"{}\n", "script": b"notify mknod\nprog main\nend\nschedule\nt 0\nw 0\nend\n"}
# of each folder: what its files have, and the status that the program, or lint-script, ends with
FOLDERS = {"policies": ("policy", {4}), "scripts": ("script", {5}), "calls": ("calls", {5}), "claims": ("claims", {4}), "warnings": ("policy", {0}), "likely": ("script", {0, 1}), "reports": ("report", {9})}
# whose policy and script the reports are checked with
OF_REPORTS = TOP / "examples/first"
# the command over a program, and one that takes long to explore without a bound
OVER = [str(TOP / "tools/checks/over")]
SLOW = """#!/bin/sh
[ "$5" = all ] && exec sleep 60
echo "explored workers=$4 delays=$5"
"""
TEXTS, UNSHOWN = TOP / "tools/commands/messages", TOP / "mistakes/unshown.txt"
# a text of words has a blank, and so many letters
LEAST = 6
REFUSALS = ("refusals-of-policies", "refusals-of-scripts", "refusals-of-calls", "refusals-of-claims")


# the words that the files of a folder are given to, by what makes the difference
ASKED = (("report", entry_of("audit-check"), ("policy", "script", "report")), ("calls", entry_of("explain"), ("policy", "calls")), ("claims", entry_of("check"), ("policy", "claims")),
         ("policy", entry_of("play"), ("policy", "script")))


def played(program: str, folder: str) -> Tuple[int, str, List[str]]:
    """What is said where the files of a folder are played, calls there explained, or a report checked: the status, the program's own line, and what is added."""
    entry, names = next((entry, [FILES[it] for it in kinds]) for kind, entry, kinds in ASKED if Path(folder, FILES[kind]).exists())
    ended = subprocess.run([program, entry["word"], *names], cwd=folder, stdin=subprocess.DEVNULL, stdout=subprocess.DEVNULL, stderr=subprocess.PIPE)
    line = ended.stderr.decode("utf-8", "replace").rstrip("\n")
    told = running.told(entry, [f"{folder}/{name}" for name in names], "./broker", program, ended.returncode, line, True)
    return ended.returncode, line, [it.replace(f"{folder}/", "", 1) for it in told]


def linted(program: str, folder: str) -> Tuple[int, str]:
    ended = subprocess.run([TOP / "tools/commands/lint-script", "--program", program, FILES["script"]], cwd=folder, stdin=subprocess.DEVNULL, capture_output=True)
    return ended.returncode, ended.stdout.decode("utf-8", "replace")


def mistake(program: str, path: Path) -> str:
    """What is wrong with the message of a mistake, as a text; empty where nothing is."""
    kind, statuses = FOLDERS[path.parent.name]
    content, mark, wanted = path.read_bytes().rpartition(MARK)
    if not mark:
        return f"it has no line {MARK.decode().strip()!r}"
    with tempfile.TemporaryDirectory(prefix="check-messages-") as folder:
        for name in PLAIN:
            Path(folder, FILES[name]).write_bytes((OF_REPORTS / FILES[name]).read_bytes() if kind == "report" else PLAIN[name])
        Path(folder, FILES[kind]).write_bytes(content)
        if path.parent.name == "likely":
            status, said = linted(program, folder)
        else:
            status, line, told = played(program, folder)
            said = "".join(f"{it}\n" for it in ([line] if line else []) + told)
    if status not in statuses:
        return f"status {status}: {said}"
    return "\n".join(unified_diff(wanted.decode("utf-8").splitlines(), said.splitlines(), "expected", "said", lineterm="", n=1))


def refusals(room: str) -> List[str]:
    """The folders of the refusals of cases/, which their `make` writes."""
    for name in REFUSALS:
        shutil.copytree(TOP / "cases" / name, f"{room}/{name}")
        subprocess.run(["./make"], cwd=f"{room}/{name}", check=True, env={**os.environ, "TOP": str(TOP)})
    return sorted(str(path.parent) for path in Path(room).glob("*/*/args"))


def without_cure(program: str, folder: str) -> str:
    """What is wrong with the message of a refusal of cases/; empty where it has a cure."""
    _, line, told = played(program, folder)
    return "" if any(it.startswith("help: ") for it in told) else "\n".join([line, *told, "(no cure)"])


def said_on_terminal(words, folder, cut_at=None):
    """How a command ends whose standard error is a terminal, what it prints, and what it says there."""
    status, output, said = on_terminal(words, folder, cut_at=cut_at)
    return status, output, said.decode("utf-8", "replace").replace("\r\n", "\n")


def of_program(said: str) -> List[str]:
    """What is said without the command's own lines, which tell of a trial build."""
    return [line for line in said.splitlines() if not line.startswith("broker: ")]


def command_faults(program: str, folder: str) -> Iterator[Any]:
    """What is wrong with what the command says of a refused policy and of a good play, with a terminal, without one, and where its own line alone is asked for."""
    Path(folder, "policy.json").write_bytes(b'{"rule": []}\n')
    Path(folder, "good.json").write_bytes(PLAIN["policy"])
    Path(folder, "script.txt").write_bytes(PLAIN["script"])
    for policy, status in (("policy.json", 4), ("good.json", 0)):
        def without_terminal(*options: str, **variables: str) -> subprocess.CompletedProcess[Any]:
            return subprocess.run([*OVER, program, "play", *options, policy, "script.txt"], cwd=folder, stdin=subprocess.DEVNULL, capture_output=True, text=True, env={**os.environ, **variables})

        plain, told = without_terminal("--plain"), without_terminal()
        seen = said_on_terminal([*OVER, program, "play", policy, "script.txt"], folder)
        refused = ['policy: unknown key at "rule"'] if status else []
        for how, ended in (("with --plain", plain), ("with the variable", without_terminal(SECCOMP_BROKER_PLAIN="1"))):
            if (ended.returncode, ended.stdout, of_program(ended.stderr)) != (status, plain.stdout, refused):
                yield f"{how}: status {ended.returncode}, {ended.stderr!r}"
        asked = without_terminal("--explain", SECCOMP_BROKER_PLAIN="1")
        for how, ended, output, said in (("without a terminal", told.returncode, told.stdout, told.stderr), ("with --explain", asked.returncode, asked.stdout, asked.stderr),
                                         ("on a terminal", seen[0], seen[1].decode(), seen[2])):
            lines = of_program(said)
            if (ended, output, lines[:1]) != (status, plain.stdout, refused) or (len(lines) > 1) != bool(status):
                yield f"{how}: status {ended}, {said!r}, output {output[:80]!r}"


# what is said of files of calls and of requests that can't be read, of a schedule that a word refuses, and of what a play passes: the words behind the program's, and the lines
OF_FILES = {
    ("explain", "--explain", "good.json", "call.txt"): ["read fault: calls", "call.txt: No such file or directory", "help: did you mean `calls.txt`?"],
    ("compare", "--explain", "good.json", "goode.json"): ["read fault: new policy", "goode.json: No such file or directory", "help: did you mean `good.json`?"],
    ("compare", "--explain", "good.json", "new.json"): [
        'new policy: unknown key at "rule"', "new.json:1:2: a policy has no key rule", '    {"rule": []}', "     ^~~~~~", "help: did you mean `rules`? The keys of a policy are `config`, `profile`, `rules` and `version`."],
    ("check", "--explain", "good.json", "claim.json"): ["read fault: claims", "claim.json: No such file or directory", "help: did you mean `claims.json`?"],
    ("check", "--explain", "good.json", "long.txt"): ["too long: claims", "long.txt: it has 8388609 bytes, and a file of claims has at most 1048576"],
    ("explain", "--explain", "good.json", "long.txt"): ["too long: calls", "long.txt: it has 8388609 bytes, and a file of calls has at most 8388608"],
    ("explain", "good.json"): ["usage: ./broker explain POLICY CALLS", "explain needs 2 arguments, got 1", "help: `./broker help explain` has its page"],
    ("compare", "good.json"): ["usage: ./broker compare OLD NEW [SCRIPT]", "compare needs 2 or 3 arguments, got 1", "help: `./broker help compare` has its page"],
    ("run", "good.json", "script.txt", "0", "99"): [
        "usage: ./broker run POLICY SCRIPT WORKERS CPUS [every EVERY]", "CPUS is a number from 0 to 16, and not 99", "help: `./broker help run` has its page"],
    ("play", "good.json", "script.txt", "--plain"): ["usage: ./broker play POLICY SCRIPT", "--plain comes first after play", "help: write `./broker play --plain ..`"],
    ("handover", "--explain", "good.json", "requests.txt", "1"): [
        "script: requests in the schedule", "requests.txt:6:1: this is what a worker of another broker asks for", "    w 0 recv", "    ^~~~~~~~",
        "help: `handover` replaces this project's own worker, whose steps are counted, as in `w 0 9`; `play`", "      plays this schedule"],
    ("judge", "--explain", "passing.json", "passed.txt"): ['note: passing.json: pass-by-memory by=default.mknod call=mknod "/null" denied=kept other=mknod "/kept/"'],
    ("judge", "passing.json", "passed.txt"): [],
    ("step", "--explain", "good.json", "script.txt"): [
        "read fault: requests", "standard input can't be opened as /dev/stdin, or can't be read", "help: give it a pipe, a file or a terminal; a socket, or an input that is closed, can't be opened"],
}


def file_faults(program, folder):
    """What is wrong with what the command says of files that can't be read, or that a word doesn't take."""
    Path(folder, "good.json").write_bytes(PLAIN["policy"])
    Path(folder, "script.txt").write_bytes(PLAIN["script"])
    Path(folder, "calls.txt").write_bytes(b"close\n")
    Path(folder, "claims.json").write_bytes(b"{}\n")
    Path(folder, "new.json").write_bytes(b'{"rule": []}\n')
    Path(folder, "requests.txt").write_bytes(b"notify mknod\nprog main\nend\nschedule\nt 0\nw 0 recv\nend\n")
    Path(folder, "long.txt").write_bytes(b"#" * 8_388_609)
    Path(folder, "passing.json").write_bytes(b'{"rules": [{"name": "kept", "call": "mknod", "when": {"under": "/kept"}, "then": {"deny": "EPERM"}}]}\n')
    Path(folder, "passed.txt").write_bytes(b'notify mknod\nprog main\npoke 0x10000 "/null\\0"\ncall mknod 0x10000 0o020666 259\nend\nschedule\nt 0 2\nw 0 9\nt 0 2\nend\n')
    for words, wanted in OF_FILES.items():
        here, there = socket.socketpair()
        with here, there:
            said = of_program(subprocess.run([*OVER, program, *words], cwd=folder, stdin=here, capture_output=True, text=True).stderr)
        if said != wanted:
            yield f"{' '.join(words)}: {said}"


def exploration_faults(folder: str) -> Iterator[Any]:
    """What is wrong with an exploration on a terminal that is interrupted once a smaller bound has ended."""
    slow = Path(folder, "slow")
    slow.write_text(SLOW)
    slow.chmod(0o755)
    status, output, said = said_on_terminal([*OVER, str(slow), "explore", "policy.json", "script.txt", "0", "all"], folder, b"bound 8 has ended")
    if (status, output) != (130, b"explored workers=0 delays=8\n") or "what is printed is bound 8" not in said:
        yield f"an interrupted exploration: status {status}, {said!r}, output {output!r}"


def words_of(text: str) -> str:
    """A text with single blanks, as it is the same in each width."""
    return " ".join(text.split())


def is_said(node: Any) -> bool:
    """Whether a part of a module can have texts that are said: documentation and patterns have none."""
    is_pattern = isinstance(node, ast.Call) and isinstance(node.func, ast.Attribute) and getattr(node.func.value, "id", None) == "re"
    return not is_pattern and not (isinstance(node, ast.Expr) and isinstance(node.value, ast.Constant))


def texts_in(node: Any) -> Iterator[str]:
    """The texts in a part of a module, of formatted ones each part."""
    if isinstance(node, ast.Constant) and isinstance(node.value, str):
        yield words_of(node.value)
    for child in ast.iter_child_nodes(node):
        if is_said(child):
            yield from texts_in(child)


def unshown():
    """The texts of messages that no mistake shows, and no test file that isn't understood, in the order of their bytes."""
    shown = [path.read_bytes().rpartition(MARK)[2].decode("utf-8", "replace") for folder in ("mistakes", "tests") for path in (TOP / folder).glob("*/*.t*t")]
    shown = words_of(" ".join([*shown, *(line for lines in OF_FILES.values() for line in lines)]))
    texts = {text for path in TEXTS.glob("*.py") for text in texts_in(ast.parse(path.read_text(encoding="utf-8")))}
    return sorted(it for it in texts if " " in it and len(it) >= LEAST and it not in shown)


def text_faults() -> str:
    """What differs between the texts that no mistake shows and those that are known for that."""
    known = UNSHOWN.read_text(encoding="utf-8").splitlines()
    return "\n".join(unified_diff(known, unshown(), "mistakes/unshown.txt", "texts that no mistake shows", lineterm="", n=0))


def tried(program: str, room: str) -> Iterator[Tuple[str, str]]:
    """What was tried: a name, and what is wrong."""
    yield "texts that no mistake shows", text_faults()
    paths = sorted(path for folder in FOLDERS for path in (TOP / "mistakes" / folder).glob("*.txt"))
    folders = refusals(room)
    with ThreadPoolExecutor(os.cpu_count()) as pool:
        checks = (lambda: command_faults(program, f"{room}/command"), lambda: file_faults(program, f"{room}/files"), lambda: exploration_faults(f"{room}/command"))
        for name in ("command", "files"):
            os.mkdir(f"{room}/{name}")
        of_command = [pool.submit(lambda check: "\n".join(check()), check) for check in checks]
        yield from zip((str(path.relative_to(TOP)) for path in paths), pool.map(lambda path: mistake(program, path), paths))
        yield from zip((f"cases/{os.path.relpath(folder, room)}" for folder in folders), pool.map(lambda folder: without_cure(program, folder), folders))
    yield from zip(("the command", "files that can't be read", "an exploration"), (it.result() for it in of_command))


def main():
    parser = arguments.ToolParser()
    parser.add_program()
    parser.add_argument("--unshown", action="store_true", help="writes mistakes/unshown.txt, and checks nothing")
    asked = parser.parse_args()
    if asked.unshown:
        UNSHOWN.write_text("".join(f"{it}\n" for it in unshown()), encoding="utf-8")
        return 0
    program = arguments.named_or_own(asked.program)
    # (a command that runs on until it is interrupted must be able to be)
    ending.as_in_foreground()
    with tempfile.TemporaryDirectory(prefix="check-messages-") as room:
        return Tally("messages").note_all((name, text and f"\n{text}") for name, text in tried(program, room)).ended()
