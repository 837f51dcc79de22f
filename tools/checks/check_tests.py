"""Checks what `test` says of each test file in tests/, and how it ends: tools/checks/check-tests [PROGRAM]

A file there has a test file, a line, and behind it all that is said of it. Those of passed/ pass, in those of failed/ a test or more fails, and
those of not-understood/ can't be understood. They name the policies, filters, profiles and traces of files/. Then the examples are run, and the command
itself: its exit statuses, its JSON, which has to be as docs/schema/test.json says, its XML, its colours, and that it runs again when a file changes.
Where libseccomp's module isn't there, files that need a profile's filter are left out, and that is said.

PROGRAM is the program that is asked; without it, the one that ./broker runs. Exit status: 0 where all is so, else 1. The last line is
`tests: N passed, N failed`.
"""
from __future__ import annotations

import json
import os
import re
import shutil
import subprocess
import tempfile
import time
from difflib import unified_diff
from pathlib import Path
from typing import TYPE_CHECKING, Any, Iterator, Tuple
from xml.etree import ElementTree

from tools.checks.json_schemas import Schemas, undetected
from tools.checks.outputs import on_terminal
from tools.checks.tallies import Tally
from tools.commands.command_line import arguments, ending
from tools.commands.command_line.top import TOP
from tools.commands.testing import output
from tools.commands.testing.asking import Program
from tools.commands.testing.command import FAILED, NOT_UNDERSTOOD, PASSED, Progress
from tools.commands.testing.profiles import python_with_libseccomp
from tools.commands.testing.running import Runner, Tests, read
from tools.commands.testing.scripts import batches, container_of, script_of

if TYPE_CHECKING:
    from tools.commands.testing.results import FileResults


MARK = b"---- what is said\n"
STATUSES = {"passed": PASSED, "failed": FAILED, "not-understood": NOT_UNDERSTOOD}
PROFILE = re.compile(rb"^filter \S+\.json", re.M)
REFUSED_BY_LIBSECCOMP = ("profile-with-two-actions.test",)
COMMAND = [str(TOP / "tools/commands/test")]
GOOD, BAD, WRONG = ("policy lxd.json\ncall mknod /dev/null c 1:3 -> granted\n", "policy lxd.json\ncall mknod /dev/null c 1:3 -> passed\n",
                    "policy lxd.json\ncall mknod /dev/null c 1:3 -> grantd\n")
# a program that explores nothing, and prints what one does that was cut off
CUT_OFF = """#!/bin/sh
cat <<'END'
explored workers=0 delays=all histories=7 events=100000000 longest=40 outcomes=1 whole=no
outcome 1 histories=7
t0 1 mknod notify 0 rule=lxd.mknod.1:3 verdict=grant reply=sent
 did mknod "/null" chr 1:3 ok
schedule
t 0 2
w 0 9
t 0 2
end
END
"""
OF_CUT_OFF = "policy lxd.json\ncontainer\ntask main\nmknod /null c 1:3\nexplore delays=all\nnever: mknod EPERM\nalways: mknod 0\nsome: mknod 0\nnever: mknod done\n"
# the name of an attribute that no broker reads to its end
TOO_LONG = 256 * "n"
# seconds within which a change is noticed and the tests are run again
MOST_WAIT = 15


def status_of(results: FileResults) -> int:
    return NOT_UNDERSTOOD if results.findings else FAILED if results.failed else PASSED


def said_of(results: FileResults) -> str:
    return "".join(f"{line}\n" for line in [*results.warnings, *output.Lines(False).of_file(results), output.summary([results])])


def needs_libseccomp(path: Path, content: bytes) -> bool:
    """Whether a test file has a profile of which a filter is made."""
    return PROFILE.search(content) is not None and (path.parent.name != "not-understood" or path.name in REFUSED_BY_LIBSECCOMP)


def stored(room: str) -> Iterator[Tuple[str, ...]]:
    """Puts the test files into the room, beside the files that they name. Each one's folder, its name, and what should be said."""
    shutil.copytree(TOP / "tests/files", room, dirs_exist_ok=True)
    left_out = 0
    for path in sorted(path for folder in STATUSES for path in (TOP / "tests" / folder).glob("*.test")):
        content, _, said = path.read_bytes().partition(MARK)
        if needs_libseccomp(path, content) and python_with_libseccomp() is None:
            left_out += 1
            continue
        Path(room, f"{path.parent.name}.{path.name}").write_bytes(content)
        yield path.parent.name, path.name, said.decode("utf-8", "replace")
    if left_out:
        print(f"tests: {left_out} files with profiles are left out: libseccomp's module for Python (python3-seccomp) isn't there", flush=True)


def of_files(program: str, room: str) -> Iterator[Tuple[str, str]]:
    """What is wrong with what is said of each test file."""
    files = list(stored(room))
    every = Runner(Program(program, "./broker"), Progress(False)).run([f"{folder}.{name}" for folder, name, _ in files])
    for (folder, name, wanted), results in zip(files, every):
        said = said_of(results).replace(f"{folder}.{name}", name)
        wrong = f"it is {status_of(results)}, and its folder is {folder}\n" if status_of(results) != STATUSES[folder] else ""
        yield f"tests/{folder}/{name}", wrong + "\n".join(unified_diff(wanted.splitlines(), said.splitlines(), "expected", "said", lineterm="", n=1))


def run(program, room, *words, **environment):
    return subprocess.run([*COMMAND, "--program", program, *words], cwd=room, stdin=subprocess.DEVNULL, stdout=subprocess.PIPE, stderr=subprocess.PIPE, text=True,
                          env={**os.environ, **environment})


def statuses(program: str, room: str) -> Iterator[Any]:
    for names, status, last in ((["good.test"], PASSED, "1 passed, 0 failed"), (["good.test", "bad.test"], FAILED, "1 passed, 1 failed"),
                                (["bad.test", "wrong.test"], NOT_UNDERSTOOD, "0 passed, 1 failed; 1 file not understood"),
                                (["none.test"], NOT_UNDERSTOOD, "0 passed, 0 failed; 1 file not understood")):
        ended = run(program, room, *names)
        if (ended.returncode, ended.stdout.splitlines()[-1:]) != (status, [last]):
            yield f"{names}: status {ended.returncode}, {ended.stdout!r}, {ended.stderr!r}"
    yield from folders(program, room)
    ended = run("/nonexistent", room, "good.test")
    if ended.returncode != NOT_UNDERSTOOD or "/nonexistent" not in ended.stderr:
        yield f"a program that isn't there: status {ended.returncode}, {ended.stderr!r}"


def folders(program: str, room: str) -> Iterator[Any]:
    """Whether a folder stands for the test files below it."""
    for name, content in (("kept/b/one.test", GOOD), ("kept/a.test", GOOD), ("kept/b/none.txt", WRONG)):
        Path(room, name).parent.mkdir(parents=True, exist_ok=True)
        Path(room, name).write_text(content.replace("lxd.json", f"{room}/lxd.json"))
    os.symlink(f"{room}/bad.test", f"{room}/kept/linked.test")
    os.symlink(f"{room}/kept/b", f"{room}/kept/c")
    ended = run(program, room, "--json", "kept")
    if ended.returncode != PASSED or [it["file"] for it in json.loads(ended.stdout)["files"]] != ["kept/a.test", "kept/b/one.test"]:
        yield f"a folder: status {ended.returncode}, {ended.stdout[:300]!r}, {ended.stderr!r}"
    os.mkdir(f"{room}/empty")
    ended = run(program, room, "empty")
    if (ended.returncode, ended.stdout) != (FAILED, "") or "empty" not in ended.stderr:
        yield f"a folder without tests: status {ended.returncode}, {ended.stdout!r}, {ended.stderr!r}"


def documents(program: str, room: str) -> Iterator[Any]:
    ended = run(program, room, "--json", "--junit", "results.xml", "good.test", "bad.test", "wrong.test")
    document = json.loads(ended.stdout)
    schemas = Schemas(TOP / "docs/schema")
    wrong = schemas.fault("test", document)
    if wrong:
        yield f"the JSON isn't as its schema says: {wrong}"
    yield from (f"the schema doesn't see a damage: {it}" for it in undetected(schemas, "test", document))
    if (document["passed"], document["failed"], [len(it["faults"]) for it in document["files"]]) != (1, 1, [0, 0, 1]):
        yield f"the JSON has other numbers: {ended.stdout}"
    root = ElementTree.parse(f"{room}/results.xml").getroot()
    if [root.get(name) for name in ("tests", "failures", "errors")] != ["2", "1", "1"] or len(root.findall(".//failure")) != 1 or len(root.findall(".//error")) != 1:
        yield f"the XML has other numbers: {ElementTree.tostring(root)!r}"


def scripts(program: str, room: str) -> Iterator[Any]:
    """Whether the calls and the scripts that are shown are ones that the program takes."""
    Path(room, "played.test").write_text(GOOD.replace("granted", "granted 0"))
    for name, words in (("good.test", ("explain", "lxd.json", "shown.txt")), ("played.test", ("explore", "lxd.json", "shown.txt", "0", "0"))):
        ended = run(program, room, "--show", name)
        Path(room, "shown.txt").write_text(ended.stdout)
        answered = subprocess.run([program, *words], cwd=room, stdin=subprocess.DEVNULL, stdout=subprocess.PIPE, text=True)
        if ended.returncode or f"# {' '.join(words[:2])} " not in ended.stdout or "rule=lxd.mknod.1:3" not in answered.stdout:
            yield f"--show of {name}: status {ended.returncode}, {ended.stdout!r}"
    ended = run(program, room, "--show", "wrong.test")
    if ended.returncode != NOT_UNDERSTOOD or ended.stdout:
        yield f"--show of a file that isn't understood: status {ended.returncode}, {ended.stdout!r}"


def decisions(program, room):
    """Whether what the program explains of a call is what a play of it comes to, under three policies and for each kind of call."""
    paths, kinds = ("/dev/null", "/srv/../dev/null", "run/log", '"/run/a b"', "/"), ("c 1:3", "c 1:5", "c 4095:1048575", "b 1:3", "b 8:0", "p", "f", "s")
    nodes = [f"{path} {kind}" for path in paths for kind in kinds]
    flags = ("", "RDONLY", "RDONLY,NODEV", "BIND", "REMOUNT,RDONLY", "MS_SLAVE,REC")
    mounts = [(source, kind, it) for source in ("/dev/vdb1", '""') for kind in ("ext4", "tmpfs", '""') for it in flags]
    names = ("trusted.overlay.opaque", "user.mark", 255 * "n", TOO_LONG)
    calls = [*(f"{call} {node}" for call in ("mknod", "mknodat AT_FDCWD", "mknodat 7") for node in nodes), *(f"mount {source} /mnt/{at} {kind} {it}" for at, (source, kind, it) in enumerate(mounts)),
             *(f"setxattr /f {name} {value} CREATE" for name in names for value in ("y", '""')), *(f"openat {it}" for it in ("/log", "d", "3 d", "AT_FDCWD /old/log CREAT")), "close 3", "getpid", "sysinfo"]
    asked = {"lxd.json": calls, "rules.json": calls, "counted.json": [it for it in calls if it.endswith(" p")]}
    Path(room, "decisions.test").write_text("".join(f"policy {policy}\n" + "".join(f"call {it} -> passed\n" for it in its) for policy, its in asked.items()))
    file, program = read("decisions.test"), Program(program, "./broker")
    for group in file.groups:
        policy, of_all = group.policy.text, next(Tests(file).of_group(group))
        explained = of_all.results(of_all.answer(program))
        made = [(it, script_of(container_of(it), None, (5,))) for it in batches(group.singles, policy == "counted.json")]
        played = {it.line: it for job in (Tests.of_singles(policy, *it) for it in made) for it in job.results(job.answer(program))}
        yield from (f"{policy}: explained {it}, and played {played[it.line]}" for it in explained if it != played[it.line])
        if len(explained) != sum(TOO_LONG not in it for it in asked[policy]):
            yield f"{policy}: {len(explained)} of {len(group.singles)} calls are explained"


def exploration_cut_off(_: str, room: str) -> Iterator[Any]:
    """Whether `never` and `always` aren't said of an exploration that was cut off, and what it did find counts."""
    slow = Path(room, "cut-off")
    slow.write_text(CUT_OFF)
    slow.chmod(0o755)
    Path(room, "cut-off.test").write_text(OF_CUT_OFF)
    document = json.loads(run(str(slow), room, "--json", "cut-off.test").stdout)
    tests = document["files"][0]["tests"]
    if [it["passed"] for it in tests] != [False, False, True, False] or [(it["found"] or "")[:14] for it in tests] != ["it isn't known", "it isn't known", "", "it is so, in 7"]:
        yield f"{tests}"


def shown_on_terminal(program, room, **environment):
    return on_terminal([*COMMAND, "--program", program, "good.test"], room, is_output=True, **environment)[2]


def colours(program: str, room: str) -> Iterator[Any]:
    if b"\x1b[32mok\x1b[0m" not in shown_on_terminal(program, room, NO_COLOR=""):
        yield "a terminal has no colours"
    if b"\x1b" in shown_on_terminal(program, room, NO_COLOR="1"):
        yield "NO_COLOR is set, and there are colours"


def watching(program, room):
    """Whether the tests are run again when the policy changes that they name."""
    shutil.copy(f"{room}/lxd.json", f"{room}/changing.json")
    Path(room, "watched.test").write_text(GOOD.replace("lxd.json", "changing.json"))
    with subprocess.Popen([*COMMAND, "--program", program, "--watch", "watched.test"], cwd=room, stdin=subprocess.DEVNULL, stdout=subprocess.PIPE, stderr=subprocess.DEVNULL, text=True) as process:
        lines = [process.stdout.readline() for _ in range(3)]
        time.sleep(0.1)
        shutil.copy(f"{room}/none.json", f"{room}/changing.json")
        lines += [process.stdout.readline() for _ in range(5)]
        process.send_signal(2)
        try:
            status = process.wait(MOST_WAIT)
        except subprocess.TimeoutExpired:
            process.kill()
            status = None
    if (status, [lines[1], lines[6]]) != (FAILED, ["1 passed, 0 failed\n", "0 passed, 1 failed\n"]):
        yield f"--watch: status {status}, {lines}"


def examples(program: str, _: str) -> Iterator[Any]:
    for name in ("container.test", "traced.test", "three-callers.test"):
        ended = run(program, TOP, f"examples/tests/{name}")
        if ended.returncode or not ended.stdout.endswith(" passed, 0 failed\n"):
            yield f"{name}: status {ended.returncode}, {ended.stdout!r}, {ended.stderr!r}"


def tried(program: str, room: str) -> Iterator[Tuple[str, str]]:
    """What was tried: a name, and what is wrong."""
    os.chdir(room)
    yield from of_files(program, room)
    for name, content in (("good.test", GOOD), ("bad.test", BAD), ("wrong.test", WRONG)):
        Path(room, name).write_text(content)
    for check in (statuses, documents, scripts, decisions, exploration_cut_off, colours, watching, examples):
        yield f"the command: {check.__name__}", "\n".join(check(program, room))


def main() -> bool:
    program = arguments.program_asked()
    # (a command that runs on until it is interrupted must be able to be)
    ending.as_in_foreground()
    with tempfile.TemporaryDirectory(prefix="check-tests-") as room:
        count = Tally("tests").note_all((name, text and f"\n{text}") for name, text in tried(program, room))
        os.chdir(TOP)
    return count.ended()
