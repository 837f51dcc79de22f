"""What trials have in common: their programs, and an exploration of one run."""
from __future__ import annotations

import os
import shutil
import subprocess
import sys
from pathlib import Path
from typing import List, NamedTuple, Optional, Union

from tools.commands.command_line.top import TOP
from tools.commands.exploring.bounds import Bounds
from tools.commands.exploring.exploration import explore
from tools.commands.exploring.instances import Door, ProcessInstance
from tools.commands.exploring.runs import Files, Kind, Setting
from tools.commands.exploring.shims import Shim
from tools.references.stepping.inputs import read_files

SOURCES = TOP / "tests/guard"
# (these programs do what a compiler warns of)
FLAGS = ("-std=gnu11", "-O2", "-pthread", "-w")
CPLUSPLUS = "c++"
BY_PYTHON = [sys.executable, "-B", SOURCES / "by_ctypes.py"]
PATIENCE = 60
NOTHING = "int main(void) { return 0; }\n"
MAKES = "#include <sys/stat.h>\nint main(int argc, char **argv) { return argc < 2 || mkdir(argv[1], 0755); }\n"


class Outcome(NamedTuple):
    """What came of a run: what the agent wrote, what was told of it, and which clauses it broke."""

    written: str
    kind: Optional[Kind]
    told: str
    broken: tuple


def compiled(source: Path, made: Path, *flags: str, compiler: str = "cc") -> Path:
    """Compiles a program. Raises subprocess.CalledProcessError."""
    subprocess.run([compiler, *flags, "-o", made, source], check=True, stdin=subprocess.DEVNULL, capture_output=True)
    return made


def make_programs(room: Path) -> None:
    """The library, the agents of tests/guard, and programs that a library can be preloaded into or not."""
    subprocess.run([TOP / "tools/commands/make-shim", room / "shim.so"], check=True, stdin=subprocess.DEVNULL, capture_output=True)
    for name in ("acts", "calls", "takes"):
        compiled(SOURCES / f"{name}.c", room / name, *FLAGS)
    if shutil.which(CPLUSPLUS):
        compiled(SOURCES / "streams.cpp", room / "streams", "-O2", compiler=CPLUSPLUS)
    for name, text, flags in (("dynamic", NOTHING, ()), ("static", MAKES, ("-static",)), ("static-pie", NOTHING, ("-static-pie",))):
        (room / f"{name}.c").write_text(text)
        compiled(room / f"{name}.c", room / name, *flags)
    shutil.copy("/bin/mkdir", room / "set-user-id")
    for name, first in (("script", f"#!{room}/static"), ("static.sh", f"#!{room}/static"), ("script-of-env", "#!/usr/bin/env static")):
        (room / name).write_text(f"{first}\n")
        (room / name).chmod(0o755)
    if os.geteuid() == 0:
        os.chown(room / "set-user-id", 65_534, -1)
    (room / "set-user-id").chmod(0o4755)


def files_of(script: Path) -> Files:
    """The policy of the trials with a script."""
    policy, path = str(SOURCES / "policy.json"), str(script)
    return Files(policy, path, *read_files(policy, path))


def tried(command: List[Union[Path, str]], files: Files, door: Door, shim: Shim, out: Path, bounds: Bounds = Bounds(PATIENCE)) -> Outcome:
    """Explores a command with no delay; `out` is the file in which it says what it did."""
    found = explore(Setting(files, lambda: [ProcessInstance(command, door, bounds, shim)], None, bounds), 0)
    trouble = next((it.played.trouble for it in found.troubles.values()), None)
    broken = tuple(it.played.told.clause for it in found.findings.values() if it.played.told is not None)
    written = Path(out).read_text() if os.path.exists(out) else ""
    return Outcome(written, trouble.kind if trouble else None, trouble.text if trouble else "", broken)


def door_in(room: Path) -> Door:
    return Door(os.fspath(room / "door"))
