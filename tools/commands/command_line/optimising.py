"""Makes the optimised program of a trial build: python3 -m tools.commands.command_line.optimising FOLDER

The toolchain compiles a module of LLVM for a trial, without optimisation and with the address sanitizer. Its own compiler makes this program of the same module at -O1,
with the same flags but for these two, and its own linker links it. That takes a minute and a half of a processor, so it is done by another process,
which gives way to others. Where it fails, FOLDER/optimising.log says why, and the checked program stays in use.
"""
from __future__ import annotations

import contextlib
import fcntl
import os
import subprocess
import sys
from typing import Any, Dict, Iterator, TextIO

from tools.commands.command_line import children, place

MODULE, OPTIMISED, NEWS, LOCK, LOG = "module.bc", "optimised", "news", "optimising.lock", "optimising.log"
TARGET = "x86_64-unknown-linux-gnu"
# those with which the toolchain compiles the module
FLAGS = ("-march=x86-64", "-mllvm", "-no-trap-after-noreturn", "-ffunction-sections", "-fdata-sections", "-mllvm", "-trap-unreachable", "-mllvm", "-no-x86-call-frame-opt",
         "-mllvm", "-disable-machine-licm", "-mllvm", "-disable-postra-machine-licm", "-mllvm", "-sink-common-insts=false", "--no-default-config", "-no-canonical-prefixes",
         "-fintegrated-cc1", "-fno-crash-diagnostics", "-Werror", "-fPIE")


@contextlib.contextmanager
def alone(build: str) -> Iterator[bool]:
    """Whether no other process makes such a program of a build beside this one, for as long as this lasts. One at a time is enough: sources change often."""
    with open(f"{os.path.dirname(build)}/{LOCK}", "a") as lock:
        try:
            fcntl.flock(lock, fcntl.LOCK_EX | fcntl.LOCK_NB)
        except BlockingIOError:
            yield False
        else:
            yield True


def begin(build: str) -> bool:
    """Starts to make the program, where there is a module, no such program, and nobody who makes it. Whether it was started."""
    if not os.path.exists(f"{build}/{MODULE}"):
        return False
    with alone(build) as is_alone:
        if not is_alone:
            return False
    words = [sys.executable, "-B", "-m", __name__, build]
    subprocess.Popen(words, cwd=place.HOME, stdin=subprocess.DEVNULL, stdout=subprocess.DEVNULL, stderr=subprocess.DEVNULL, start_new_session=True)
    return True


def is_news(build: str) -> bool:
    """Whether the program has become ready since this was last asked."""
    try:
        os.remove(f"{build}/{NEWS}")
    except OSError:
        return False
    return True


def make(build: str, log: TextIO) -> None:
    """Compiles, links and tries it. Each command that fails raises."""
    said: Dict[str, Any] = {"stdin": subprocess.DEVNULL, "stdout": log, "stderr": log, "cwd": build, "check": True, "preexec_fn": children.end_with_parent}
    kit = os.path.dirname(subprocess.run(["rt", "doc"], stdin=subprocess.DEVNULL, stdout=subprocess.PIPE, stderr=log, text=True, check=True).stdout.strip())
    tools = f"{kit}/toolchain"
    subprocess.run([f"{tools}/bin/clang", f"--target={TARGET}", f"--sysroot={tools}", *FLAGS, "-O1", "-c", "-x", "ir", MODULE, "-o", "module.o"], **said)
    subprocess.run([f"{kit}/bin/rattle-link", "--target", TARGET, "--toolchain", tools, "-o", "linked", "module.o", f"{kit}/c/libos_c.a", f"{kit}/c/liblibc_c.a"], **said)
    os.chmod(f"{build}/linked", 0o700)
    if subprocess.run([f"{build}/linked"], **dict(said, check=False)).returncode != 1:
        raise OSError("what was linked doesn't answer the usage line")
    with open(f"{build}/{NEWS}", "wb"):
        pass
    os.rename(f"{build}/linked", f"{build}/{OPTIMISED}")


def main(build: str) -> int:
    os.nice(10)
    with alone(build) as is_alone:
        if not is_alone or not os.path.exists(f"{build}/{MODULE}"):
            return 0
        with open(f"{build}/{LOG}", "w", encoding="utf-8") as log:
            try:
                make(build, log)
            except (OSError, subprocess.SubprocessError) as fault:
                log.write(f"{fault}\n")
        for name in (MODULE, "module.o", "linked"):
            with contextlib.suppress(FileNotFoundError):
                os.remove(f"{build}/{name}")
    return 0


if __name__ == "__main__":
    sys.exit(main(sys.argv[1]))
