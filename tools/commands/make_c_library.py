"""Makes dist/: the library for C programs, with its header and a file for pkg-config. What isn't built yet is proved and built first.

    tools/commands/make-c-library

    dist/include/seccomp_broker.h
    dist/lib/libseccomp_broker.a             all of it, with the toolchain's few heap functions over malloc
    dist/lib/libseccomp_broker.so.1          the same as a shared library, for languages that load one
    dist/lib/libseccomp_broker.so            a link to it
    dist/lib/pkgconfig/seccomp_broker.pc

Each file is made beside its place and then put there, so that no other process sees a part of one. Proving takes about an hour where nothing is
proved yet, else some minutes. Exit status: 0, or 1 if a command isn't there or fails, as standard error says then.
"""
from __future__ import annotations

import os
import shutil
import subprocess
import sys
import tempfile
from pathlib import Path
from typing import Optional, Union

from tools.commands.command_line import arguments, checkout
from tools.commands.command_line.top import TOP

DIST = f"{TOP}/dist"
ARCHIVE = f"{TOP}/crates/broker_c/out/libbroker_c.a"
EXPORTED = "{ global: broker_*; local: *; };"
PKG_CONFIG = """prefix=${{pcfiledir}}/../..

Name: seccomp_broker
Description: A simulator of a broker for seccomp user notifications
Version: {version}
Cflags: -I${{prefix}}/include
Libs: ${{prefix}}/lib/libseccomp_broker.a
"""


class NotMade(Exception):
    """A command failed, or isn't there; the text says which."""


def run(*words: str, text: Optional[str] = None, folder: Union[str, Path] = TOP) -> str:
    ended = subprocess.run(words, cwd=folder, input=text, stdin=subprocess.DEVNULL if text is None else None, stdout=subprocess.PIPE, stderr=subprocess.STDOUT, text=True)
    if ended.returncode:
        raise NotMade(f"{' '.join(words[:2])} failed:\n{ended.stdout.rstrip()}")
    return ended.stdout.strip()


def write(path: str, text: str) -> None:
    with open(path, "w", encoding="ascii") as file:
        file.write(text)


def prove_archive() -> None:
    """Has the archive of the library proved and built, unless it is of the sources as they are now."""
    if not os.path.exists(ARCHIVE) or checkout.is_newer_source(ARCHIVE):
        print("make-c-library: proving and building the library, in some minutes or, if nothing is proved yet, about an hour", file=sys.stderr, flush=True)
        run("rt", "lib", folder=f"{TOP}/crates/broker_c")


def make(room: str) -> None:
    """Makes all files in a room, in which they have their places below dist/."""
    lib = f"{room}/lib"
    os.makedirs(f"{lib}/pkgconfig")
    os.mkdir(f"{room}/include")
    shutil.copy(f"{TOP}/include/seccomp_broker.h", f"{room}/include")
    heap = f"{os.path.dirname(run('rt', 'doc'))}/c/liblibc_c.a"
    run("ar", "-M", text=f"create {lib}/libseccomp_broker.a\naddlib {ARCHIVE}\naddlib {heap}\nsave\nend\n")
    with tempfile.NamedTemporaryFile("w") as names:
        names.write(EXPORTED)
        names.flush()
        run("cc", "-shared", "-Wl,-soname,libseccomp_broker.so.1", f"-Wl,--version-script={names.name}", "-Wl,--whole-archive", f"{lib}/libseccomp_broker.a",
            "-Wl,--no-whole-archive", "-o", f"{lib}/libseccomp_broker.so.1")
    os.symlink("libseccomp_broker.so.1", f"{lib}/libseccomp_broker.so")
    with open(f"{TOP}/VERSION", encoding="ascii") as version:
        write(f"{lib}/pkgconfig/seccomp_broker.pc", PKG_CONFIG.format(version=version.read().strip()))


def put(room: str) -> None:
    """Puts the files of a room into their places."""
    for at, _, names in os.walk(room):
        below = os.path.normpath(f"{DIST}/{os.path.relpath(at, room)}")
        os.makedirs(below, exist_ok=True)
        for name in names:
            os.replace(f"{at}/{name}", f"{below}/{name}")


def main() -> int:
    arguments.none()
    try:
        missing = next((it for it in ("rt", "ar", "cc") if shutil.which(it) is None), None)
        if missing:
            raise NotMade(f"{missing} isn't on the PATH")
        prove_archive()
        os.makedirs(DIST, exist_ok=True)
        with tempfile.TemporaryDirectory(prefix=".making-", dir=DIST) as room:
            make(room)
            put(room)
    except (NotMade, OSError) as fault:
        print(f"make-c-library: {fault}", file=sys.stderr)
        return 1
    return 0
