"""What is packaged: the version, the program and the library, and what is known of them."""
from __future__ import annotations

import os
import re
import shutil
import subprocess
from typing import Dict, List, NamedTuple, Optional, Tuple, Union

from tools.commands.command_line import checkout, place, sources
from tools.commands.command_line.top import TOP

ARCHIVE = f"{TOP}/crates/broker_c/out/libbroker_c.a"
# what .ci/run keeps of the gate: the checksum of the sources, and the gate's closing lines
GATE = f"{TOP}/packages/gate.txt"


class NotMade(Exception):
    """No package can be made; the text says why."""


class Made(NamedTuple):
    version: str
    is_proved: bool
    program: str
    library: Optional[str]  # the folder that tools/commands/make-c-library made, or None
    toolchain: str
    commit: str
    sources: str
    maintainer: str  # the commit's author
    time: int

    @property
    def name(self) -> str:
        """The version as the command and the tarball have it."""
        return self.version if self.is_proved else f"{self.version}-unproved"

    @property
    def debian(self) -> str:
        """Debian's form of the version, by which a proved one is newer than a trial build of the same number."""
        return self.version if self.is_proved else f"{self.version}~-unproved"

    @property
    def wheel(self) -> str:
        """Python's form of the version (PEP 440), likewise."""
        return self.version if self.is_proved else f"{self.version}.dev0+unproved"


def first_line(path: str) -> str:
    with open(path, encoding="utf-8") as file:
        return file.readline().strip()


def program_of_sources() -> Tuple[str, bool]:
    """The path of the program of the sources as they are now, and whether it is proved."""
    path = place.said_by(f"{TOP}/tools/commands/program")
    if path is None:
        raise NotMade("there is no program to package: see what tools/commands/program says")
    if path != checkout.PROVED and os.path.exists(f"{os.path.dirname(path)}/about.json"):
        raise NotMade("the toolchain isn't here, so there is no program but the installed one")
    return path, path == checkout.PROVED


def library() -> Optional[str]:
    """The folder with the C library, where its proved archive is there and no source is newer; else None."""
    if not os.path.isfile(ARCHIVE) or checkout.is_newer_source(ARCHIVE) or any(shutil.which(it) is None for it in ("rt", "cc", "ar")):
        return None
    ended = subprocess.run([f"{TOP}/tools/commands/make-c-library"], stdin=subprocess.DEVNULL)
    if ended.returncode != 0:
        raise NotMade("tools/commands/make-c-library failed")
    return f"{TOP}/dist"


def time_of(commit_time: str) -> int:
    stated = os.environ.get("SOURCE_DATE_EPOCH", commit_time or "0")
    if not re.fullmatch(r"\d{1,10}", stated):
        raise NotMade("SOURCE_DATE_EPOCH isn't a number of seconds")
    return int(stated)


def collect() -> Made:
    program, is_proved = program_of_sources()
    git = ("git", "-C", str(TOP))
    commit = place.said_by(*git, "rev-parse", "HEAD") or "unknown"
    changed = place.said_by(*git, "status", "--porcelain", "--untracked-files=no")
    return Made(version=first_line(f"{TOP}/VERSION"), is_proved=is_proved, program=program, library=library(),
                toolchain=place.said_by("rt", "version") or "unknown", commit=f"{commit}{', with changes' if changed else ''}",
                sources=sources.checksum(str(TOP)),
                maintainer=place.said_by(*git, "log", "-1", "--format=%an <%ae>") or "unknown <unknown@invalid>", time=time_of(place.said_by(*git, "log", "-1", "--format=%ct") or ""))


def gate_lines(made: Made) -> Optional[List[str]]:
    """The gate's closing lines, where it passed on these sources."""
    try:
        with open(GATE, encoding="utf-8", errors="replace") as file:
            lines = file.read().splitlines()
    except OSError:
        return None
    return lines[1:] if lines and lines[0] == f"sources {made.sources}" else None


PROOF = """seccomp-broker {name}

{kind}

version    {name}
toolchain  {toolchain}
commit     {commit}
sources    {sources}
program    {program}{library}

The checksum of the sources is what this prints at the top of a checkout of that commit:

    find HANDLES crates.txt crates -name out -prune -o -type f -print0 | LC_ALL=C sort -z | xargs -0 sha256sum | sha256sum

That of the program is sha256sum's, of the file seccomp_broker in this package{of_library}.

The closing lines of the gate on these sources:

{gate}

To prove it yourself you need a checkout of the commit, and the toolchain above, whose command rt is on the PATH:

    .ci/run             the gate: it proves everything, runs all tests, and tries wrong programs that the proofs must refuse
    ./broker --prove    proves and builds the program alone

docs/inside/PROOF.md of the checkout says what is proved, what is only tested, what is neither, and what is trusted.
"""
KINDS = {
    True: "The program in this package was proved and then built by the toolchain below, from the sources below.",
    False: "The program in this package is a trial build. It ISN'T PROVED: it was built with checks, from the sources below, for trying it out.",
}


def proof_text(made: Made) -> str:
    lines = gate_lines(made)
    gate = "\n".join(f"    {line}" for line in lines) if lines else "    (none: the gate wasn't run where this package was made)"
    checksum = sources.checksum_of_file
    archive = f"\nlibrary    {checksum(ARCHIVE)}" if made.library else ""
    return PROOF.format(name=made.name, kind=KINDS[made.is_proved], toolchain=made.toolchain, commit=made.commit, sources=made.sources, gate=gate,
                        program=checksum(made.program), library=archive,
                        of_library=", and that of the library of the archive libbroker_c.a that it is linked from" if made.library else "")


def about(made: Made) -> Dict[str, Union[bool, str]]:
    """What the installed command knows of the program beside it."""
    return {"version": made.name, "proved": made.is_proved, "toolchain": made.toolchain, "commit": made.commit, "sources": made.sources}
