"""Which program a checkout runs: the proved one where it is built and no source is newer, else a trial build, which isn't proved. Without the
toolchain it is the program of an installed package, where that is made of these sources."""
from __future__ import annotations

import os
import shutil
import sys
from typing import Optional

from tools.commands.command_line import place, sources, trial

PROVED = f"{place.HOME}/crates/seccomp_broker/out/seccomp_broker"


def is_newer_source(path: str) -> bool:
    """Whether a source was changed after the file."""
    made = os.path.getmtime(path)
    return any(os.path.getmtime(f"{place.HOME}/{name}") > made for name in sources.files(place.HOME) if name.endswith((".rt", ".antt")) or name == "crates.txt")


def is_proved() -> bool:
    """Whether the proved program is there, and of the sources as they are now."""
    return os.access(PROVED, os.X_OK) and not is_newer_source(PROVED)


def installed() -> Optional[str]:
    """The path of the program of an installed package of these sources, or None. Standard error says what was found."""
    command = shutil.which("seccomp-broker")
    home = os.path.dirname(os.path.realpath(command)) if command else None
    known = place.about(home) if home else None
    if known is None:
        return None
    if known["sources"] != sources.checksum(place.HOME):
        trial.say(f"the installed seccomp-broker {known['version']} is of other sources than this checkout (its commit is {known['commit']}), and isn't used;"
                  " `seccomp-broker` runs it")
        return None
    trial.say(f"the toolchain isn't here; the installed seccomp-broker {known['version']} is of these sources, and is used")
    if not known["proved"]:
        print(place.NOT_PROVED, file=sys.stderr)
    return f"{home}/seccomp_broker"


def program() -> str:
    """The path of the program. Raises trial.NotKept and trial.NotMade."""
    if is_proved():
        return PROVED
    found = None if shutil.which("rt") else installed()
    return found or trial.program()
