"""Builds the archive of the C library over the libraries that rt ci has just proved: only its own crate is checked once more.

rt ci checks that crate and keeps nothing of it that could be linked, so it is proved here once more, in the time that tools/checks/run-checks tells.

rt lib alone would build each of those libraries again, since rt ci marks none as built. Where one is marked, missing, or older than a
source, they aren't what rt ci left, and where the toolchain's module isn't the one that is known here, nothing can be built of them. Then
this says so and builds nothing; tools/commands/make-c-library does, in some more minutes.
"""
import os
import subprocess
import sys
import tempfile

from tools.commands.command_line import arguments
from tools.commands.command_line.top import TOP

FOLDER = f"{TOP}/crates/broker_c"


def toolchain():
    """The toolchain's own module, which knows how a crate is built."""
    page = subprocess.run(["rt", "doc"], stdout=subprocess.PIPE, text=True, check=True).stdout
    sys.path.insert(0, f"{os.path.dirname(page)}/bin")
    import rtlib
    return rtlib


def newest_source():
    """When a source of the repository was last changed."""
    times = [os.path.getmtime(f"{TOP}/crates.txt")]
    for at, folders, files in os.walk(f"{TOP}/crates"):
        folders[:] = [name for name in folders if name != "out"]
        times += [os.path.getmtime(f"{at}/{name}") for name in files if name.endswith((".rt", ".antt"))]
    return max(times)


def is_left_by_gate(library, sources):
    """Whether rt ci built the library, which it doesn't mark, from sources of this time."""
    place = os.path.dirname(library.rlib)
    return os.path.isdir(library.rlib) and not os.path.exists(f"{place}/stamp") and os.path.getmtime(place) > sources


def crate_over_the_gate():
    """The crate of the C library, where the libraries below it are what rt ci left."""
    try:
        crate, sources = toolchain().Crate(FOLDER, str(TOP), {}), newest_source()
        return crate if all(is_left_by_gate(library, sources) for library in crate.below()) else None
    except (ImportError, AttributeError, TypeError) as error:
        print(f"archive: {error}", file=sys.stderr)
        return None


def main():
    arguments.none()
    os.chdir(FOLDER)
    crate = crate_over_the_gate()
    if crate is None:
        print("archive: the libraries aren't those that rt ci left, so no archive is built")
        return 0
    os.makedirs("out", exist_ok=True)
    with tempfile.TemporaryFile("w+", errors="replace") as crate.out:
        status = crate.build_static([])
        crate.out.seek(0)
        print(crate.out.read() if status else "", end="", file=sys.stderr)
    return status
