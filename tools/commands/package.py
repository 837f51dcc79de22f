"""Makes packages of the program that ./broker runs, and of the C library where its archive is proved and built: tools/commands/package [FOLDER]

FOLDER is packages/ where nothing is said. It gets

    seccomp-broker_VERSION_amd64.deb           the command, its tools, examples, manual and completions
    libseccomp-broker1_VERSION_amd64.deb       the shared library
    libseccomp-broker-dev_VERSION_amd64.deb    its header, the static library, and what pkg-config reads
    seccomp-broker-VERSION-x86_64-linux.tar.gz all of these in one folder, which runs from wherever it is unpacked
    seccomp_broker-VERSION-py3-none-linux_x86_64.whl   the Python module with the library
    seccompbroker-VERSION.tar.gz               the Go module with the library

Where no source is newer than what was proved, the packages are of that, and proof.txt in them says so. Else they are of the trial build, and
their version ends with -unproved. Made twice of the same commit and files, by the same tools, they have the same bytes; their time is SOURCE_DATE_EPOCH, or the
commit's.

Exit status: 0, or 1 where a package can't be made, as standard error says then.
"""
from __future__ import annotations

import os
import shutil
import sys
import tempfile
from typing import Iterator, List

from tools.commands.command_line import checkout
from tools.commands.command_line.arguments import ToolParser
from tools.commands.packaging import debian, files, made, tree, wheel


def put(folder: str, name: str, data: bytes) -> str:
    with open(f"{folder}/{name}", "wb") as file:
        file.write(data)
    return name


def archives(what: made.Made, folder: str) -> Iterator[str]:
    yield put(folder, f"seccomp-broker-{what.name}-x86_64-linux.tar.gz", tree.zipped_tar(files.tarball(what), what.time))
    if what.library:
        yield put(folder, wheel.name(what), wheel.data(what))
        yield put(folder, f"seccompbroker-{what.name}.tar.gz", tree.zipped_tar(files.go_module(what), what.time))


def begin(folder: str) -> None:
    """Says what is made, where, and how long it may take."""
    kind = "the proved program" if checkout.is_proved() else "a trial build, since no proved program of these sources is here (./broker --prove makes it)"
    trial = "" if checkout.is_proved() else "; a trial build that isn't kept yet takes one to two minutes"
    print(f"package: packages of {kind} go to {folder}, in half a minute{trial}", file=sys.stderr, flush=True)


def make(what: made.Made, folder: str) -> List[str]:
    """Makes all packages beside their places, so that an interrupt leaves no part of one, and gives their names."""
    with tempfile.TemporaryDirectory(prefix=".making-", dir=folder) as room:
        names = list(archives(what, room))
        if shutil.which("dpkg-deb"):
            names += debian.packages(what, room)
        else:
            print("package: dpkg-deb isn't on the PATH, so no Debian package is made", file=sys.stderr)
        for name in names:
            os.replace(f"{room}/{name}", f"{folder}/{name}")
    return names


def main() -> int:
    parser = ToolParser()
    parser.add_argument("folder", metavar="FOLDER", nargs="?", default=f"{made.TOP}/packages")
    folder = parser.parse_args().folder
    begin(folder)
    try:
        os.makedirs(folder, exist_ok=True)
        what = made.collect()
        names = make(what, folder)
    except (made.NotMade, OSError) as fault:
        print(f"package: {fault}", file=sys.stderr)
        return 1
    if not what.library:
        print("package: the C library's archive isn't proved and built of these sources, so the library, the wheel and the Go module aren't made", file=sys.stderr)
    for name in names:
        print(f"{folder}/{name} {os.path.getsize(f'{folder}/{name}')}")
    return 0
