"""Makes the library that lets a broker as it is serve the simulated kernel, for `explore-broker --shim`. `./broker help make-shim` has its words."""
from __future__ import annotations

import os
import subprocess
import sys
from pathlib import Path

from tools.commands.command_line import place
from tools.commands.command_line.arguments import Parser
from tools.commands.command_line.top import TOP

NAME = "libseccomp_shim.so"
FOLDER = TOP / "lib/shim"
# (the client's calls are hidden, so that a broker that has the client itself keeps its own)
FLAGS = ("-std=gnu11", "-Wall", "-Wextra", "-O2", "-fPIC", "-shared", "-pthread", "-fvisibility=hidden", "-ftls-model=initial-exec")


def usual() -> Path:
    """The file that is written where none is named: among what a checkout makes, or else here."""
    return TOP / "dist" / NAME if place.about() is None else Path(NAME)


def asked() -> Path:
    parser = Parser("make-shim")
    parser.add_argument("file", metavar="FILE", nargs="?", type=Path, help="the library that is written")
    return parser.parse_args().file or usual()


def main() -> int:
    made = asked()
    try:
        made.parent.mkdir(parents=True, exist_ok=True)
        built = subprocess.run([os.environ.get("CC") or "cc", *FLAGS, f"-I{TOP}/include", *sorted(FOLDER.glob("*.c")), "-ldl", "-o", made], check=False)
    except OSError as error:
        print(f"make-shim: {error}", file=sys.stderr)
        return 1
    if built.returncode == 0:
        print(made)
    return built.returncode != 0
