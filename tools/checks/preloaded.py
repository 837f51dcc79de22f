"""The library that stands before a program's calls and makes some of them fail, built from tools/checks/failing-calls."""
from __future__ import annotations

import os
import subprocess

SOURCE = f"{os.path.dirname(os.path.realpath(__file__))}/failing-calls/failing.c"


def built(room: str) -> str:
    """The library's path: it is built in this folder, by the command cc."""
    library = f"{room}/failing.so"
    subprocess.run(["cc", "-std=gnu11", "-O2", "-Wall", "-Wextra", "-shared", "-fPIC", "-o", library, SOURCE], check=True)
    return library
