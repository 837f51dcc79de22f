"""The checksum of the sources that the program and the library are made of.

It is what this prints at the top of a checkout:

    find HANDLES crates.txt crates -name out -prune -o -type f -print0 | LC_ALL=C sort -z | xargs -0 sha256sum | sha256sum
"""
from __future__ import annotations

import hashlib
import os
from typing import List


def files(top: str) -> List[str]:
    """The files, from the top on, in the order of their bytes."""
    found = ["HANDLES", "crates.txt"]
    for at, folders, names in os.walk(f"{top}/crates"):
        folders[:] = [name for name in folders if name != "out"]
        found += [os.path.relpath(f"{at}/{name}", top) for name in names if name != "out"]
    return sorted(found, key=os.fsencode)


def checksum_of_file(path: str) -> str:
    with open(path, "rb") as file:
        return hashlib.sha256(file.read()).hexdigest()


def checksum(top: str) -> str:
    lines = "".join(f"{checksum_of_file(f'{top}/{name}')}  {name}\n" for name in files(top))
    return hashlib.sha256(lines.encode()).hexdigest()


if __name__ == "__main__":
    print(checksum(os.path.dirname(os.path.dirname(os.path.dirname(os.path.dirname(os.path.realpath(__file__)))))))
