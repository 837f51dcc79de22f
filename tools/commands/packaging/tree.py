"""A tree of files in memory, and the archives that are made of it: the same tree and time give the same bytes."""
from __future__ import annotations

import gzip
import io
import os
import tarfile
from typing import Any, Dict, List, NamedTuple


class File(NamedTuple):
    data: bytes
    mode: int = 0o644


class Link(NamedTuple):
    target: str


def read(path: str) -> File:
    """A file of the disk; one that may be run stays so."""
    with open(path, "rb") as file:
        return File(file.read(), 0o755 if os.access(path, os.X_OK) else 0o644)


def text(content: str, mode: int = 0o644) -> File:
    return File(content.encode(), mode)


def folders_of(tree: Dict[str, Any]) -> List[str]:
    """All folders that the tree's files stand in, from the top down."""
    found = set()
    for name in tree:
        while os.path.dirname(name):
            name = os.path.dirname(name)
            found.add(name)
    return sorted(found)


def below(tree: Dict[str, Any], folder: str) -> Dict[str, Any]:
    return {f"{folder}/{name}": entry for name, entry in tree.items()}


def write(tree: Dict[str, Any], folder: str, time: int) -> None:
    """Writes the tree to the disk."""
    os.makedirs(folder, exist_ok=True)
    for name in folders_of(tree):
        os.makedirs(f"{folder}/{name}", exist_ok=True)
        os.chmod(f"{folder}/{name}", 0o755)
    for name, entry in sorted(tree.items()):
        path = f"{folder}/{name}"
        if isinstance(entry, Link):
            os.symlink(entry.target, path)
        else:
            with open(path, "wb") as file:
                file.write(entry.data)
            os.chmod(path, entry.mode)
        os.utime(path, (time, time), follow_symlinks=False)
    for name in [*reversed(folders_of(tree)), "."]:
        os.utime(f"{folder}/{name}", (time, time))


def member(name: str, time: int, kind: bytes, mode: int) -> tarfile.TarInfo:
    found = tarfile.TarInfo(name)
    found.mtime, found.type, found.mode = time, kind, mode
    found.uname = found.gname = "root"
    return found


def zipped_tar(tree: Dict[str, Any], time: int) -> bytes:
    """The tree as the bytes of a .tar.gz."""
    whole = io.BytesIO()
    with tarfile.open(fileobj=whole, mode="w", format=tarfile.USTAR_FORMAT) as archive:
        for name in sorted([*tree, *folders_of(tree)]):
            entry = tree.get(name)
            if entry is None:
                archive.addfile(member(name, time, tarfile.DIRTYPE, 0o755))
            elif isinstance(entry, Link):
                found = member(name, time, tarfile.SYMTYPE, 0o777)
                found.linkname = entry.target
                archive.addfile(found)
            else:
                found = member(name, time, tarfile.REGTYPE, entry.mode)
                found.size = len(entry.data)
                archive.addfile(found, io.BytesIO(entry.data))
    return zipped(whole.getvalue())


def zipped(data: bytes) -> bytes:
    """The bytes as gzip -9n gives them: without a name and a time."""
    whole = io.BytesIO()
    with gzip.GzipFile(filename="", mode="wb", compresslevel=9, fileobj=whole, mtime=0) as file:
        file.write(data)
    return whole.getvalue()
