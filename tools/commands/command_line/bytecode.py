"""Keeps the bytecode of the tools in the user's cache, so that Python doesn't compile them anew at each call.

It is in the folder `bytecode` of $XDG_CACHE_HOME/seccomp_broker, or of ~/.cache/seccomp_broker. Nothing is written beside the tools, be it in a checkout or in a package.
"""
from __future__ import annotations

import os
import stat
import sys
from _thread import allocate_lock
from importlib.machinery import SOURCE_SUFFIXES, FileFinder, SourceFileLoader
from typing import Any, Optional, Sequence, Type

TOOLS = os.path.dirname(os.path.dirname(os.path.dirname(os.path.realpath(__file__))))
WRITABLE_BY_OTHERS = stat.S_IWGRP | stat.S_IWOTH


def made(folders: Sequence[str]) -> str:
    """The last of these folders, which are made, for this user alone, where they aren't there."""
    for folder in folders:
        try:
            os.mkdir(folder, 0o700)
        except FileExistsError:
            pass
    return os.path.realpath(folders[-1])


def is_own(folder: str) -> bool:
    """Whether this user and root alone can put something into a folder, or another one in its place: what is kept there is run as it is."""
    while True:
        found = os.lstat(folder)
        if found.st_uid not in (0, os.geteuid()) or found.st_mode & WRITABLE_BY_OTHERS and not found.st_mode & stat.S_ISVTX:
            return False
        if folder == os.path.dirname(folder):
            return True
        folder = os.path.dirname(folder)


def folder() -> Optional[str]:
    """The folder for the bytecode; None where there can't be one."""
    cache, home = os.environ.get("XDG_CACHE_HOME", ""), os.environ.get("HOME", "")
    if not os.path.isabs(cache):
        cache = f"{home}/.cache"
    try:
        found = made((cache, f"{cache}/seccomp_broker", f"{cache}/seccomp_broker/bytecode")) if os.path.isabs(cache) else None
        return found if found and is_own(found) else None
    except OSError:
        return None


def loader_over(kept: str) -> Type[SourceFileLoader]:
    """The loader of a module whose bytecode is in a folder."""
    turn = allocate_lock()

    class Loader(SourceFileLoader):
        def get_code(self, fullname: str) -> Any:
            # (Python asks these two where the bytecode is, and whether to write it; all other modules have theirs where they always had)
            with turn:
                before = sys.pycache_prefix, sys.dont_write_bytecode
                sys.pycache_prefix, sys.dont_write_bytecode = kept, False
                try:
                    return super().get_code(fullname)
                finally:
                    sys.pycache_prefix, sys.dont_write_bytecode = before

    return Loader


def keep() -> None:
    """Has the bytecode of all modules of the tools kept that are imported from now on. Where its user wants none (PYTHONDONTWRITEBYTECODE), it isn't."""
    kept = None if sys.flags.dont_write_bytecode else folder()
    if kept is None:
        return
    loader = loader_over(kept)

    def finder(path: str) -> FileFinder:
        if path != TOOLS and not path.startswith(f"{TOOLS}/"):
            raise ImportError(path)
        return FileFinder(path, (loader, SOURCE_SUFFIXES))

    sys.path_hooks.insert(0, finder)
    # (how a folder is looked through is asked once, and this module's own was before)
    for path in [it for it in sys.path_importer_cache if it == TOOLS or it.startswith(f"{TOOLS}/")]:
        del sys.path_importer_cache[path]
