"""The numbers that C's names in a trace stand for: flags, modes, signals, and some others."""
from __future__ import annotations

import os
import signal
import stat
from typing import Optional

MOUNT_FLAGS = {
    "MS_RDONLY": 1, "MS_NOSUID": 2, "MS_NODEV": 4, "MS_NOEXEC": 8, "MS_SYNCHRONOUS": 16, "MS_REMOUNT": 32, "MS_MANDLOCK": 64, "MS_DIRSYNC": 128,
    "MS_NOSYMFOLLOW": 256, "MS_NOATIME": 1024, "MS_NODIRATIME": 2048, "MS_BIND": 4096, "MS_MOVE": 8192, "MS_REC": 16384, "MS_SILENT": 32768,
    "MS_POSIXACL": 1 << 16, "MS_UNBINDABLE": 1 << 17, "MS_PRIVATE": 1 << 18, "MS_SLAVE": 1 << 19, "MS_SHARED": 1 << 20, "MS_RELATIME": 1 << 21,
    "MS_KERNMOUNT": 1 << 22, "MS_I_VERSION": 1 << 23, "MS_STRICTATIME": 1 << 24, "MS_LAZYTIME": 1 << 25,
}
CLONE_FLAGS = {
    "CLONE_VM": 0x100, "CLONE_FS": 0x200, "CLONE_FILES": 0x400, "CLONE_SIGHAND": 0x800, "CLONE_VFORK": 0x4000, "CLONE_PARENT": 0x8000,
    "CLONE_THREAD": 0x10000, "CLONE_NEWNS": 0x20000, "CLONE_SYSVSEM": 0x40000, "CLONE_SETTLS": 0x80000, "CLONE_PARENT_SETTID": 0x100000,
    "CLONE_CHILD_CLEARTID": 0x200000, "CLONE_CHILD_SETTID": 0x1000000, "CLONE_NEWUSER": 0x10000000, "CLONE_NEWPID": 0x20000000,
    "CLONE_NEWCGROUP": 0x2000000, "CLONE_NEWUTS": 0x4000000, "CLONE_NEWIPC": 0x8000000, "CLONE_NEWNET": 0x40000000, "CLONE_IO": 0x80000000,
}
OTHER_NAMES = {"AT_FDCWD": -100, "NULL": 0, "XATTR_CREATE": 1, "XATTR_REPLACE": 2, "AT_EMPTY_PATH": 0x1000, "AT_SYMLINK_NOFOLLOW": 0x100,
               "SIG_DFL": 0, "SIG_IGN": 1, "SA_RESTART": 0x10000000, "F_DUPFD": 0, "F_SETFD": 2, "F_DUPFD_CLOEXEC": 1030, "FD_CLOEXEC": 1, "O_LARGEFILE": 0}


def value_of(name: str) -> Optional[int]:
    """What a name that strace prints for a number stands for, or None."""
    for table in (OTHER_NAMES, MOUNT_FLAGS, CLONE_FLAGS):
        if name in table:
            return table[name]
    if name.startswith(("O_", "S_I", "SIG")):
        found = next((getattr(it, name) for it in (os, stat, signal) if hasattr(it, name)), None)
        return found if found is None else int(found)
    return None
