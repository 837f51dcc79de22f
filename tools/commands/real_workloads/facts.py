"""What the calls say of the tree that a script can't make: which paths they found, and of which kind these were."""
from __future__ import annotations

from typing import TYPE_CHECKING, Any, Dict, List, Optional, Tuple

from tools.commands.real_workloads.strace_text import IN_STRACES_NAMES, Call, Text, Unreadable, descriptor, field, number, text_or_address
from tools.commands.real_workloads.calls import BIND, CREATE, DIRECTORY, MOVE, PROPAGATION, REMOUNT, signed
from tools.commands.real_workloads.tree import MADE, MISSING, THERE, Tree, kind_of, place

if TYPE_CHECKING:
    from tools.commands.real_workloads.tasks import Descriptors

# where their paths stand: alone, or behind a directory's descriptor
FINDERS: Dict[str, Tuple[Optional[int], int]] = {
    **dict.fromkeys(("stat", "lstat", "access", "readlink", "chdir", "chroot", "execve", "truncate", "chmod", "chown", "lchown", "statfs", "getxattr",
                     "lgetxattr", "listxattr", "llistxattr", "removexattr", "lremovexattr", "lsetxattr", "utime", "utimes", "umount2", "umount",
                     "open", "unlink", "rmdir", "rename", "link"), (None, 0)),
    **dict.fromkeys(("newfstatat", "statx", "faccessat", "faccessat2", "readlinkat", "fchmodat", "fchownat", "utimensat", "openat", "openat2",
                     "unlinkat", "renameat", "renameat2", "linkat"), (0, 1)),
    "inotify_add_watch": (None, 1), "pivot_root": (None, 0), "mount": (None, 1),
}
MAKERS = {
    "mkdir": (None, 0), "mkdirat": (0, 1), "creat": (None, 0), "symlink": (None, 1), "symlinkat": (1, 2), "mknod": (None, 0), "mknodat": (0, 1),
}
DIRECTORIES = {"chdir", "chroot", "mkdir", "mkdirat", "rmdir", "pivot_root", "mount"}
LINKS = {"readlink", "readlinkat"}
SHOWS_MODE = {"stat": 1, "lstat": 1, "newfstatat": 2, "statx": 4, "fstat": 1}
OF_DESCRIPTORS = {"fstat", "fchdir", "getdents", "getdents64"}
NAMES = {*FINDERS, *MAKERS, *OF_DESCRIPTORS}
MODE, DEVICE = "st_mode", "st_rdev"
# what a successful call does to the paths that it names, and where these stand
DEEDS = {
    **{name: ("makes", [at]) for name, at in MAKERS.items()}, "link": ("makes", [(None, 1)]), "linkat": ("makes", [(2, 3)]),
    "unlink": ("removes", [(None, 0)]), "rmdir": ("removes", [(None, 0)]), "unlinkat": ("removes", [(0, 1)]),
    "rename": ("renames", [(None, 0), (None, 1)]), **dict.fromkeys(("renameat", "renameat2"), ("renames", [(0, 1), (2, 3)])),
    "umount": ("unmounts", [(None, 0)]), "umount2": ("unmounts", [(None, 0)]),
}
MAKE_WITH_FLAG = {"open": (None, 0), "openat": (0, 1)}


def kind_shown(text: str) -> Optional[Tuple[Any, ...]]:
    """The kind of node that a structure of stat shows, or None."""
    mode, device = field(text, MODE) or field(text, "stx_mode"), field(text, DEVICE)
    if device is not None and device.startswith("makedev"):
        device = text[text.index("makedev"):].split(")")[0] + ")"
    try:
        return kind_of(number(mode), number(device or "0")) if mode else None
    except Unreadable:
        return None


def path_of(call: Call, arguments: List[str], at_directory: Optional[int], at_path: int, table: Descriptors) -> Optional[Tuple[bytes, ...]]:
    """Where the path of a call leads to, or None."""
    if at_path >= len(arguments):
        return None
    text = text_or_address(arguments[at_path])
    if not isinstance(text, Text) or text.is_cut:
        return None
    base = () if at_directory is None else table.place_of(*directory(arguments[at_directory]))
    if not text.content and at_directory is not None:
        return base
    return None if base is None and not text.content.startswith(b"/") else place(base or (), text.content)


def directory(argument: str) -> Tuple[int, Optional[bytes]]:
    value, path = descriptor(argument)
    return signed(value), path


def learn(call, table, tree):
    """Notes what a call of the trace found. `table` knows where the process's descriptors lead to."""
    try:
        arguments = call.arguments
        if call.name in OF_DESCRIPTORS:
            of_descriptor(call, arguments, table, tree)
        elif call.name in NAMES:
            at = FINDERS.get(call.name) or MAKERS[call.name]
            path = path_of(call, arguments, *at, table)
            if path:
                of_path(call, arguments, path, tree)
            if call.answer.is_good:
                deed, places = deed_of(call, arguments)
                for place_of_path in places:
                    tree.finds.change(call, deed, path_of(call, arguments, *place_of_path, table))
    except (Unreadable, IndexError, ValueError):
        pass


def deed_of(call: Any, arguments: Any) -> Any:
    """What a successful call does to paths, and where these stand among its arguments."""
    if call.name in MAKE_WITH_FLAG:
        makes = len(arguments) > 1 and number(arguments[1 + (call.name == "openat")]) & CREATE
        return "makes", [MAKE_WITH_FLAG[call.name]] if makes else []
    if call.name == "mount":
        flags = number(arguments[3])
        changes_tree = flags & MOVE or not flags & (REMOUNT | PROPAGATION)
        return ("binds" if flags & BIND else "mounts"), [(None, 1)] if changes_tree else []
    return DEEDS.get(call.name, ("", []))


def of_descriptor(call: Call, arguments: List[str], table: Descriptors, tree: Tree) -> None:
    path = table.place_of(*directory(arguments[0]))
    if not path or not call.answer.is_good:
        return
    if call.name == "fstat":
        say_kind(tree, path, kind_shown(call.text))
    else:
        tree.is_directory(path)


def say_kind(tree: Tree, path: Tuple[bytes, ...], kind: Optional[Tuple[Any, ...]]) -> None:
    if kind:
        tree.kinds[path] = kind


def of_path(call: Call, arguments: List[str], path: Tuple[bytes, ...], tree: Tree) -> None:
    is_made = call.name in MAKERS or call.name == "open" and len(arguments) > 1 and number(arguments[1]) & CREATE
    if call.answer.error == "ENOENT":
        tree.say(path, MISSING)
    elif call.answer.is_good and is_made:
        tree.say(path, MADE, kind_found(call, arguments))
    elif call.answer.is_good or call.answer.error == "EEXIST":
        tree.say(path, THERE)
        say_kind(tree, path, kind_found(call, arguments))


def kind_found(call: Call, arguments: List[str]) -> Optional[Tuple[Any, ...]]:
    """The kind of node that a call that found one tells."""
    if call.name in SHOWS_MODE:
        return kind_shown(arguments[SHOWS_MODE[call.name]])
    if call.name in DIRECTORIES:
        return ("dir",)
    if call.name in ("symlink", "symlinkat"):
        target = text_or_address(arguments[0])
        return ("link", target.content) if isinstance(target, Text) and target.content and not target.is_cut else None
    if call.name in LINKS:
        target = text_or_address(arguments[1 + (call.name == "readlinkat")])
        return ("link", target.content) if isinstance(target, Text) and target.content and not target.is_cut else None
    if call.name in ("open", "openat") and number(arguments[1 + (call.name == "openat")]) & DIRECTORY:
        return ("dir",)
    return None


def process_number(argument: str) -> int:
    """A PID as strace has it, also where the call's is one of another namespace."""
    translated = IN_STRACES_NAMES.search(argument)
    return int(translated[1]) if translated else number(argument)
