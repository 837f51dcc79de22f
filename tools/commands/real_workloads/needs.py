"""What a call of the script needs of the tree, for the answer that the traced one got."""
from __future__ import annotations

from typing import TYPE_CHECKING, Any, Optional, Tuple

from tools.commands.linux_stage.attributes import MOST_OF_A_VALUE
from tools.commands.real_workloads.calls import CLOSE_ON_EXEC, CREATE, DIRECTORY, Made
from tools.commands.real_workloads.tree import MADE, MISSING, THERE, Tree, place

if TYPE_CHECKING:
    from tools.commands.real_workloads.strace_text import Answer
    from tools.commands.real_workloads.tasks import Descriptors

IS_DIRECTORY, IS_FILE = ("dir",), ("reg",)
REPLACE = 2
KIND, KINDS = 0o170000, (0, 0o010000, 0o020000, 0o060000, 0o100000, 0o140000)
# errors of a walk; each other one comes once the walk is done
OF_WALK = {"ENOENT", "ENOTDIR", "ENAMETOOLONG", "EFAULT", "ELOOP", "EBADF", "EMFILE", "ENFILE"}
NO_RIGHT = {"EPERM", "EACCES", "EROFS", "EINVAL", "ENOSPC"}


def where(found: Made, descriptors: Descriptors) -> Optional[Tuple[bytes, ...]]:
    """Where the call's path leads to in the script's tree, as names from the root, or None."""
    if found.path is None:
        return None
    base = () if found.directory is None else descriptors.place_of(*found.directory)
    if base is None and not found.path.startswith(b"/"):
        return None
    return place(base or (), found.path)


def note(found: Made, answer: Answer, path: Optional[Tuple[bytes, ...]], tree: Tree) -> None:
    """Notes what the call needs."""
    if path:
        {"openat": of_openat, "mknod": of_mknod, "mknodat": of_mknod, "mount": of_mount, "setxattr": of_setxattr}[found.name](found, answer, path, tree)
        if answer.error == "ENOENT":
            tree.holders |= {path[:length] for length in range(1, len(path))}
        elif answer.error == "ELOOP":
            of_loop(found, path, tree)


def note_left(found: Made, descriptors: Descriptors, answer: Answer, tree: Tree) -> None:
    """Notes the directories that a path leaves by `..`: they are walked through."""
    base = () if found.directory is None else descriptors.place_of(*found.directory)
    names = [] if found.path is None or base is None or found.path.startswith(b"/") else list(base)
    if found.path is None or base is None or answer.error in OF_WALK:
        return
    for name in found.path.split(b"/"):
        if name == b"..":
            tree.say_directory(tuple(names), by_script=True)
            names = names[:-1]
        elif name not in (b"", b"."):
            names.append(name)


def of_loop(found: Made, path: Tuple[bytes, ...], tree: Tree) -> None:
    """A link that leads to itself, unless the trace has told of another one."""
    tree.loops.add(path[:-1] if found.name in ("mknod", "mknodat") else path)


def ends_with_slash(found: Any) -> bool:
    return found.path.endswith(b"/") and found.path.strip(b"/") != b""


def is_refused_first(found: Made) -> bool:
    """Whether Linux refuses a setxattr before it looks at the path."""
    name = found.texts.get(1)
    return found.number_of(4) & 0xFFFFFFFC != 0 or name is not None and name.content == b"" or found.number_of(3) > MOST_OF_A_VALUE


def of_openat(found: Made, answer: Answer, path: Tuple[bytes, ...], tree: Tree) -> None:
    flags = found.number_of(2)
    if answer.is_good:
        tree.say(path, THERE, IS_DIRECTORY if flags & DIRECTORY else None, by_script=True)
        tree.followed.add(path)
        if flags & CREATE:
            tree.finds.change(found, "makes", path)
    elif answer.error == "ENOENT":
        tree.say(path, MISSING, by_script=True)
    elif answer.error == "ENOTDIR" and ends_with_slash(found):
        tree.say(path, THERE, IS_FILE, by_script=True)
    elif answer.error == "ENOTDIR" and not flags & DIRECTORY:
        tree.say(path[:-1], THERE, IS_FILE, by_script=True)
        tree.finds.is_file(path[:-1])
    elif answer.error not in OF_WALK:
        tree.say(path, THERE, IS_DIRECTORY if answer.error == "EISDIR" else None, by_script=True)


def of_mknod(found: Made, answer: Answer, path: Tuple[bytes, ...], tree: Tree) -> None:
    kind = found.number_of(1 + (found.name == "mknodat")) & KIND
    if answer.error in ("EPERM", "EINVAL") and kind not in KINDS:
        return  # the kind is looked at before the path
    if answer.is_good:
        tree.say(path, MADE, by_script=True)
    elif answer.error == "ENOENT" and ends_with_slash(found):
        tree.say(path, MISSING, by_script=True)
        tree.say_directory(path[:-1], by_script=True)
    elif answer.error == "EEXIST":
        tree.say(path, THERE, by_script=True)
    elif answer.error in ("ENOENT", "ENOTDIR") and len(path) > 1:
        tree.say(path[:-1], MISSING if answer.error == "ENOENT" else THERE, IS_FILE, by_script=True)
        if answer.error == "ENOTDIR":
            tree.finds.is_file(path[:-1])
    elif answer.error in NO_RIGHT:
        tree.say(path, MISSING, by_script=True)
        tree.say_directory(path[:-1], by_script=True)


def of_mount(found: Made, answer: Answer, path: Tuple[bytes, ...], tree: Tree) -> None:
    source = found.texts.get(0)
    of_target = answer.error == "ENOENT" and not (source and source.content.startswith(b"/"))
    if of_target:
        tree.say(path, MISSING, by_script=True)
    elif answer.error == "ENOENT" or answer.error not in OF_WALK:
        tree.say(path, THERE, IS_DIRECTORY, by_script=True)
        tree.followed.add(path)


def of_setxattr(found: Made, answer: Answer, path: Tuple[bytes, ...], tree: Tree) -> None:
    if answer.error == "ENOENT":
        tree.say(path, MISSING, by_script=True)
    elif answer.error not in OF_WALK and not is_refused_first(found):
        tree.say(path, THERE, by_script=True)
        tree.followed.add(path)
    name = found.texts.get(1)
    if name and (answer.is_good or answer.error == "EEXIST"):
        tree.attribute(path, name.content, was_there=answer.error == "EEXIST" or found.number_of(4) == REPLACE)


def closes_on_exec(found: Made) -> bool:
    return bool(found.number_of(2) & CLOSE_ON_EXEC)
