"""Names what makes an answer of a play differ from that of the trace.

Each name asks for the very pair of answers, and for what makes it so: in the call's arguments, in what the script says of the trace, in the audit of
the report, or in an earlier call whose answer differed. A pair that none of them explains has no name.
"""
from __future__ import annotations

from typing import Any, Optional, Tuple

from tools.commands.linux_stage.attributes import MOST_OF_A_VALUE as MOST_OF_LINUX
from tools.commands.linux_stage.attributes import NO_NAMESPACE, WITHOUT_RIGHTS, is_refused_for_its_name, is_refused_for_its_value
from tools.commands.real_workloads.answers import OF_PATH, Made, base_of, is_same, number_of, text_at, text_of
from tools.commands.real_workloads.calls import BIND, CREATE, MOVE, PROPAGATION, REMOUNT
from tools.commands.real_workloads.finds import BEHIND_A_DIRECTORY, BEHIND_A_FILE, BELOW_MISSING, BELOW_THERE, MISSING, THERE
from tools.commands.real_workloads.tree import place

WALK = ("ENOENT", "ENOTDIR", "ELOOP", "ENAMETOOLONG")
NO_PERMISSION = ("EACCES", "EPERM")
# the errors of an attribute's name or value that isn't set
REFUSED = ("EPERM", "EACCES", "EINVAL", "ERANGE", "ENOSPC", *NO_NAMESPACE)
KIND, DIRECTORY_KIND, CHARACTER, BLOCK = 0o170000, 0o040000, 0o020000, 0o060000
KINDS = (0, 0o010000, CHARACTER, BLOCK, 0o100000, 0o140000)
WRITES, EXCLUSIVE, NO_FOLLOW, ONLY_DIRECTORIES, NO_ACCESS_TIME = 0o3, 0o200, 0o400000, 0o200000, 0o1000000
# errors of openat that come of one of these flags, and those that come of what it opens
OF_FLAGS = {"EISDIR": WRITES | CREATE, "ENOTDIR": ONLY_DIRECTORIES, "ELOOP": NO_FOLLOW, "ETXTBSY": WRITES}
OF_NODES = ("ENXIO", "ENODEV", "EOVERFLOW", "EWOULDBLOCK", "EAGAIN", "EOPNOTSUPP", "EINVAL")
# errors of a file system that is to be mounted
OF_FILE_SYSTEMS = ("ENODEV", "ENOTBLK", "ENXIO", "EINVAL", "EBUSY", "EIO", "EROFS")
LONGEST_PATH, LONGEST_PART, LONGEST_NAME, MOST_OF_A_VALUE = 4096, 255, 255, 4096
OF_EXISTENCE = (THERE, MISSING, BELOW_THERE, BELOW_MISSING)
ANSWERED = ("grant", "deny", "spent", "inject", "fault")


class Naming:
    """Names the differences of a play, call by call in the order of the trace."""

    def __init__(self, unmounted=()):
        self.unmounted = unmounted  # lines of the trace with the paths that they unmount
        self.changed = {}  # paths that an earlier call made or opened in one of the two alone, and what the play finds there
        self.covered = set()  # targets of mounts that were made in the trace alone
        self.attributes = set()  # paths and names of attributes that were set in one of the two alone
        self.mounted = {}  # targets of mounts that the play made, and their lines
        self.opened = set()  # tasks that opened something in one of the two alone
        self.descriptors = {}  # where descriptors lead to that the play opened, by tasks and numbers

    def name(self, made: Made) -> None:
        if not is_same(made):
            made.difference = self.found(made) or "?"
        self.note(made)

    def found(self, made: Made) -> Optional[str]:
        if made.real == "?":
            return "ended-meanwhile"
        if made.play in ("", "open"):
            return "not-entered" if made.play == "" or made.is_last else None
        if made.verdict in ANSWERED and made.reply == "sent" and made.play != made.sent:
            return None  # the task got another answer than the one that was sent
        found = of_verdict(made)
        if found or made.verdict not in ("grant", "pass", "fault", "allow", "log"):
            return found
        return self.of_another(made) or self.of_mount(made) or of_tree(made) or of_call(made)

    # ---- what follows from an earlier call

    def path_of(self, made: Made) -> Optional[Tuple[bytes, ...]]:
        """The path of the call as names from the root, or None. One from a descriptor that isn't known counts with its number."""
        text, base = text_of(made), base_of(made)
        if not text:
            return None
        if base is None:
            return place((), text)
        parts = made.task.split(".")
        holders = ((".".join(parts[:length]), base) for length in range(len(parts), 0, -1))  # the task, and those that it may have it from
        known = next((self.descriptors[it] for it in holders if it in self.descriptors), None)
        return place((made.task.encode(), str(base).encode()) if known is None else known, text)

    def note(self, made: Made) -> None:
        """Remembers what a later call may follow from."""
        path = self.path_of(made)
        if made.name == "mount" and made.play == "0" and path is not None:
            self.mounted[path] = made.line
        if made.name == "openat" and made.play.isdigit() and path is not None:
            self.descriptors[made.task, int(made.play)] = path
        if not made.difference or path is None:
            return
        done = made.real.isdigit(), made.play.isdigit()
        if done[0] == done[1]:
            return
        if made.name in ("mknod", "mknodat") or made.name == "openat" and done[0] and made.numbers[2] & CREATE:
            self.changed[path] = MISSING if done[0] else THERE
        if made.name == "openat":
            self.opened.add(made.task)
        elif made.name == "mount" and done[0]:
            self.covered.add(path)
        elif made.name == "setxattr":
            self.attributes.add((path, text_at(made, 1)))

    def of_another(self, made: Made) -> Optional[str]:
        if "EBADF" in (made.real, made.play):
            return self.of_descriptor(made)
        path = self.path_of(made)
        if path is None:
            return None
        what = self.changed.get(path)
        follows = what is not None and is_found(made, what)
        for length in range(1, len(path)):
            above = self.changed.get(path[:length])
            follows = follows or above == MISSING and is_found(made, BELOW_MISSING) or above == THERE and is_found(made, BEHIND_A_FILE)
            follows = follows or path[:length] in self.covered and any(is_found(made, it) for it in OF_EXISTENCE)
        if made.name == "setxattr" and (path, text_at(made, 1)) in self.attributes:
            follows = follows or "0" in (made.real, made.play) and (made.real in of_flags(made) or made.play in of_flags(made))
        return "after-another" if follows else None

    def of_descriptor(self, made: Made) -> Optional[str]:
        """Of a number that isn't open in one of the two."""
        if made.name != "close" and base_of(made) is None:
            return None
        if (made.real, made.play) == ("ENOTDIR", "EBADF"):
            return "dirfd-not-a-directory" if made.is_open and made.name != "close" else None
        shifted = any(made.task == it or made.task.startswith(f"{it}.") or it.startswith(f"{made.task}.") for it in self.opened)
        is_told = made.is_open if made.real == "EBADF" else made.is_open is False
        return "after-another" if shifted and is_told else None

    def of_mount(self, made):
        """Of a path that leads into a mount that the play made."""
        path = self.path_of(made) or ()
        above = [it for it in self.mounted if path[:len(it)] == it and path != it]
        if not above or not (is_found(made, MISSING) or is_found(made, BELOW_MISSING)):
            return None
        is_gone = any(place in above and self.mounted[place] < line < made.line for line, place in self.unmounted)
        return "unmounted" if is_gone else "behind-a-mount"


# ---- which pairs of answers tell what


def is_device(made: Any) -> bool:
    return made.name in ("mknod", "mknodat") and mode_of(made) & KIND in (CHARACTER, BLOCK)


def mode_of(made: Made) -> int:
    return (made.numbers[made.name == "mknodat":] + [0, 0])[1]


def is_done(made: Made) -> bool:
    """Whether the play's answer is that of a path that leads where it is to: done, or refused for want of rights."""
    if made.name == "mount":
        return made.play == ("0" if made.verdict == "grant" else "EPERM")
    if made.verdict != "grant" and (is_device(made) or made.name == "setxattr" and not text_at(made, 1).startswith(b"user.")):
        return made.play == "EPERM"
    return made.play.isdigit() if made.name == "openat" else made.play == "0"


def of_flags(made: Made) -> Tuple[str, ...]:
    """The errors of a setxattr that say whether the attribute is there."""
    flags = made.numbers[4]
    return ("EEXIST",) * (flags & 1 != 0) + ("ENODATA",) * (flags & 2 != 0)


def is_found(made: Made, what: str) -> bool:
    """Whether the pair of answers says that the play finds the path so, and the traced call found it otherwise."""
    real, play = made.real, made.play
    if what == BEHIND_A_FILE:
        return play == "ENOTDIR" and real != "ENOTDIR"
    is_new = made.name in ("mknod", "mknodat")
    if what == BEHIND_A_DIRECTORY:
        return real == "ENOTDIR" and (play == "ENOENT" or is_new and play == "EEXIST" or is_done(made))
    if is_new and what == MISSING:
        return real == "EEXIST" and is_done(made)
    if is_new and what == THERE:
        return play == "EEXIST" and (real == "0" or real in (*NO_PERMISSION, "EROFS", "ENOSPC"))
    if what in (MISSING, BELOW_MISSING):
        return play == "ENOENT" and real not in WALK
    return real == "ENOENT" and (is_new and play == "EEXIST" or made.name == "setxattr" and play in of_flags(made) or is_done(made))


# ---- each call by itself


def of_verdict(made: Made) -> Optional[str]:
    """Of what a filter or the policy decided."""
    verdict = made.verdict
    if verdict.startswith("errno="):
        return "filter" if number_of(made.play) == -int(verdict[6:]) else None
    if verdict in ("nosys", "kill"):
        return "filter" if made.play == {"nosys": "ENOSYS", "kill": "ended"}[verdict] else None
    if made.reply == "sent" and made.play == made.sent:
        if verdict in ("deny", "spent"):
            return "denied"
        if verdict == "inject":
            return "injected"
        if verdict == "grant" and made.play == "0" and made.real in NO_PERMISSION and not of_attribute(made):
            return "granted"
    return None


def of_tree(made: Made) -> Optional[str]:
    """Of what the script says that the call finds in its tree, where that isn't what it found in the trace."""
    if made.name == "openat" and made.real.isdigit() and made.play == "ENOENT" and made.numbers[2] & CREATE and MISSING in made.finds:
        return "openat-only-walks"
    return next((name for what, name in made.finds.items() if is_found(made, what)), None)


def of_call(made: Made) -> Optional[str]:
    rule = {"mknod": of_mknod, "mknodat": of_mknod, "openat": of_openat, "mount": of_mount, "setxattr": of_setxattr}.get(made.name)
    return (rule(made) or of_any(made) or of_text(made)) if rule else None


def of_text(made):
    """Of a text that strace printed as an address: it prints so what it couldn't read, and what it doesn't take for a text."""
    texts = {"mount": (0, 1, 2), "setxattr": (0, 1)}.get(made.name, (OF_PATH[made.name],))
    return "text-not-told" if made.play == "EFAULT" and any(is_unreadable(made, at) for at in texts) else None


def of_any(made: Made) -> Optional[str]:
    """What may come of each call with a path."""
    text = text_of(made)
    if not is_done(made):
        return None
    if made.real == "EACCES":
        return "owners-and-modes"
    if made.real == "EROFS" and (made.name != "openat" or made.numbers[2] & (WRITES | CREATE)):
        return "mount-options"
    is_new = made.name in ("mknod", "mknodat")
    if text.endswith(b"/") and text.strip(b"/") and made.real in (("ENOENT", "ENOTDIR") if is_new else ("ENOTDIR", "EISDIR")):
        return "trailing-slash"
    return None


def of_openat(made: Made) -> Optional[str]:
    flags = made.numbers[2]
    if made.real in ("EMFILE", "ENFILE"):
        return "openat-full-table" if made.play in (*WALK, "EFAULT") else "no-free-descriptor" if made.play.isdigit() else None
    if not made.play.isdigit():
        return None
    if made.real == "EPERM" and flags & NO_ACCESS_TIME:
        return "owners-and-modes"
    if made.real == "EEXIST":
        return "openat-only-walks" if flags & CREATE and flags & EXCLUSIVE else None
    return "openat-only-walks" if flags & OF_FLAGS.get(made.real, 0) or made.real in OF_NODES else None


def of_mknod(made: Made) -> Optional[str]:
    kind = mode_of(made) & KIND
    device = (made.numbers[made.name == "mknodat":] + [0, 0])[2]
    first = {"EPERM": kind == DIRECTORY_KIND, "EINVAL": kind not in (*KINDS, DIRECTORY_KIND)}.get(made.real, False)
    path = text_at(made, int(made.name == "mknodat"), None)
    faults = {"EFAULT": path is None, "ENOENT": path == b"", "ENAMETOOLONG": path is not None and len(path) >= LONGEST_PATH}
    if first and faults.get(made.play):
        return "mknod-kind-first"
    if (made.real, made.play) == ("0", "EPERM") and is_device(made) and made.verdict != "grant":
        return "whiteout-device" if kind == CHARACTER and device & 0xFFFFFFFF == 0 else "no-rights"
    return None


def is_unreadable(made: Made, at: int) -> bool:
    return made.numbers[at] != 0 and text_at(made, at, None) is None


def of_mount(made: Made) -> Optional[str]:
    flags = made.numbers[3]
    if made.play in ("EFAULT", "EINVAL") and made.numbers[4] and (is_unreadable(made, 4) or len(text_at(made, 4)) >= LONGEST_PATH) and made.real != made.play:
        return "mount-data"
    if made.verdict == "grant":
        return of_granted_mount(made, flags)
    if made.play == "EPERM":
        has_right = made.real == "0" or made.real in OF_FILE_SYSTEMS
        return "no-rights" if has_right else "native-mount" if made.real in (*WALK, "EFAULT") else None
    faults = {"EFAULT": any(is_unreadable(made, at) for at in (0, 2)) or text_at(made, 1, None) is None,
              "ENAMETOOLONG": is_too_long(text_at(made, 1)) or len(text_at(made, 0)) >= LONGEST_PATH, "EINVAL": len(text_at(made, 2)) >= LONGEST_PATH}
    return "native-mount" if faults.get(made.play) and made.real in (*WALK, *NO_PERMISSION, "EFAULT", "EINVAL") else None


def of_granted_mount(made, flags):
    if made.play == "EINVAL" and not text_at(made, 2):
        return "mount-without-type" if made.real in WALK or made.real == "ENODEV" and made.numbers[2] else None
    if made.play != "0":
        return None
    if made.real == "EINVAL" and (flags & PROPAGATION or flags >> 32) and not flags & (REMOUNT | BIND | MOVE):
        return "mount-flags"
    is_of_source = made.real == "ENOENT" and text_at(made, 0).startswith(b"/")
    return "mount-source" if is_of_source or made.real in OF_FILE_SYSTEMS else None


def is_too_long(path: bytes) -> bool:
    return len(path) >= LONGEST_PATH or any(len(part) > LONGEST_PART for part in path.split(b"/"))


def of_attribute(made: Made) -> Optional[str]:
    """Of a name or a value that Linux refuses."""
    name = text_at(made, 1)
    is_set = made.play == "0" and (made.verdict == "grant" or name.startswith(b"user."))
    if made.name != "setxattr" or not is_set and made.play not in of_flags(made):
        return None
    if is_refused_for_its_name(name, made.real):
        return "attribute-names"
    return "attribute-values" if is_set and is_refused_for_its_value(name, made.real, made.numbers[3]) else None


def of_setxattr(made: Made) -> Optional[str]:
    name, size, flags = text_at(made, 1), made.numbers[3], made.numbers[4] & 0xFFFFFFFF
    if made.play == "E2BIG":
        if size > MOST_OF_LINUX:
            return "setxattr-order" if made.real in ("EFAULT", "ENAMETOOLONG", "ERANGE", "EINVAL") else None
        return "attribute-size" if size > MOST_OF_A_VALUE else None
    if made.play == "EPERM" and made.verdict != "grant" and not name.startswith(b"user."):
        if made.real == "0" and name in WITHOUT_RIGHTS:
            return "attribute-without-rights"
        if made.real in ("0", "EEXIST", "ENODATA"):
            return "no-rights" if name.startswith((b"trusted.", b"security.")) else None
        return "setxattr-order" if made.real in (*WALK, *REFUSED, "EFAULT", "E2BIG") else None
    faults = {
        "EFAULT": any(text_at(made, at, None) is None for at in (0, 1)) or size > 0 and text_at(made, 2, None) is None,
        "ENAMETOOLONG": is_too_long(text_at(made, 0)), "ERANGE": name == b"" or len(name) > LONGEST_NAME, "EINVAL": flags & ~3 != 0,
    }
    if faults.get(made.play):
        return "setxattr-order" if made.real in (*WALK, *REFUSED, "EFAULT", "E2BIG") else None
    return of_attribute(made)
