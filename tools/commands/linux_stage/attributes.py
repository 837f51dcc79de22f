"""Extended attributes as Linux sets them: which names it refuses, which it lets be set without rights, and which values it refuses."""
from __future__ import annotations


ACLS = (b"system.posix_acl_access", b"system.posix_acl_default")
CAPABILITY = b"security.capability"
# names that Linux lets be set without CAP_SYS_ADMIN; the last one where no module of that name is loaded
WITHOUT_RIGHTS = (*ACLS, CAPABILITY, b"security.selinux")
NAMESPACES = (b"user.", b"trusted.", b"security.", *ACLS)
BARE = (b"user.", b"trusted.", b"security.")
MOST_OF_A_VALUE = 65536
LARGE = 1000  # from so many bytes on a file system may have no room for it
NO_NAMESPACE = ("ENOTSUP", "EOPNOTSUPP")


def is_refused_for_its_name(name: bytes, error: str) -> bool:
    """Whether Linux may answer this error for the name, whatever the rights are."""
    return {
        "ERANGE": name == b"", "EINVAL": name == b"user.", "EPERM": name.startswith(b"user."),
        **dict.fromkeys(NO_NAMESPACE, not name.startswith(NAMESPACES)),
    }.get(error, False)


def is_refused_for_its_value(name: bytes, error: str, size: int) -> bool:
    """Whether Linux may answer this error for the value, of so many bytes, or for what stands behind `trusted.` and `security.`."""
    return {
        "EINVAL": name in (*BARE[1:], *ACLS, CAPABILITY), "EACCES": name == ACLS[1], "ENOSPC": size >= LARGE, **dict.fromkeys(NO_NAMESPACE, name in ACLS),
    }.get(error, False)
