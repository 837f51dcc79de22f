"""The words of a policy, as docs/reference/POLICY.md has them: keys, calls, conditions, flags and errors."""
from dataclasses import dataclass

from tools.commands.real_workloads.script_text import CALLS

PREFIX = "security.syscalls.intercept."
SWITCHES = ("mknod", "mount", "mount.shift", "setxattr", "sysinfo")
LISTS = ("mount.allowed", "mount.fuse")
ON, OFF = ("true", "1", "yes", "on"), ("false", "0", "no", "off", "")
TOP_KEYS = ("config", "profile", "rules", "version")
RULE_KEYS = ("call", "name", "then", "times", "when")
FLAG_KEYS = ("all", "none")
KINDS = ("reg", "chr", "blk", "fifo", "sock")
MOST_RULES = 1024
FLAGS = {
    "mount": ("RDONLY", "NOSUID", "NODEV", "NOEXEC", "SYNCHRONOUS", "REMOUNT", "MANDLOCK", "DIRSYNC", "NOSYMFOLLOW", "NOATIME", "NODIRATIME", "BIND", "MOVE", "REC", "SILENT",
              "UNBINDABLE", "PRIVATE", "SLAVE", "SHARED", "RELATIME", "STRICTATIME", "LAZYTIME"),
    "setxattr": ("CREATE", "REPLACE"),
}
ERRORS = ("EPERM", "ENOENT", "ESRCH", "EINTR", "E2BIG", "EBADF", "ECHILD", "EAGAIN", "EACCES", "EFAULT", "EBUSY", "EEXIST", "ENODEV", "ENOTDIR", "EINVAL", "EMFILE", "ERANGE",
          "ENAMETOOLONG", "ENOSYS", "ELOOP", "ENODATA", "EINPROGRESS", "EDQUOT")


@dataclass(frozen=True)
class Condition:
    """For which calls a condition is, what its value has to be, and when a call meets it."""

    calls: tuple
    value: str
    meaning: str
    profile: bool = False


PATH_CALLS = ("mknod", "mknodat", "openat", "setxattr", "mount")
NODE_CALLS = ("mknod", "mknodat")
CONDITIONS = {
    "path": Condition(PATH_CALLS, 'a text, as `"/dev/null"`', "the path is this text; of mount, the target"),
    "under": Condition(PATH_CALLS, 'a text that begins with `/` and doesn\'t end with one, as `"/run"`', "the path begins with this text and a slash, and has no component `..`"),
    "kind": Condition(NODE_CALLS, 'one of `"reg"`, `"chr"`, `"blk"`, `"fifo"` and `"sock"`', "the node is of this kind"),
    "dev": Condition(NODE_CALLS, '`"MAJOR:MINOR"`, decimal without leading zeros, up to 4095 and 1048575, as `"1:3"`', "the node is a device with these numbers"),
    "fstype": Condition(("mount",), 'a text, as `"ext4"`', "the type is this text"),
    "source": Condition(("mount",), 'a text, as `"/dev/sda1"`', "the source is this text"),
    "name": Condition(("setxattr",), 'a text, as `"user.origin"`', "the attribute's name is this text"),
    "value": Condition(("setxattr",), 'a text, as `"y"`', "the attribute's value has exactly the bytes of this text", True),
    "dirfd": Condition(("mknod", "mknodat", "openat"), "a whole number from 0 to 2147483647, or -100 (AT_FDCWD)", "the directory descriptor is this number; of mknod it is always -100", True),
    "flags": Condition(("mount", "setxattr"), 'an object, as `{"all": ["RDONLY"], "none": ["NOEXEC"]}`', "each flag of `all` is set, and none of `none`", True),
}


@dataclass(frozen=True)
class Answer:
    """For which calls an answer is, how it is written, and what a worker does."""

    calls: tuple
    form: str
    meaning: str


ANSWERS = {
    "grant": Answer(("mknod", "mknodat", "mount", "setxattr", "sysinfo"), '`"grant"`', "The worker does it in the container's tree, and answers with the result."),
    "pass": Answer(tuple(CALLS), '`"pass"`', "The worker answers CONTINUE: the kernel runs the call, without the broker's rights."),
    "deny": Answer(tuple(CALLS), '`{"deny": "EPERM"}`', "The worker answers with this error."),
    "inject": Answer(("openat",), '`{"inject": N}`, maybe with `"at": M`', "The worker puts its descriptor N into the caller, at the lowest free number or at M; both are up to 4,294,967,295."),
}
ANSWER_KEYS = ("at", "deny", "inject")
# words of others for an answer
OTHER_ANSWERS = {"allow": '`"grant"`, and `"pass"` to leave the call to the kernel', "permit": '`"grant"`', "accept": '`"grant"`', "continue": '`"pass"`', "skip": '`"pass"`',
                 "deny": '`{"deny": "EPERM"}`', "refuse": '`{"deny": "EPERM"}`', "reject": '`{"deny": "EPERM"}`', "inject": '`{"inject": N}`'}
# keys of the object that LXD's and Incus' own tools print for an instance
OF_AN_INSTANCE = ("architecture", "created_at", "description", "devices", "ephemeral", "expanded_config", "expanded_devices", "last_used_at", "location", "name", "profiles", "project",
                  "stateful", "status", "status_code", "type")
QUERY = "`lxc query /1.0/instances/NAME | jq '{profile: \"lxd\", config: .expanded_config}'`"
