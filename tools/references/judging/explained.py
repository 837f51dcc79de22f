"""Calls that are drawn at random, and which rule decides each: here, and by the program's word `explain`."""
import random
import re
import subprocess
import tempfile
from pathlib import Path

from tools.commands.messages.policy_words import FLAGS
from tools.references.stepping.facts import AT_FDCWD, ERROR_NAMES, quoted
from tools.references.stepping.rules import BITS, Mknod, Mount, OpenAt, Other, SetXattr, Sysinfo, decide

KINDS = {"reg": 0o100000, "chr": 0o020000, "blk": 0o060000, "fifo": 0o010000, "sock": 0o140000}
DEVICES = ((0, 0), (1, 1), (1, 3), (1, 5), (1, 7), (5, 0), (5, 1), (8, 0), (10, 229), (4095, 1048575))
PATHS = (b"/dev/null", b"/run/x", b"/run/../x", b"/log", b"/old/a", b"x", b"", b"/run", b"/mnt", b"/kept/a")
TYPES = (b"ext4", b"tmpfs", b"xfs", b"btrfs", b" ext4", b"NTFS", b"vfat", b"")
NAMES = (b"user.origin", b"trusted.overlay.opaque", b"user.mark", b"security.x")
VALUES = (b"y", b"", b"n", b"1")
SOURCES = (b"/dev/sda1", b"/dev/sdb1", b"none")
OTHERS = (0, 1, 321, 2**31 - 1)
CALLS_OF_A_POLICY = 60
STATED = re.compile(r'"([^"\\]{0,60})"')


class Drawer:
    """Draws calls, and now and then one with a text that the policy states."""

    def __init__(self, policy, chance):
        self.chance = chance
        self.stated = [text.encode() for text in STATED.findall(policy.decode("utf-8", "replace"))]

    def text(self, usual):
        return self.chance.choice(self.stated) if self.stated and self.chance.random() < 0.3 else self.chance.choice(usual)

    def flags(self, call):
        names = self.chance.sample(FLAGS[call], self.chance.choice((0, 0, 1, 2)))
        return ",".join(names) or "-", sum(BITS[name] for name in names)

    def call(self):
        """The line of a call, and the request that it is."""
        return self.chance.choice((self.node, self.node, self.mount, self.mount, self.attribute, self.opening, self.plain))()

    def node(self):
        kind, (major, minor) = self.chance.choice(list(KINDS)), self.chance.choice(DEVICES)
        is_device = kind in ("chr", "blk")
        device = minor % 256 + major * 256 + minor // 256 * 1048576 if is_device else 0
        dirfd, path = self.chance.choice((None, AT_FDCWD, 0, 3)), self.text(PATHS)
        front = "mknod" if dirfd is None else f"mknodat {dirfd}"
        return f"{front} {quoted(path)} {kind}" + (f" {major}:{minor}" if is_device else ""), Mknod(dirfd, path, KINDS[kind], device)

    def mount(self):
        (names, bits), texts = self.flags("mount"), (self.text(SOURCES), self.text(PATHS), self.text(TYPES), self.text(VALUES))
        source, target, fstype, data = map(quoted, texts)
        return f"mount {source} {target} {fstype} {names} {data}", Mount(*texts, b"", bits, False)

    def attribute(self):
        (names, bits), texts = self.flags("setxattr"), (self.text(PATHS), self.text(NAMES), self.text(VALUES))
        return f"setxattr {' '.join(map(quoted, texts))} {names}", SetXattr(*texts, bits)

    def opening(self):
        dirfd, path = self.chance.choice((AT_FDCWD, 3)), self.text(PATHS)
        return f"openat {dirfd} {quoted(path)}", OpenAt(dirfd, path, 0)

    def plain(self):
        number = self.chance.choice(OTHERS)
        return self.chance.choice((("sysinfo", Sysinfo(0)), ("close", Other(3)), ("getpid", Other(39)), (f"other {number}", Other(number))))


def told(rule):
    """The end of a call's line in an explanation, without a reason."""
    verdict = rule.verdict
    if verdict == "deny":
        verdict += f" error={ERROR_NAMES[rule.error]}"
    elif verdict == "inject":
        verdict += f" src={rule.source} at={'-' if rule.place is None else rule.place}"
    return f" rule={rule.name} verdict={verdict}" + (f" times={rule.times}" if rule.times is not None else "")


def differences(program, policy, rules, seed):
    """Each drawn call that the program explains otherwise, in words."""
    with open(policy, "rb") as file:
        drawer = Drawer(file.read(), random.Random(seed))
    calls = [drawer.call() for _ in range(CALLS_OF_A_POLICY)]
    with tempfile.NamedTemporaryFile("w", encoding="latin-1", suffix=".txt") as file:
        file.write("".join(line + "\n" for line, _ in calls))
        file.flush()
        ended = subprocess.run([program, "explain", Path(policy), file.name], stdin=subprocess.DEVNULL, capture_output=True)
    if ended.returncode != 0:
        yield f"status {ended.returncode}: {ended.stderr.decode()}"
        return
    lines = [line for line in ended.stdout.decode("latin-1").split("\n") if line and not line.startswith("  ")]
    for (line, request), found in zip(calls, lines):
        wanted = told(decide(rules, request))
        if not found.partition(" reason=")[0].endswith(wanted):
            yield f"{line}: the program says {found}, and here it is{wanted}"
