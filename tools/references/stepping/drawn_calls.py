"""Policies and files of calls that are drawn at random, from few texts and numbers, so that calls often meet conditions of rules; and lines that are no calls."""
from __future__ import annotations

import json
import random
from typing import Any, Dict, List, Sequence, Tuple, Union

from tools.commands.messages.policy_words import ANSWERS, CONDITIONS, ERRORS, FLAGS, KINDS, PREFIX
from tools.commands.real_workloads.script_text import CALLS
from tools.references.stepping.facts import quoted

PATHS = ("/dev/null", "/run/a", "/run/../a", "/run", "x", "", "/a b", '/"\\', "/é", "/run/" + "y" * 300)
DIRECTORIES = ("/run", "/dev", "/a b", "/run/..")
TYPES, NAMES, VALUES, DATA = ("ext4", "tmpfs", "NTFS", "a b", ""), ("trusted.overlay.opaque", "user.mark", ""), ("y", "", "1", "\x00y", "é"), ("ro", "a,b=c", "")
DEVICES = ("0:0", "1:3", "5:1", "8:0", "4095:1048575", "0:256")
DESCRIPTORS = (-100, 0, 3, 2**31 - 1)
SWITCHES = ("true", "0", "ON", "")
VALUES_OF = {"path": PATHS, "under": DIRECTORIES, "kind": KINDS, "dev": DEVICES, "fstype": TYPES, "source": PATHS, "name": NAMES, "value": VALUES, "dirfd": DESCRIPTORS}
MOST_RULES, MOST_LINES = 12, 30
FAULTY = (
    "open", "mknod", 'mknod "/a"', 'mknod "/a" chr', 'mknod /a chr 1:3', 'mknod "/a" chr 1:3 2', 'mknod "/a" fifo 1:3', 'mknod "/a" chr 01:3', 'mknod "/a" chr 1:3 mode=4096', 'mknod "/a\\0" sock',
    'mknodat "3" "/a" fifo', 'mknodat 2147483648 "/a" fifo', 'mount "a" "b"', 'mount "a" "b" "c" ro', 'mount "a" "b" "c" RDONLY "d" "e"', 'mount "a" "b" "c" CREATE', 'setxattr "a" "b" 79',
    'setxattr "a" "b\\0" "c"', 'setxattr "a" "b" "c" REC', 'openat 3', 'openat at_fdcwd "d"', "sysinfo 1", "close 3", "other 133", "other -1", "other", 'other "5"', '"close"', "close \x01", 'openat 3 "d', "\xa0close",
)


class Chooser:
    def __init__(self, chance: random.Random) -> None:
        self.chance = chance

    def some(self, choices: Sequence[str], least: int = 0) -> List[str]:
        return self.chance.sample(list(choices), self.chance.randrange(least, min(len(choices), least + 3) + 1))

    # ---- policies

    def stated(self) -> Dict[str, Any]:
        """A policy that is taken."""
        profile = self.chance.random() < 0.6
        stated = {"version": 2, "config": self.config(profile), "rules": [self.rule(f"rule-{at}", profile) for at in range(self.chance.randrange(MOST_RULES))]}
        return {"profile": "lxd", **stated} if profile else stated

    def policy(self) -> str:
        """A policy that is taken, as text."""
        return json.dumps(self.stated(), ensure_ascii=self.chance.random() < 0.5)

    def config(self, profile: bool) -> Dict[str, str]:
        found = {name: self.chance.choice(SWITCHES) for name in self.some(("mknod", "mount", "mount.shift", "setxattr", "sysinfo"), 2)}
        types = [name for name in TYPES if profile or name in ("ext4", "tmpfs")]
        allowed = self.some(types)
        if allowed:
            found["mount.allowed"] = ",".join(allowed)
        fuse = [name for name in types if name not in allowed and self.chance.random() < 0.5]
        if fuse:
            found["mount.fuse"] = ",".join(f"{name}={'fuse2fs' if not profile or self.chance.random() < 0.7 else ''}" for name in fuse)
        return {PREFIX + name: value for name, value in found.items()}

    def rule(self, name, profile):
        answer = self.chance.choice(list(ANSWERS))
        calls = self.some(ANSWERS[answer].calls, 1)
        when = {}
        for key, known in CONDITIONS.items():
            if all(call in known.calls for call in calls) and (profile or not known.profile) and self.chance.random() < 0.35:
                when[key] = self.flags(calls[0]) if key == "flags" else self.chance.choice(VALUES_OF[key])
        if "flags" in when and len(calls) > 1:
            when.pop("flags")
        found = {"name": name, "call": calls[0] if len(calls) == 1 and self.chance.random() < 0.5 else calls, "when": when, "then": self.then(answer)}
        if answer == "grant" and self.chance.random() < 0.3:
            found["times"] = self.chance.choice([1, 2, 2**32 - 1])
        return found

    def flags(self, call: str) -> Any:
        return {key: self.some(FLAGS[call]) for key in self.some(("all", "none"))}

    def then(self, answer: str) -> Union[Dict[str, Union[int, str]], str]:
        if answer == "deny":
            return {"deny": self.chance.choice(ERRORS)}
        if answer == "inject":
            return {"inject": self.chance.choice([0, 5, 2**32 - 1]), **({"at": self.chance.choice([0, 9])} if self.chance.random() < 0.5 else {})}
        return answer

    # ---- calls

    def text(self, choices: Tuple[str, ...]) -> str:
        """A text between quotes; bytes that a report escapes often stand as they are."""
        content = self.chance.choice(choices).encode()
        return quoted(content) if self.chance.random() < 0.7 else '"' + content.decode("latin-1").replace("\\", "\\\\").replace('"', '\\"').replace("\0", "\\0") + '"'

    def dirfd(self) -> str:
        return self.chance.choice(["AT_FDCWD", "-0x80000000", *map(str, DESCRIPTORS)])

    def node(self) -> str:
        kind = self.chance.choice(KINDS)
        mode = self.chance.choice(["", "", " mode=0o600", " mode=0", " mode=0xfff"])
        return f"{self.text(PATHS)} {kind}{' ' + self.chance.choice(DEVICES) if kind in ('chr', 'blk') else ''}{mode}"

    def flags_of(self, call):
        return ",".join(self.some(FLAGS[call])) or self.chance.choice(["-", ","])

    def mount(self) -> str:
        line = f"mount {self.text(PATHS)} {self.text(PATHS)} {self.text(TYPES)}"
        behind = self.chance.random()
        return line + (f" {self.flags_of('mount')}" if behind < 0.8 else "") + (f" {self.text(DATA)}" if behind < 0.3 else "")

    def setxattr(self) -> str:
        return f"setxattr {self.text(PATHS)} {self.text(NAMES)} {self.text(VALUES)}" + (f" {self.flags_of('setxattr')}" if self.chance.random() < 0.6 else "")

    def call(self) -> str:
        draw = {
            "mknod": lambda: f"mknod {self.node()}", "mknodat": lambda: f"mknodat {self.dirfd()} {self.node()}", "mount": self.mount, "setxattr": self.setxattr,
            "openat": lambda: f"openat {self.dirfd()} {self.text(PATHS)}", "other": lambda: f"other {self.chance.choice(['0', '321', '0x7fffffff'])}",
        }
        name = self.chance.choice([*CALLS, "mknod", "mknodat", "mount", "setxattr", "other"])
        return draw[name]() if name in draw else name

    def calls(self) -> bytes:
        """A file of calls, as bytes; of some a line is none, or is cut, and some have other bytes than they should."""
        lines = [self.call() if self.chance.random() < 0.85 else self.chance.choice(["", "  ", "# mknod", "\t#"]) for _ in range(self.chance.randrange(MOST_LINES))]
        kind = self.chance.random()
        if lines and kind < 0.3:
            at = self.chance.randrange(len(lines))
            lines[at] = self.chance.choice(FAULTY) if kind < 0.2 else lines[at][:self.chance.randrange(len(lines[at]) + 1)]
        content = bytearray(self.chance.choice(["\n", "\n", "\r\n"]).join(lines + [""] * self.chance.randrange(2)).encode("latin-1"))
        for _ in range(self.chance.randrange(1, 4) if content and kind > 0.85 else 0):
            content[self.chance.randrange(len(content))] = self.chance.choice((*b'\n\r\t "\\#,=:-09', self.chance.randrange(256)))
        return bytes(content)


def drawn(seed: str) -> Tuple[bytes, bytes]:
    """A policy and a file of calls, as bytes."""
    chooser = Chooser(random.Random(seed))
    return chooser.policy().encode(), chooser.calls()
