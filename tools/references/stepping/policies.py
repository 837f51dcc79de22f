"""A policy's bytes, read whole: its rules in the order in which they are tried, or the first refusal (docs/reference/POLICY.md, Policy)."""
from __future__ import annotations

import errno
import json
import re
from typing import Any, Dict, List, Tuple, Union

from tools.commands.messages import policy_words as words
from tools.commands.real_workloads.script_text import CALLS
from tools.references.stepping.facts import AT_FDCWD, escaped, quoted
from tools.references.stepping.rules import OTHER_CALLS, Condition, Rule, condition

SAFE_DEVICES = ((0, 0), (5, 1), (1, 7), (1, 3), (1, 8), (5, 0), (1, 9), (1, 5))
IGNORED = ("bpf", "bpf.devices", "sched_setscheduler")
SHORT_NAME = re.compile(r"[a-z0-9._-]{1,32}")
RULE_NAME = re.compile(r"[a-z0-9._:-]{1,64}")
DEVICE = re.compile(r"(0|[1-9][0-9]*):(0|[1-9][0-9]*)")
MOST_MAJOR, MOST_MINOR = 4095, 1_048_575
MOST_NUMBER = 2**32 - 1
PROPAGATION = ("UNBINDABLE", "PRIVATE", "SLAVE", "SHARED")
SWITCHED = {"mknod": "mknod", "mount": "mount", "mount.shift": "shift", "setxattr": "setxattr", "sysinfo": "sysinfo"}
PLAIN_MOUNT = condition("plain flags")


class Refused(Exception):
    """A policy that isn't taken; the text is what stands behind `policy: `."""


def refuse_value(place: str) -> None:
    raise Refused(f"bad value at {place}")


def refuse_key(place: str) -> None:
    raise Refused(f"unknown key at {place}")


def need(found, place):
    """What was found at a place; refused where that is nothing."""
    if found is None:
        refuse_value(place)
    return found


def quoted_key(key: str) -> str:
    return quoted(key.encode())


def text_in(value: str) -> str:
    return value if isinstance(value, str) else None


def whole(value, least, most=MOST_NUMBER):
    """A whole number within its range; None of another value."""
    return value if isinstance(value, int) and not isinstance(value, bool) and least <= value <= most else None


def members(value: Any, place: str) -> Any:
    """The members of an object, in the order of their keys' bytes."""
    if not isinstance(value, dict):
        refuse_value(place)
    return sorted(value.items(), key=lambda member: member[0].encode())


# ---- LXD's keys


class Switches:
    """What the keys of `config` switch on."""

    def __init__(self, profile):
        self.profile = profile
        self.mknod = self.mount = self.shift = self.setxattr = self.sysinfo = False
        self.fuse, self.allowed = {}, {}

    def read(self, config: Dict[str, str]) -> None:
        for key, value in members(config, "config"):
            if key.startswith(words.PREFIX):
                self.set(key[len(words.PREFIX):], f"config.{quoted_key(key)}", value)

    def set(self, name: str, place: str, value: str) -> None:
        if name in IGNORED:
            if self.profile:
                need(switch_of(text_in(value)), place)
        elif name in SWITCHED:
            setattr(self, SWITCHED[name], need(switch_of(need(text_in(value), place)), place))
        elif name == "mount.allowed":
            self.allowed = need(self.file_systems(need(text_in(value), place)), place)
        elif name == "mount.fuse":
            self.fuse = need(self.pairs(need(text_in(value), place)), place)
        else:
            refuse_key(place)

    def items(self, text: str) -> List[str]:
        if not self.profile:
            return [item for item in (it.strip(" ") for it in text.split(",")) if item]
        return [] if not text or text.startswith(",") else text.split(",")[::-1]

    def file_systems(self, text: str) -> Any:
        """The types of a list, each once; None where one is no name."""
        items = self.items(text)
        return dict.fromkeys(items) if self.profile or all(map(SHORT_NAME.fullmatch, items)) else None

    def pairs(self, text):
        """The types of a list with their programs; None where an item is none, or a type stands in both lists."""
        found = {}
        for item in self.items(text):
            name, sign, program = item.partition("=")
            fits = "=" not in program if self.profile else SHORT_NAME.fullmatch(name) and SHORT_NAME.fullmatch(program)
            if not sign or not fits:
                return None
            found.setdefault(name, program)
        if self.profile and self.mount and any(program and name in self.allowed for name, program in found.items()):
            return None
        return found

    # ---- the rules

    def rules(self) -> List[Rule]:
        grants = [*self.mknod_rules(), *self.mount_rules(), *self.setxattr_rules(), *([plain("lxd.sysinfo", ("sysinfo",), (), "grant")] if self.sysinfo else [])]
        return grants + (self.reasons() if self.profile else [])

    def mknod_rules(self) -> List[Rule]:
        if not self.mknod:
            return []
        more = (condition("dirfd", AT_FDCWD), condition("short device")) if self.profile else ()
        return [plain(f"lxd.mknod.{major}:{minor}", ("mknod", "mknodat"), (condition("kind", "chr"), condition("dev", major, minor), *more), "grant") for major, minor in SAFE_DEVICES]

    def mount_rules(self) -> List[Rule]:
        if not self.mount:
            return []
        found = []
        for fstype, program in self.fuse.items():
            found += [mount_rule("lxd.mount.fuse.", fstype)._replace(via=program.encode(), shift=self.shift)] if program else self.type_rules(fstype)
        return found + [rule for fstype in self.allowed for rule in self.type_rules(fstype)]

    def type_rules(self, fstype: str) -> List[Rule]:
        """The rules of a type that the kernel mounts: none of what is no name."""
        if not SHORT_NAME.fullmatch(fstype):
            return []
        return [mount_rule("lxd.mount.", fstype, *([condition("flags", (), PROPAGATION)] if self.profile else []))._replace(shift=self.shift)]

    def setxattr_rules(self) -> List[Rule]:
        more = (condition("value", b"y"),) if self.profile else ()
        return [plain("lxd.setxattr.opaque", ("setxattr",), (condition("name", b"trusted.overlay.opaque"), *more), "grant")] if self.setxattr else []

    def reasons(self) -> List[Rule]:
        """Why LXD passes what its rules don't grant."""
        found = []
        if self.mknod:
            found += [plain("lxd.mknod.not-a-known-device", ("mknod", "mknodat"), (condition("dirfd", AT_FDCWD),)), plain("lxd.mknodat.directory-descriptor", ("mknodat",))]
        if self.mount:
            flags = [("remount", "REMOUNT"), ("bind", "BIND"), ("move", "MOVE"), *(("propagation", it) for it in PROPAGATION)]
            found += [plain(f"lxd.mount.{name}", ("mount",), (condition("flags", (flag,), ()),)) for name, flag in flags]
            found.append(plain("lxd.mount.type", ("mount",)))
        if self.setxattr:
            found += [plain("lxd.setxattr.value", ("setxattr",), (condition("name", b"trusted.overlay.opaque"),)), plain("lxd.setxattr.name", ("setxattr",))]
        return found


def switch_of(text):
    """Whether a switch with this text is on; None where it is no switch."""
    lower = None if text is None else re.sub("[A-Z]", lambda letter: letter[0].lower(), text)
    return True if lower in words.ON else False if lower in words.OFF else None


def mount_rule(front: str, fstype: str, *more: Condition) -> Rule:
    """The rule that grants mounts of a type."""
    return Rule(front + escaped(fstype.encode()), ("mount",), (condition("fstype", fstype.encode()), PLAIN_MOUNT, *more), "grant")


def plain(name: str, calls: Union[Tuple[str, ...], str], conditions: Tuple[Condition, ...] = (), verdict: str = "pass") -> Rule:
    return Rule(name, calls, tuple(conditions), verdict)


def defaults() -> List[Rule]:
    return [plain(f"default.{name}", (name,)) for name in CALLS] + [plain("default.other", OTHER_CALLS)]


# ---- rules of a policy's own


class RuleReader:
    """Reads the rule at a place."""

    def __init__(self, version, profile, place, used):
        self.version, self.profile, self.place, self.used = version, profile, f"rules[{place}]", used
        self.stated = {"conditions": ()}
        # what a denial or an injection says besides
        self.details = {}

    def read(self, value):
        for key, member in members(value, self.place):
            if key not in words.RULE_KEYS or (key == "times" and self.version == 1):
                refuse_key(f"{self.place}.{quoted_key(key)}")
            KEYS[key](self, member)
        name, calls, verdict = (need(self.stated.get(key), f"{self.place}.{key}") for key in ("name", "call", "then"))
        conditions = self.stated["conditions"]
        self.test(name, calls, verdict, conditions)
        granted_mount = verdict == "grant" and "mount" in calls
        return Rule(name, calls, (*conditions, PLAIN_MOUNT) if granted_mount else conditions, verdict, times=self.stated.get("times"), **self.details)

    def test(self, name: str, calls: Tuple[str, ...], verdict: str, conditions: Tuple[Condition, ...]) -> None:
        """The tests of the rule as a whole."""
        if any(call not in words.ANSWERS[verdict].calls for call in calls):
            refuse_value(f"{self.place}.then")
        if "times" in self.stated and verdict != "grant":
            refuse_value(f"{self.place}.times")
        misfit = next((it for it in conditions if not all(is_for(it, call) for call in calls)), None)
        if misfit:
            refuse_value(f"{self.place}.when.{misfit.name}")
        if name in self.used:
            refuse_value(f"{self.place}.name")

    def read_name(self, value: str) -> None:
        text = text_in(value)
        fits = text is not None and RULE_NAME.fullmatch(text) and not text.startswith(("lxd.", "default."))
        self.stated["name"] = need(text if fits else None, f"{self.place}.name")

    def read_call(self, value):
        if isinstance(value, str):
            self.stated["call"] = (need(value if value in CALLS else None, f"{self.place}.call"),)
        elif isinstance(value, list) and value:
            self.stated["call"] = tuple(need(it if isinstance(it, str) and it in CALLS else None, f"{self.place}.call[{at}]") for at, it in enumerate(value))
        else:
            refuse_value(f"{self.place}.call")

    def read_times(self, value: int) -> None:
        self.stated["times"] = need(whole(value, 1), f"{self.place}.times")

    def read_then(self, value: Any) -> None:
        place = f"{self.place}.then"
        if isinstance(value, dict):
            for key, member in members(value, place):
                if key not in words.ANSWER_KEYS:
                    refuse_key(f"{place}.{quoted_key(key)}")
                need(member if key == "deny" and isinstance(member, str) and member in words.ERRORS else whole(member, 0) if key != "deny" else None, f"{place}.{key}")
            keys = set(value)
            self.stated["then"] = need("deny" if keys == {"deny"} else "inject" if keys in ({"inject"}, {"inject", "at"}) else None, place)
            self.details = {"error": getattr(errno, value["deny"])} if "deny" in value else {"source": value["inject"], "place": value.get("at")}
        else:
            self.stated["then"] = need(value if value in ("grant", "pass") and isinstance(value, str) else None, place)

    def read_when(self, value):
        self.stated["conditions"] = tuple(self.condition(key, member) for key, member in members(value, f"{self.place}.when"))

    def condition(self, key: str, value: Any) -> Condition:
        known = words.CONDITIONS.get(key)
        if known is None or (known.profile and not self.profile):
            refuse_key(f"{self.place}.when.{quoted_key(key)}")
        if key == "flags":
            return self.flags(value)
        return need(condition_of(key, value), f"{self.place}.when.{key}")

    def flags(self, value):
        place, lists = f"{self.place}.when.flags", {"all": (), "none": ()}
        for key, member in members(value, place):
            if key not in lists:
                refuse_key(f"{place}.{quoted_key(key)}")
            if not isinstance(member, list):
                refuse_value(f"{place}.{key}")
            lists[key] = tuple(need(it if isinstance(it, str) and any(it in names for names in words.FLAGS.values()) else None, f"{place}.{key}[{at}]") for at, it in enumerate(member))
        return condition("flags", lists["all"], lists["none"])


KEYS = {"name": RuleReader.read_name, "call": RuleReader.read_call, "then": RuleReader.read_then, "times": RuleReader.read_times, "when": RuleReader.read_when}


def condition_of(key, value):
    """A condition with one value; None where the value is none."""
    if key == "dirfd":
        number = AT_FDCWD if value == AT_FDCWD and isinstance(value, int) else whole(value, 0, 2**31 - 1)
        return None if number is None else condition(key, number)
    if not isinstance(value, str):
        return None
    if key == "kind":
        return condition(key, value) if value in words.KINDS else None
    if key == "dev":
        found = DEVICE.fullmatch(value)
        fits = found and int(found[1]) <= MOST_MAJOR and int(found[2]) <= MOST_MINOR
        return condition(key, int(found[1]), int(found[2])) if fits else None
    if key == "under" and not (value.startswith("/") and not value.endswith("/")):
        return None
    return condition(key, value.encode())


def is_for(stated: Condition, call: str) -> bool:
    known = words.CONDITIONS[stated.name]
    return call in known.calls and (stated.name != "flags" or all(flag in words.FLAGS[call] for flags in stated.values for flag in flags))


# ---- the whole


def refuse_constant(name):
    raise ValueError(name)


def value_of(data: bytes) -> Any:
    try:
        return json.loads(data.decode(), parse_constant=refuse_constant)
    except (ValueError, RecursionError):
        raise Refused("not JSON") from None


def read_policy(data: bytes) -> List[Rule]:
    """The rules of a policy's bytes. Raises Refused."""
    value = value_of(data)
    if not isinstance(value, dict):
        refuse_value("(top)")
    version = need(whole(value.get("version", 1), 1, 2), "version")
    profile = "profile" in value
    if profile and value["profile"] != "lxd":
        refuse_value("profile")
    switches, own = Switches(profile), []
    for key, member in members(value, "(top)"):
        if key not in words.TOP_KEYS:
            refuse_key(quoted_key(key))
        if key == "config":
            switches.read(member)
        elif key == "rules":
            own = read_rules(member, version, profile)
    return [*own, *switches.rules(), *defaults()]


def read_rules(value, version, profile):
    if not isinstance(value, list):
        refuse_value("rules")
    if len(value) > words.MOST_RULES:
        raise Refused("too many rules")
    found = []
    for place, stated in enumerate(value):
        found.append(RuleReader(version, profile, place, {rule.name for rule in found}).read(stated))
    return found
