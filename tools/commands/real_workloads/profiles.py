"""Profiles of seccomp as OCI runtimes take them (Docker, Podman, containerd), made into filters by libseccomp, as runc does it.

A rule counts where all of `includes` hold and none of `excludes`: of capabilities, of architectures, and of the kernel's version. A rule of which two
conditions are for one argument is a rule for each condition.
"""
from __future__ import annotations

import os
import re
import tempfile
from collections import Counter
from dataclasses import dataclass, field
from typing import Any, Dict, Tuple

MISSING = "the Python module seccomp isn't there: Debian's package python3-seccomp has it, for Debian's own Python: /usr/bin/python3 {tool} .."
ACTIONS = {
    "SCMP_ACT_ALLOW": "ALLOW", "SCMP_ACT_LOG": "LOG", "SCMP_ACT_NOTIFY": "NOTIFY", "SCMP_ACT_KILL": "KILL", "SCMP_ACT_KILL_THREAD": "KILL",
    "SCMP_ACT_KILL_PROCESS": "KILL_PROCESS", "SCMP_ACT_ERRNO": "ERRNO", "SCMP_ACT_TRACE": "TRACE",
}
WITH_NUMBER = {"SCMP_ACT_ERRNO", "SCMP_ACT_TRACE"}
COMPARISONS = {"SCMP_CMP_NE": "NE", "SCMP_CMP_LT": "LT", "SCMP_CMP_LE": "LE", "SCMP_CMP_EQ": "EQ", "SCMP_CMP_GE": "GE", "SCMP_CMP_GT": "GT",
               "SCMP_CMP_MASKED_EQ": "MASKED_EQ"}
NATIVE, NAME_OF_NATIVE = "SCMP_ARCH_X86_64", "amd64"
ARCHITECTURES = {"SCMP_ARCH_X86_64": "X86_64", "SCMP_ARCH_X86": "X86", "SCMP_ARCH_X32": "X32"}
EPERM = 1
UNKNOWN = -1  # the number of a call that libseccomp doesn't know
# capabilities(7)
CAPABILITIES = tuple(f"CAP_{it.upper()}" for it in """audit_control audit_read audit_write block_suspend bpf checkpoint_restore chown dac_override dac_read_search fowner fsetid ipc_lock
ipc_owner kill lease linux_immutable mac_admin mac_override mknod net_admin net_bind_service net_broadcast net_raw perfmon setfcap setgid setpcap setuid sys_admin sys_boot sys_chroot
sys_module sys_nice sys_pacct sys_ptrace sys_rawio sys_resource sys_time sys_tty_config syslog wake_alarm""".split())
ALL, NONE = "CAP_ALL", "CAP_NONE"
# what libseccomp says of a rule
ERROR = re.compile(r"errno = -(\d+)")
TAKEN = 17


class Refused(Exception):
    """The profile can't be made into a filter. The text says why, and `entry` is the number of the entry of `syscalls` that it is about, where it is about one."""

    def __init__(self, text, cure="", entry=None):
        super().__init__(text)
        self.cure, self.entry = cure, entry


class NoCapability(ValueError):
    """No capability has this name."""


@dataclass
class Asked:
    capabilities: set
    architectures: list  # of the names of ARCHITECTURES, or none for those of the profile
    kernel: tuple  # its version
    notify: list  # names of calls
    optimize: int = 1


@dataclass
class Made:
    raw: bytes = b""
    rules: int = 0
    architectures: list = field(default_factory=list)
    unknown: Counter = field(default_factory=Counter)  # names that libseccomp doesn't know
    not_meant: int = 0  # rules that `includes` and `excludes` leave out


def library(tool):
    """libseccomp's module. Raises Refused where it isn't there."""
    try:
        import seccomp
    except ImportError as fault:
        raise Refused(MISSING.format(tool=tool)) from fault
    return seccomp


def with_prefix(prefix: str, name: str) -> str:
    """A name in capitals, as libseccomp and capabilities(7) have it."""
    return name.upper() if name.upper().startswith(prefix) else f"{prefix}{name.upper()}"


def capabilities(names):
    """The capabilities with these names, with or without CAP_; all and none are names too. Raises NoCapability."""
    found = {with_prefix("CAP_", it) for it in names}
    unknown = found - {*CAPABILITIES, ALL, NONE}
    if unknown:
        raise NoCapability(min(unknown))
    return set(CAPABILITIES) if ALL in found else found - {NONE}


def version(text: str) -> Tuple[int, ...]:
    """A kernel's version, as numbers."""
    numbers = text.split("-")[0].split(".")
    return tuple(int(it) for it in numbers[:2] if it.isdigit())


def is_meant(rule: Dict[str, Any], asked: Asked) -> bool:
    """Whether a rule counts for these capabilities, this architecture and this kernel."""
    wanted, unwanted = rule.get("includes") or {}, rule.get("excludes") or {}
    least, below = wanted.get("minKernel"), unwanted.get("minKernel")
    return (
        set(wanted.get("caps") or []) <= asked.capabilities and not set(unwanted.get("caps") or []) & asked.capabilities
        and (not wanted.get("arches") or NAME_OF_NATIVE in wanted["arches"]) and NAME_OF_NATIVE not in (unwanted.get("arches") or [])
        and (not least or asked.kernel >= version(least)) and not (below and asked.kernel >= version(below))
    )


def architectures_of(profile, asked):
    """The architectures that the filter is for: as asked, else those that the profile has for this one."""
    if asked.architectures:
        return asked.architectures
    named = [it.get("subArchitectures") or [] for it in profile.get("archMap") or [] if it.get("architecture") == NATIVE]
    found = [NATIVE, *named[0]] if named else profile.get("architectures") or [NATIVE]
    return [it for it in found if it in ARCHITECTURES]


def action_of(module, rule_action, number):
    if rule_action == "SCMP_ACT_TRAP":
        raise Refused("it has SCMP_ACT_TRAP (SIGSYS), which a script's filter can't answer")
    if rule_action not in ACTIONS:
        raise Refused(f"its action {rule_action!r} isn't known")
    found = getattr(module, ACTIONS[rule_action])
    return found(EPERM if number is None else number) if rule_action in WITH_NUMBER else found


def condition(module, it):
    if it.get("op") not in COMPARISONS:
        raise Refused(f"its comparison {it.get('op')!r} isn't known")
    compare, value = getattr(module, COMPARISONS[it["op"]]), it["value"]
    return module.Arg(it["index"], compare, value, it.get("valueTwo", 0)) if it["op"] == "SCMP_CMP_MASKED_EQ" else module.Arg(it["index"], compare, value)


def conditions(module, rule):
    """The conditions of a rule, a list for each rule of libseccomp's."""
    found = rule.get("args") or []
    if len({it["index"] for it in found}) < len(found):
        return [[condition(module, it)] for it in found]
    return [[condition(module, it) for it in found]]


def names_of(rule):
    return rule.get("names") or ([rule["name"]] if rule.get("name") else [])


def new_filter(module, profile, asked):
    default = action_of(module, profile["defaultAction"], profile.get("defaultErrnoRet"))
    made = module.SyscallFilter(defaction=default)
    # the optimization of libseccomp 2.5 and later: 1 by priority, 2 a binary tree
    if asked.optimize != 1:
        made.set_attr(getattr(module.Attr, "CTL_OPTIMIZE", 8), asked.optimize)
    for name in architectures_of(profile, asked):
        if name != NATIVE:
            made.add_arch(getattr(module.Arch, ARCHITECTURES[name]))
    return made, default


def is_known(module, name):
    """Whether libseccomp knows a call of this name, on whatever architecture."""
    return module.resolve_syscall(module.Arch(), name) != UNKNOWN


def add_rules(module, rule, made, found, default, notified):
    """Adds a rule for each of its calls. Those that libseccomp doesn't know are left out, as runtimes do."""
    action = action_of(module, rule["action"], rule.get("errnoRet"))
    names = [it for it in names_of(rule) if it not in notified] if action != default else []
    found.unknown.update(it for it in names if not is_known(module, it))
    for name in names:
        if name not in found.unknown:
            for each in conditions(module, rule):
                add_rule(made, action, name, each)
                found.rules += 1


def add_entry(module, number, rule, made, found, default, notified):
    """Adds the rules of an entry, by its number, which stands in what is said of it."""
    try:
        add_rules(module, rule, made, found, default, notified)
    except Refused as fault:
        fault.entry = number
        raise


def add_rule(made, action, name, each):
    try:
        made.add_rule(action, name, *each)
    except RuntimeError as fault:
        number = ERROR.search(str(fault))
        if number and int(number[1]) == TAKEN:
            raise Refused(f"an entry above has another action for {name} if the same holds of its arguments", "a call has one action for the same arguments: leave it out of one of the two") from fault
        raise Refused(f"libseccomp refuses the rule for {name}: {fault}") from fault


def exported(made):
    with tempfile.TemporaryFile() as file:
        made.export_bpf(file)
        file.seek(0)
        return file.read()


def filter_of(profile, asked, tool):
    """The filter that the profile comes to."""
    module, found = library(tool), Made(architectures=architectures_of(profile, asked))
    try:
        made, default = new_filter(module, profile, asked)
        for number, rule in enumerate(profile.get("syscalls") or []):
            if is_meant(rule, asked):
                add_entry(module, number, rule, made, found, default, set(asked.notify))
            else:
                found.not_meant += 1
        for name in asked.notify:
            if not is_known(module, name):
                raise Refused(f"libseccomp doesn't know the call {name!r}")
            add_rule(made, module.NOTIFY, name, [])
            found.rules += 1
    except (KeyError, TypeError, AttributeError) as fault:
        raise Refused(f"it isn't a profile of an OCI runtime: {fault!r}") from fault
    found.raw = exported(made)
    return found


def running_kernel() -> Tuple[int, ...]:
    return version(os.uname().release)
