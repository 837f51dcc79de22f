"""What the comparison needs of the machine, and what is missing here."""
from __future__ import annotations

import os
import platform
import re
import shutil
from typing import Callable, List, Optional, Tuple

from tools.commands.linux_stage import apart, machine

# From this version on each process namespace has a limit on PIDs of its own.
OWN_LIMIT = (6, 14)


def error_of(act: Callable[[], object]) -> Optional[str]:
    """The error of an act that is tried in a process of its own, or None."""
    def tried() -> Optional[str]:
        try:
            act()
        except OSError as error:
            return str(error)
        return None

    return apart.in_process(tried)


def take_priority() -> None:
    os.sched_setscheduler(0, os.SCHED_FIFO, os.sched_param(50))


def notifications() -> bool:
    """Whether the kernel's filters can notify."""
    try:
        with open("/proc/sys/kernel/seccomp/actions_avail") as file:
            return "user_notif" in file.read().split()
    except OSError:
        return False


def version() -> Tuple[int, ...]:
    return tuple(int(part) for part in re.findall(r"\d+", platform.release())[:2])


def missing(processor: int) -> List[str]:
    """A sentence for each thing that is missing."""
    if (platform.system(), platform.machine()) != ("Linux", "x86_64"):
        return [f"it needs Linux on x86-64, and this is {platform.system()} on {platform.machine()}"]
    found = []
    if version() < OWN_LIMIT:
        found.append(f"it needs Linux {OWN_LIMIT[0]}.{OWN_LIMIT[1]}: before that a limit on PIDs is the whole machine's, and this is {platform.release()}")
    if os.geteuid() != 0:
        found.append("it needs root: it makes namespaces, mounts, devices and tasks with priority")
    if shutil.which("cc") is None:
        found.append("it needs the C compiler `cc` (on Debian: apt-get install gcc libc6-dev)")
    if not notifications():
        found.append("the kernel's seccomp filters don't notify (no user_notif in /proc/sys/kernel/seccomp/actions_avail)")
    if not os.path.exists("/proc/sys/kernel/ns_last_pid"):
        found.append("the kernel has no /proc/sys/kernel/ns_last_pid (CONFIG_CHECKPOINT_RESTORE)")
    if processor not in os.sched_getaffinity(0):
        found.append(f"processor {processor} isn't there, or isn't this process's to use")
    if not found:
        acts = {"namespaces of its own": lambda: machine.unshare(apart.NAMESPACES), "the priority of SCHED_FIFO": take_priority}
        errors = {name: error_of(act) for name, act in acts.items()}
        found = [f"{name} can't be had here: {error}" for name, error in errors.items() if error]
    return found
