"""Acts that must never reach the machine: each runs against a victim of its own, in namespaces of its own (tests/guard/acts.h)."""
from __future__ import annotations

import fcntl
import os
import re
import socket
import stat
import subprocess
import time
from pathlib import Path
from typing import Any, Dict, List, Optional, Tuple

from tools.commands.exploring.runs import Kind
from tools.commands.exploring.shims import Shim
from tools.checks.guarding.trials import BY_PYTHON, SOURCES, door_in, files_of, tried

SCRIPT = """dir "/dev"
broker 9
pidmax 2
pidbase {}
notify mknod

prog init
poke 0x10000 "/dev/null\\0"
call mknod 0x10000 0o020666 259
exit
end
"""
# those of the agent in Python
BY_CTYPES = ("ctypes_mount", "ctypes_umount", "ctypes_mknod", "ctypes_unlink")
# those that are tried by the filter alone, too (--unguarded)
BY_FILTER = ("bare_kill", "mkdir", "unlink", "open_trunc", "thread", "fork", "system", "exec_static", "bare_mount", "umount_mounted", "ctypes_mount")
OF_FILTER = " by the filter alone"
# what is answered, since it isn't the machine's: the caller has the victim's PID
RIGHT = {"procmem"}
# what needs rights that are harmless in namespaces alone
OF_NAMESPACES = re.compile(r"mount|mknod|chroot|unshare|clone_newns|setns|sethostname|module|bpf|pid1")
FS_IOC_GETFLAGS = 0x80086601
# how long a signal may take to arrive, in seconds
PAUSE = 0.03


def names() -> List[str]:
    return [*re.findall(r"^ACT\((\w+)", (SOURCES / "acts.h").read_text(), re.M), *BY_CTYPES, *(f"{name}{OF_FILTER}" for name in BY_FILTER)]


def agent_of(name: str, programs: Path) -> Any:
    return BY_PYTHON if name in BY_CTYPES else [programs / "acts"]


class Victim:
    """A process, a folder and sockets that nothing may change."""

    def __init__(self, room: Path, has_mounts: bool) -> None:
        self.folder, self.has_mounts = room / "victim", has_mounts
        self.folder.mkdir()
        (self.folder / "file").write_text("content")
        (self.folder / "mounted").mkdir()
        if has_mounts:
            subprocess.run(["mount", "-t", "tmpfs", "none", self.folder / "mounted"], check=True)
        self.process = subprocess.Popen(["sleep", "600"], start_new_session=True)
        self.sockets = [socket.socket(socket.AF_UNIX), socket.socket(socket.AF_UNIX), socket.socket(), socket.socket(type=socket.SOCK_DGRAM)]
        self.sockets[0].bind(os.fspath(self.folder / "socket"))
        self.sockets[1].bind(f"\0{self.folder}")
        self.sockets[2].bind(("127.0.0.1", 0))
        self.port = self.sockets[2].getsockname()[1]
        self.sockets[3].bind(("127.0.0.1", self.port))
        for it in self.sockets:
            it.setblocking(False)
            if it.type == socket.SOCK_STREAM:
                it.listen()

    def state(self) -> Dict[str, Any]:
        """All that may be changed of it."""
        found: Dict[str, Any] = {it.name: self.state_of(it) for it in sorted(self.folder.iterdir())}
        found["mounts"] = [line for line in Path("/proc/self/mounts").read_text().split("\n") if os.fspath(self.folder) in line]
        return {**found, "process": self.state_of_process(), "sockets": [self.was_reached(it) for it in self.sockets]}

    @staticmethod
    def state_of(path: Path) -> Tuple[Any, ...]:
        status = path.lstat()
        content = path.read_text() if stat.S_ISREG(status.st_mode) and status.st_mode & 0o400 else ""
        attributes = os.listxattr(path, follow_symlinks=False) if stat.S_ISREG(status.st_mode) else []
        return status.st_mode, status.st_uid, status.st_nlink, status.st_mtime_ns if content else 0, content, attributes, flags_of(path) if content else 0

    def state_of_process(self) -> Any:
        if self.process.poll() is not None:
            return "ended"
        of = Path(f"/proc/{self.process.pid}")
        return sorted(os.sched_getaffinity(self.process.pid)), os.getpriority(os.PRIO_PROCESS, self.process.pid), (of / "oom_score_adj").read_text(), (of / "limits").read_text(), os.getpriority(os.PRIO_PROCESS, 1)

    @staticmethod
    def was_reached(listening: socket.socket) -> bool:
        try:
            listening.accept() if listening.type == socket.SOCK_STREAM else listening.recv(1)
        except BlockingIOError:
            return False
        return True

    def close(self) -> None:
        self.process.kill()
        self.process.wait()
        for it in self.sockets:
            it.close()
        if self.has_mounts:
            subprocess.run(["umount", "-R", self.folder / "mounted"], check=False, stderr=subprocess.DEVNULL)


def flags_of(path: Path) -> Any:
    """The attributes of a file as ioctl_iflags(2) has them; 0 where its file system has none."""
    with open(path, "rb") as file:
        try:
            return fcntl.ioctl(file, FS_IOC_GETFLAGS, bytes(8))
        except OSError:
            return 0


def devices_in(folder: Path) -> List[Any]:
    return [os.fspath(it) for it in folder.rglob("*") if stat.S_ISCHR(it.lstat().st_mode)]


def wrong_with(asked: str, programs: Path, room: Path, has_namespaces: bool) -> Optional[str]:
    """What an act has changed, or that nothing is told of it; None where it is guarded."""
    name = asked.partition(OF_FILTER)[0]
    room.mkdir()
    victim = Victim(room, has_namespaces)
    try:
        script = room / "script.txt"
        script.write_text(SCRIPT.format(0 if name.startswith("pid1") else victim.process.pid - 1))
        door = door_in(room)
        folder = Path(door.folder.path)
        out = folder / "out"
        before = victim.state()
        command = [*agent_of(name, programs), name, out, str(victim.process.pid), victim.folder, folder, programs, str(victim.port)]
        outcome = tried(command, files_of(script), door, Shim(os.fspath(programs / "shim.so"), is_unguarded=name != asked), out)
        time.sleep(PAUSE)
        after = victim.state()
        made = devices_in(folder)
    finally:
        victim.close()
    if after != before or made:
        return f"it has changed {[key for key in before if before[key] != after.get(key)] + [key for key in after if key not in before] + made}: {outcome}"
    if name in RIGHT:
        return None if outcome.written.startswith("= ") and outcome.kind is None else f"it isn't answered: {outcome}"
    return None if outcome.kind is Kind.NOT_SUPPORTED else f"nothing is told: {outcome}"


def left_out(has_namespaces: bool) -> List[str]:
    return [] if has_namespaces else [name for name in names() if OF_NAMESPACES.search(name)]
