"""Explorations that are ended by signals, at random times: nothing that they have started or made may be left."""
from __future__ import annotations

import os
import random
import signal
import subprocess
import sys
import time
from pathlib import Path
from typing import Any, List, Optional

from tools.checks.guarding.trials import TOP

BROKERS = TOP / "tests/brokers"
SIGNALS = (signal.SIGTERM, signal.SIGINT, signal.SIGHUP, signal.SIGQUIT, signal.SIGKILL, signal.SIGSEGV, signal.SIGXCPU, signal.SIGUSR1)
# to which process a signal goes: the one that was started, the one below it, the one below that, and one of the broker's
TARGETS = ("first", "watcher", "program", "broker")
MARK = "CHECK_GUARD_ENDS"
# an agent that starts another process, makes a file, and takes its time
AGENT = """
import os, subprocess, sys, time
subprocess.Popen(["sleep", "300"])
open(os.environ["TMPDIR"] + "/file", "w").close()
time.sleep(0.2)
os.execv(sys.executable, [sys.executable, "-B", sys.argv[1], *sys.argv[2:]])
"""
LONGEST, LEAVE, PAUSE = 1.0, 60, 0.1


def marked(mark: bytes) -> List[int]:
    """The processes that have this mark in their environment, those that have ended left out."""
    found = []
    for place in Path("/proc").iterdir():
        try:
            if place.name.isdecimal() and mark in (place / "environ").read_bytes():
                found.append(int(place.name))
        except OSError:
            pass
    return found


def child_of(pid: int) -> Optional[int]:
    text = Path(f"/proc/{pid}/task/{pid}/children").read_text().split()
    return int(text[0]) if text else None


def target_of(first: int, name: str, mark: bytes) -> Optional[int]:
    """The process that gets the signal; None where it isn't there yet."""
    try:
        if name == "broker":
            others = [pid for pid in marked(mark) if b"explore-broker" not in Path(f"/proc/{pid}/cmdline").read_bytes()]
            return others[0] if others else None
        pid: Optional[int] = first
        for _ in range(TARGETS.index(name)):
            pid = child_of(pid) if pid is not None else None
        return pid
    except OSError:
        return None


def await_target(started: subprocess.Popen[Any], name: str, mark: bytes) -> None:
    until = time.monotonic() + LEAVE
    while target_of(started.pid, name, mark) is None and started.poll() is None and time.monotonic() < until:
        time.sleep(PAUSE)


def wrong_with(number: int, programs: Path, room: Path) -> Optional[str]:
    """What is left behind by an exploration that was ended so, or None."""
    chance = random.Random(number)
    room.mkdir()
    mark = f"{MARK}={number}-{os.getpid()}".encode()
    agent = room / "agent.py"
    agent.write_text(AGENT)
    words: List[Any] = [TOP / "tools/commands/explore-broker", BROKERS / "policy.json", BROKERS / "scripts/reused.txt", "3", "--no-program", "--jobs", "2", "--shim", programs / "shim.so",
                        "--listener-path", "/run/check-guard.sock", "--", sys.executable, "-B", agent, BROKERS / "agents/listener_path.py", "/run/check-guard.sock"]
    temporary = room / "tmp"
    temporary.mkdir()
    environment = {**os.environ, "TMPDIR": os.fspath(temporary), MARK: mark.decode().partition("=")[2]}
    started = subprocess.Popen(words, env=environment, stdin=subprocess.DEVNULL, stdout=subprocess.DEVNULL, stderr=subprocess.DEVNULL, start_new_session=True, cwd=room)
    kind, name = SIGNALS[number % len(SIGNALS)], TARGETS[number // len(SIGNALS) % len(TARGETS)]
    await_target(started, name, mark)
    time.sleep(chance.uniform(0, LONGEST))
    target = target_of(started.pid, name, mark)
    try:
        os.kill(started.pid if target is None else target, kind)
    except ProcessLookupError:
        pass
    if name == "broker" or target is None or (kind is signal.SIGINT and name == "watcher"):
        # (which doesn't end the whole)
        time.sleep(PAUSE)
        started.terminate()
    try:
        started.wait(LEAVE)
    except subprocess.TimeoutExpired:
        started.kill()
        return f"{kind.name} to the {name}: it hasn't ended"
    until = time.monotonic() + LEAVE
    while (marked(mark) or os.listdir(temporary)) and time.monotonic() < until:
        time.sleep(PAUSE)
    left = marked(mark), os.listdir(temporary)
    return f"{kind.name} to the {name}: these are left: {left}" if any(left) else None


def numbers() -> range:
    return range(len(SIGNALS) * len(TARGETS))
