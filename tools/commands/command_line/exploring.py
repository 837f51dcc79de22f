"""Explores on a terminal: shows how long it takes, and at an interrupt prints what a smaller bound came to.

The program prints only at its end. So while it explores what was asked for, another one explores the smaller bounds, one after another, on another processor: what
was asked for isn't done later for that.
"""
from __future__ import annotations

import os
import signal
import subprocess
import sys
import threading
import time
from typing import Any, Dict, List, Optional

from tools.commands.messages import running, speaking

INTERRUPTED = 130
GREATEST_BOUND, ALL = 8, "all"
# seconds after which progress is shown and smaller bounds are begun, and between two lines of progress
BEGIN, TURN = 1.0, 0.5
# a line of progress is shorter than the first line of an exploration, which is printed over it
WIDTH = 70
CLEAR = "\r\x1b[K"


def smaller(delays: str) -> List[str]:
    """The bounds below one, as words, the least first."""
    if delays == ALL:
        return [str(bound) for bound in range(GREATEST_BOUND + 1)]
    return [str(bound) for bound in range(int(delays))] if delays.isdecimal() and int(delays) <= GREATEST_BOUND else []


class Smaller:
    """Explores smaller bounds in a thread of its own, and keeps the output of the greatest one that has ended."""

    def __init__(self, path: str, operands: List[str]) -> None:
        self.path, self.operands = path, operands
        self.bound: Optional[str] = None
        self.output = b""
        self.process: Optional[subprocess.Popen[bytes]] = None
        self.over = threading.Event()
        self.lock = threading.Lock()

    def explore(self) -> None:
        for bound in smaller(self.operands[-1]):
            words = [self.path, "explore", *self.operands[:-1], bound]
            with self.lock:
                if self.over.is_set():
                    return
                # (in a session of its own it isn't interrupted by the terminal)
                process = self.process = subprocess.Popen(words, stdin=subprocess.DEVNULL, stdout=subprocess.PIPE, stderr=subprocess.DEVNULL, start_new_session=True)
            output = process.communicate()[0]
            if process.returncode != 0:
                return
            self.bound, self.output = bound, output

    def end(self) -> None:
        with self.lock:
            self.over.set()
            if self.process is not None and self.process.returncode is None:
                self.process.kill()


class Progress:
    """Says on the terminal how long it takes, and how far the smaller bounds are."""

    def __init__(self, delays: str, found: Smaller) -> None:
        self.delays, self.found = delays, found
        self.begun, self.shown = time.monotonic(), False

    @property
    def seconds(self) -> int:
        return int(time.monotonic() - self.begun)

    def show(self) -> None:
        ended = f"; bound {self.found.bound} has ended" if self.found.bound is not None else ""
        speaking.put(f"\rexploring {'all' if self.delays == ALL else f'bound {self.delays}'}: {self.seconds} s{ended}"[:WIDTH].ljust(WIDTH) + "\r")
        self.shown = True

    def clear(self) -> None:
        if self.shown:
            speaking.put(CLEAR)
            self.shown = False

    def follow(self) -> None:
        """Shows it until all is over, and has the smaller bounds explored meanwhile."""
        if self.found.over.wait(BEGIN):
            return
        if len(os.sched_getaffinity(0)) > 1:
            threading.Thread(target=self.found.explore, daemon=True).start()
        while not self.found.over.wait(TURN):
            self.show()


def interrupted(found: Smaller, progress: Progress, delays: str) -> int:
    """Prints what there is at an interrupt, and says what it is."""
    asked = "the whole exploration" if delays == ALL else f"bound {delays}"
    if found.bound is None:
        speaking.say([f"broker: interrupted after {progress.seconds} s; no smaller bound than what was asked for had ended"])
        return INTERRUPTED
    speaking.say([f"broker: interrupted after {progress.seconds} s, before {asked} had ended; what is printed is bound {found.bound}, the largest that had"])
    sys.stdout.buffer.write(found.output)
    return INTERRUPTED


def run(path: str, entry: Dict[str, Any], operands: List[str], command: str, asked: bool) -> int:
    """Runs `explore` with progress on the terminal."""
    found = Smaller(path, operands)
    progress = Progress(operands[-1], found)
    follower = threading.Thread(target=progress.follow, daemon=True)
    follower.start()
    status, line = running.run_beside(path, [entry["word"], *operands], progress.clear)
    found.end()
    follower.join()
    progress.clear()
    if status == -signal.SIGINT:
        return interrupted(found, progress, operands[-1])
    return running.finish(path, entry, operands, command, status, line, asked)
