"""What the packages are tried with: commands, and what was passed, failed or not tried."""
from __future__ import annotations

import os
import shutil
import subprocess
import sys
import tempfile
from typing import TYPE_CHECKING, Any, Dict, List, Optional, Union

if TYPE_CHECKING:
    from tools.commands.packaging.minimal_root import NotReached

# a user without rights
NOBODY = 65534


class Trials:
    def __init__(self) -> None:
        self.passed, self.failed = 0, 0
        self.left: List[str] = []

    def check(self, what: str, holds: Any, said: Any = "") -> bool:
        """Counts a check. One that fails has a line, and what was said."""
        self.passed, self.failed = self.passed + bool(holds), self.failed + (not holds)
        if not holds:
            print(f"package: FAILED: {what}\n{str(said)[-2000:]}", flush=True)
        return bool(holds)

    def not_tried(self, what: str, why: Union[NotReached, str]) -> None:
        self.left.append(what)
        print(f"package: not tried: {what}: {why}", flush=True)

    def has(self, what: str, *commands: str) -> bool:
        """Whether commands are there; if one isn't, what needs it isn't tried."""
        missing = [it for it in commands if shutil.which(it) is None]
        if missing:
            self.not_tried(what, f"{missing[0]} isn't there")
        return not missing

    def told(self) -> int:
        left = f"; not tried: {', '.join(self.left)}" if self.left else ""
        print(f"package: {self.passed} passed, {self.failed} failed{left}")
        return 1 if self.failed else 0


def input_of(data: Optional[bytes]) -> Any:
    """What a command reads as standard input. It is a file that every user may open anew, as `step` does; a pipe of this one couldn't be opened by another."""
    if data is None:
        return open(os.devnull, "rb")
    source = tempfile.TemporaryFile()
    os.fchmod(source.fileno(), 0o644)
    source.write(data)
    source.seek(0)
    return source


class Ended:
    """What a command came to."""

    def __init__(self, words: List[str], folder: Optional[str] = None, environment: Optional[Dict[str, str]] = None, user: Optional[int] = None, data: Optional[bytes] = None, seconds: int = 1800) -> None:
        def drop_rights() -> None:
            if user is not None:
                os.setgroups([])
                os.setgid(user)
                os.setuid(user)

        try:
            with input_of(data) as source:
                ended = subprocess.run(words, cwd=folder, env=environment, stdin=source, stdout=subprocess.PIPE, stderr=subprocess.PIPE, timeout=seconds,
                                       preexec_fn=drop_rights)
            self.status, self.out, self.said = ended.returncode, ended.stdout.decode(errors="replace"), ended.stderr.decode(errors="replace")
        except subprocess.TimeoutExpired:
            self.status, self.out, self.said = -1, "", f"{words[0]} hadn't ended after {seconds} seconds"

    def __str__(self) -> str:
        return f"status {self.status}\n{self.out[-900:]}\n{self.said[-900:]}"


def plain_environment(path: str, **more: str) -> Dict[str, str]:
    """The environment of a user: nothing but a path and what is stated."""
    return {"PATH": path, "HOME": "/nonexistent", "LC_ALL": "C.UTF-8", **more}


def python() -> str:
    """Debian's own Python, for environments of its own, else the one that runs this."""
    return "/usr/bin/python3" if os.access("/usr/bin/python3", os.X_OK) else sys.executable
