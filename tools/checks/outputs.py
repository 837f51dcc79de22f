"""Outputs of a command that is checked: a terminal, and a pipe that nobody reads."""
from __future__ import annotations

import os
import pty
import signal
import subprocess
from typing import Any, Optional, Sequence, Tuple


def closed_pipe() -> int:
    """The writing end of a pipe whose reader is gone."""
    here, there = os.pipe()
    os.close(here)
    return there


def on_terminal(words: Sequence[Any], folder: Any, is_output: bool = False, cut_at: Optional[bytes] = None, **variables: str) -> Tuple[int, bytes, bytes]:
    """How a command ends whose standard error, or output, is a terminal; what it prints elsewhere, and what stands there. It is interrupted once that has `cut_at`."""
    here, there = pty.openpty()
    out, err = (there, subprocess.DEVNULL) if is_output else (subprocess.PIPE, there)
    with subprocess.Popen(words, cwd=folder, stdin=subprocess.DEVNULL, stdout=out, stderr=err, env={**os.environ, **variables}) as process:
        os.close(there)
        said = b""
        try:
            while True:
                said += os.read(here, 65536)
                if cut_at is not None and cut_at in said:
                    cut_at = None
                    process.send_signal(signal.SIGINT)
        except OSError:
            # the last one that had the terminal open has ended
            os.close(here)
        output = process.stdout.read() if process.stdout else b""
    return process.returncode, output, said
