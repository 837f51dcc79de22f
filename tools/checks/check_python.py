"""Checks the Python of the repository as its tools do: by flake8, by mypy and by pytest, as far as they are there.

    tools/checks/check-python [flake8 | mypy | pytest]...

Of each that the machine has the first one counts that a Python here has as a module, be it the one that runs this or the distribution's own
(apt-get install flake8 mypy python3-pytest). What isn't there is told as skipped.

Exit status: 0 where all that were tried passed; 1 where one failed; 3 where none is there.
"""
import os
import subprocess
import sys
import tempfile
from typing import Dict, List, Optional

from tools.commands.command_line import place
from tools.commands.command_line.arguments import ToolParser

DISTRIBUTIONS_PYTHON = "/usr/bin/python3"
WORDS: Dict[str, List[str]] = {
    "flake8": ["tools", "bench", "broker", "tests/brokers", "tests/judged", "tests/tools", "examples/python"],
    "mypy": [],
    "pytest": [],
}
NONE_THERE = 3


def python_with(name: str) -> Optional[str]:
    """The Python that has a module of this name; None where none has."""
    for python in (sys.executable, DISTRIBUTIONS_PYTHON):
        if os.access(python, os.X_OK) and subprocess.run([python, "-c", f"import {name}"], stdin=subprocess.DEVNULL, capture_output=True).returncode == 0:
            return python
    return None


def has_passed(name: str, room: str) -> Optional[bool]:
    """Whether one of them passed, which says itself what is wrong; None where it isn't there."""
    python = python_with(name)
    if python is None:
        print(f"python: {name}: skipped, since no Python here has it")
        return None
    environment = {**os.environ, "PYTHONDONTWRITEBYTECODE": "1", "MYPY_CACHE_DIR": room}
    status = subprocess.run([python, "-m", name, *WORDS[name]], cwd=place.HOME, env=environment, stdin=subprocess.DEVNULL).returncode
    print(f"python: {name}: {'passed' if status == 0 else f'failed with status {status}'}", flush=True)
    return status == 0


def main() -> int:
    parser = ToolParser()
    parser.add_argument("names", metavar="NAME", nargs="*", choices=[[], *WORDS], help="flake8, mypy or pytest; all where none is named")
    names = parser.parse_args().names or list(WORDS)
    with tempfile.TemporaryDirectory(prefix="check-python-") as room:
        results = [has_passed(name, room) for name in names]
    if all(it is None for it in results):
        return NONE_THERE
    return int(False in results)
