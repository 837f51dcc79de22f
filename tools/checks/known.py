"""The cases and examples in a folder of their own, with the files that a case makes."""
import os
import shutil
import subprocess
from pathlib import Path

from tools.commands.command_line.top import TOP


def copied(room: str, **variables: str) -> Path:
    """Copies both to the room, and runs what makes files of cases: with these variables, where the environment has no others."""
    for name in ("cases", "examples"):
        shutil.copytree(TOP / name, f"{room}/{name}")
    for made in sorted(Path(room).glob("cases/**/make")):
        subprocess.run(["./make"], cwd=made.parent, check=True, stdout=subprocess.DEVNULL, env={**variables, **os.environ, "TOP": str(TOP)})
    return Path(room)
