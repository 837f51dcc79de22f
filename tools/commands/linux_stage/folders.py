"""The policies and scripts of folders: those of examples, and of cases that the program plays to the end."""
from __future__ import annotations

import os
import shutil
import subprocess
from pathlib import Path
from typing import Iterator, List, NamedTuple, Optional, Union

from tools.commands.command_line.top import TOP

PLAYED = ("play", "run")


class Pair(NamedTuple):
    """A policy and a script, and the name of the folder that they are from."""

    name: str
    policy: bytes
    script: bytes


def files_of(folder: Path) -> Optional[List[Path]]:
    """The files of the policy and the script, or None where the folder has none that are played."""
    words = (folder / "args").read_text().splitlines() if (folder / "args").is_file() else ["play", "policy.json", "script.txt"]
    refused = (folder / "status").is_file() and (folder / "status").read_text().strip() != "0"
    if refused or len(words) < 3 or words[0] not in PLAYED:
        return None
    files = [folder / word for word in words[1:3]]
    return files if all(file.is_file() for file in files) else None


def made(folder: Path, room: str) -> Path:
    """A copy of the folder, in which what it makes was made."""
    copy = Path(room) / "made" / folder.name
    shutil.copytree(folder, copy)
    subprocess.run(["./make"], cwd=copy, check=True, env={**os.environ, "TOP": str(TOP)})
    return copy


def named(folder: Path) -> str:
    return str(folder.relative_to(TOP)) if folder.is_relative_to(TOP) else str(folder)


def pairs(folder: Union[str, Path], room: str) -> Iterator[Pair]:
    """What a folder has to play. One whose files are made is copied to the room first."""
    folder = Path(folder).resolve()
    place = made(folder, room) if (folder / "make").is_file() else folder
    for inside in sorted(Path(path) for path, _, _ in os.walk(place)):
        files = files_of(inside)
        if files:
            name = named(folder) + ("" if inside == place else f"/{inside.relative_to(place)}")
            yield Pair(name, *(file.read_bytes() for file in files))


def all_folders() -> List[Path]:
    """Those of the repository; an installed package has no cases."""
    return [folder for kind in ("examples", "cases") if (TOP / kind).is_dir() for folder in sorted((TOP / kind).iterdir()) if folder.is_dir()]
