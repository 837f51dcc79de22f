"""A fresh minimal root of the machine's own distribution: made once a machine, by mmdebstrap or debootstrap, of the mirror that apt knows."""
from __future__ import annotations

import os
import re
import shutil
import subprocess
import tempfile
from typing import List, Tuple

# what the package depends on, and what the trials in the root use: a compiler, pkg-config, and the manual's reader
INCLUDED = "python3,man-db,gcc,libc6-dev,make,pkg-config"
SECONDS = 240


class NotReached(Exception):
    """No root can be made here; the text says why."""


def sources() -> Tuple[str, List[str]]:
    """The lines of apt's sources that are of Debian or what derives from it, and the suite, as apt itself knows them."""
    told = subprocess.run(["apt-get", "indextargets", "--format", "$(ORIGIN)|$(SITE)|$(RELEASE)|$(COMPONENT)", "Created-By: Packages", "Architecture: amd64"],
                          stdout=subprocess.PIPE, stderr=subprocess.DEVNULL, universal_newlines=True)
    rows = [line.split("|") for line in told.stdout.splitlines()]
    rows = [row for row in rows if row[0] in ("Debian", "Ubuntu") and row[3] == "main"]
    suites = [row[2] for row in rows if re.fullmatch(r"[a-z]+", row[2])]
    if not suites:
        raise NotReached("apt knows no mirror: apt-get update hasn't run, or there is none")
    return suites[0], [f"deb {site} {release} {component}" for _, site, release, component in rows]


def place(suite: str) -> str:
    cache = os.environ.get("XDG_CACHE_HOME", "")
    folder = cache if cache.startswith("/") else os.path.expanduser("~/.cache")
    return f"{folder}/seccomp_broker/root-{suite}-{INCLUDED.count(',') + 1}.tar"


def command(suite: str, lines: List[str], folder: str) -> List[str]:
    """The command that makes a root below a folder. What it mounts there, and all that it starts, ends with it."""
    return ["unshare", "--mount", "--pid", "--fork", "--kill-child", *bootstrap(suite, lines, folder)]


def bootstrap(suite: str, lines: List[str], folder: str) -> List[str]:
    if shutil.which("mmdebstrap"):
        return ["mmdebstrap", "--quiet", "--variant=minbase", f"--include={INCLUDED}", suite, folder, *lines]
    mirror = next(line.split()[1] for line in lines if line.split()[2] == suite)
    return ["debootstrap", "--variant=minbase", f"--include={INCLUDED}", suite, folder, mirror]


def make(path: str, suite: str, lines: List[str]) -> None:
    os.makedirs(os.path.dirname(path), mode=0o700, exist_ok=True)
    with tempfile.TemporaryDirectory(prefix="root-", dir=os.path.dirname(path)) as room:
        os.chmod(room, 0o755)
        try:
            ended = subprocess.run(command(suite, lines, f"{room}/root"), stdin=subprocess.DEVNULL, stdout=subprocess.PIPE, stderr=subprocess.STDOUT, timeout=SECONDS,
                                   universal_newlines=True)
        except subprocess.TimeoutExpired:
            raise NotReached(f"the root wasn't made within {SECONDS} seconds")
        if ended.returncode != 0:
            raise NotReached(f"the mirror isn't reached, or no root can be made here: {ended.stdout.strip().splitlines()[-1:]}")
        # (the packages that were fetched aren't needed again)
        for name in ("var/cache/apt/archives", "var/lib/apt/lists"):
            shutil.rmtree(f"{room}/root/{name}", ignore_errors=True)
        subprocess.run(["tar", "--numeric-owner", "-C", f"{room}/root", "-cf", f"{path}.part", "."], check=True)
        os.replace(f"{path}.part", path)


def unpacked(folder: str) -> str:
    """Unpacks the root into a folder, and makes it first where this machine has none yet."""
    if os.geteuid() != 0:
        raise NotReached("it needs root")
    if not (shutil.which("mmdebstrap") or shutil.which("debootstrap")):
        raise NotReached("neither mmdebstrap nor debootstrap is there")
    if shutil.which("apt-get") is None:
        raise NotReached("apt-get isn't there, which knows the mirror")
    suite, lines = sources()
    path = place(suite)
    if not os.path.isfile(path):
        make(path, suite, lines)
    subprocess.run(["tar", "--numeric-owner", "-C", folder, "-xf", path], check=True)
    return suite
