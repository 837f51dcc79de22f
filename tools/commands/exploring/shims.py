"""The library that is preloaded into a broker as it is, and the folder that each run of it has."""
import os
import shutil
from typing import NamedTuple, Tuple

# the number that a broker as it is has for the listener, where that isn't passed to it
LISTENER = 100
# the status by which the library says that a broker can't be tried, and its line; and what it notes of a broker that goes on
UNSUPPORTED, UNSUPPORTED_LINE, NO_MEMORY = 125, b"shim: not supported: ", b"shim: no memory"
MOST_TOLD = 65_536


class Shim(NamedTuple):
    """The library, and how it is to answer: whether the broker shares the container's root, which folders it may write to besides the run's, the script's descriptors (`N` or `N=PATH`), and whether calls are trapped
    by the filter alone."""

    file: str
    has_same_root: bool = False
    writable: Tuple[str, ...] = ()
    descriptors: Tuple[str, ...] = ()
    is_unguarded: bool = False
    is_sanitized: bool = False

    def variables(self, folder, passed):
        """The variables of a broker's environment; `passed` is where it waits for the listener, or None where it has that as a descriptor."""
        found = {
            "LD_PRELOAD": self.file, "TMPDIR": folder.path, "HOME": folder.path, "PYTHONDONTWRITEBYTECODE": "1", "SECCOMP_BROKER_TOLD": folder.told,
            "SECCOMP_BROKER_WRITABLE": ":".join((folder.path, *self.writable)), "SECCOMP_BROKER_FDS": "\n".join(self.descriptors),
        }
        if passed is None:
            found["SECCOMP_BROKER_LISTENER"] = str(LISTENER)
        else:
            found["SECCOMP_BROKER_SOCKET"] = passed
        if self.has_same_root:
            found["SECCOMP_BROKER_SAME_ROOT"] = "1"
        if self.is_unguarded:
            found["SECCOMP_BROKER_UNGUARDED"] = "1"
        if self.is_sanitized:
            # (its runtime wants to be loaded before all other libraries, and looks for leaks by a thread that stops all others)
            found["ASAN_OPTIONS"] = ":".join(filter(None, (os.environ.get("ASAN_OPTIONS"), "verify_asan_link_order=0", "detect_leaks=0")))
        return found


class RunFolder:
    """The folder of a broker's run, which is empty when one begins, and the file in which the library tells what it can't answer."""

    def __init__(self, path):
        self.path, self.told = f"{path}-run", f"{path}-told"
        os.mkdir(self.path)
        os.close(os.open(self.told, os.O_CREAT | os.O_WRONLY, 0o600))

    def clear(self):
        if os.path.getsize(self.told):
            os.truncate(self.told, 0)
        try:
            os.rmdir(self.path)
        except OSError:
            shutil.rmtree(self.path, ignore_errors=True)
        os.makedirs(self.path, exist_ok=True)

    def lines(self):
        """What the library has told of the run, line by line."""
        with open(self.told, "rb") as file:
            return file.read(MOST_TOLD).split(b"\n")
