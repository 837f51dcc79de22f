"""Files and folders that are written whole or not at all."""
import contextlib
import os
import stat
import tempfile
from pathlib import Path
from typing import Iterator, Optional

FULL, FULL_FOLDER = 0o666, 0o777


def write(path: str, data: bytes) -> None:
    """Writes a file beside its place, and then puts it there: an interrupt leaves the old one. A device or a pipe is written as it is. Raises OSError, which has the path."""
    try:
        mode = mode_of(path)
        if mode is None or stat.S_ISREG(mode):
            put(os.path.realpath(path), data, mode)
        else:
            with open(path, "wb") as file:
                file.write(data)
    except OSError as fault:
        fault.filename, fault.filename2 = path, None
        raise


@contextlib.contextmanager
def folder(place: Path) -> Iterator[Path]:
    """A folder to be filled beside a place, and then put there instead of what it had: an interrupt leaves the old one. Raises OSError."""
    place.parent.mkdir(parents=True, exist_ok=True)
    with tempfile.TemporaryDirectory(prefix=f".{place.name}.", dir=place.parent) as beside:
        made, old = Path(beside, "new"), Path(beside, "old")
        made.mkdir(FULL_FOLDER)
        yield made
        if place.exists():
            place.rename(old)
        try:
            made.rename(place)
        except BaseException:
            if old.exists():
                old.rename(place)
            raise


def mode_of(path: str) -> Optional[int]:
    """The kind and the rights of a file; None if there is none."""
    try:
        return os.stat(path).st_mode
    except FileNotFoundError:
        return None


def put(place: str, data: bytes, mode: Optional[int]) -> None:
    """Makes an ordinary file anew."""
    handle, beside = tempfile.mkstemp(prefix=f".{os.path.basename(place)}.", dir=os.path.dirname(place))
    try:
        with open(handle, "wb") as file:
            file.write(data)
        os.chmod(beside, stat.S_IMODE(mode) if mode is not None else FULL & ~umask())
        os.replace(beside, place)
    except BaseException:
        with contextlib.suppress(OSError):
            os.unlink(beside)
        raise


def umask() -> int:
    """The rights that new files of this process don't get."""
    found = os.umask(0)
    os.umask(found)
    return found
