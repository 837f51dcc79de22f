"""Reads the path at once, with no check before it: the one behind it says that the memory was the caller's all the time."""
import errno
import os
import sys
from pathlib import Path

sys.path.insert(0, str(Path(__file__).resolve().parents[1]))
from common import Broker, PATH_MAX, main, path_address  # noqa: E402


class OneLargeRead(Broker):
    def copy(self, notif):
        self.open(notif)
        try:
            return self.read(notif)
        finally:
            self.check(notif)

    def read(self, notif):
        path, end, _ = self.seat.pread(PATH_MAX, path_address(notif)).partition(b"\0")
        if not end:
            number = errno.ENAMETOOLONG if len(path) == PATH_MAX else errno.EFAULT
            raise OSError(number, os.strerror(number))
        return path


if __name__ == "__main__":
    main(OneLargeRead)
