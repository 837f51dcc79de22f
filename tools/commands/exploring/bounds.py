"""How much of the machine a run may take, and what is told of one that takes more."""
import os
import resource
from typing import NamedTuple, Optional

MIB = 1 << 20
# what the runtime of a sanitizer has among its names: it maps terabytes in advance
SANITIZERS = (b"__asan_init", b"__tsan_init", b"__msan_init", b"__hwasan_init")


class TooMuch(Exception):
    """A run took more than it may; the argument says of what."""


class Bounds(NamedTuple):
    """The bounds of each run: calls of the kernel, mebibytes that its broker writes into a file, mebibytes of memory of a process (0 is no bound), and seconds from its start on."""

    patience: int = 10
    calls: int = 100_000
    output: int = 16
    memory: int = 1_024

    def set_for(self, pid):
        """Bounds a process that was just started, and all that it starts."""
        try:
            lower(pid, resource.RLIMIT_FSIZE, self.output * MIB)
            if self.memory:
                lower(pid, resource.RLIMIT_AS, self.memory * MIB)
        except ProcessLookupError:
            # (it has ended)
            pass

    def test_calls(self, count):
        """Raises TooMuch."""
        if count > self.calls:
            raise TooMuch(f"calls: more than {self.calls} (--most-calls)")

    def test_output(self, written):
        """Looks at the file that a broker writes to. Raises TooMuch."""
        if os.fstat(written).st_size >= self.output * MIB:
            raise TooMuch(f"output: {self.output} MiB (--most-output)")

    def has_taken_all_memory(self, used: Optional[int]):
        """Whether a process that has died used nearly all of its memory, of so many kibibytes."""
        return bool(self.memory) and used is not None and used * 1_024 > self.memory * MIB // 8 * 7

    def too_much_memory(self):
        return TooMuch(f"memory: {self.memory} MiB (--most-memory)")

    def too_much_time(self):
        return TooMuch(f"seconds: {self.patience} (--patience)")


def lower(pid, kind, most):
    """Lowers a limit of a process, and leaves one that is lower already."""
    _, hard = resource.prlimit(pid, kind)
    most = most if hard == resource.RLIM_INFINITY else min(most, hard)
    resource.prlimit(pid, kind, (most, most))


def is_sanitized(path):
    """Whether a program was built with a sanitizer."""
    try:
        with open(path, "rb") as file:
            content = file.read(64 * MIB)
    except OSError:
        return False
    return any(name in content for name in SANITIZERS)
