"""How an executable ends: with its status, or with one line where it is interrupted, its output can't be written, or a file can't be had. Never with a traceback of these."""
from __future__ import annotations

import errno
import io
import os
import signal
import sys
from typing import Any, Callable, Dict, NoReturn

READ_FAULT, WRITE_FAULT, NO_MEMORY, INTERRUPTED = 2, 6, 7, 130
OUT, ERR = 1, 2
WANTS = (errno.ENOMEM, errno.EAGAIN, errno.EMFILE, errno.ENFILE)


def name() -> str:
    """The executable's name, as its lines on standard error begin."""
    return os.path.basename(sys.argv[0])


def say(text: str) -> None:
    """A line on standard error; where that fails, nothing can be said."""
    try:
        print(f"{name()}: {text}", file=sys.stderr, flush=True)
    except (OSError, ValueError, AttributeError):
        pass


class Output(io.FileIO):
    """Standard output. The first fault of writing it is told in one line, and ends the process with the status of a write fault, whatever handles other faults of files."""

    has_failed = False

    def write(self, data: Any) -> int:
        try:
            return super().write(data)
        except OSError as fault:
            if not self.has_failed:
                self.has_failed = True
                say(f"write fault: {fault.strerror}")
            # what is still to be flushed goes nowhere
            os.dup2(os.open(os.devnull, os.O_WRONLY), OUT)
            raise SystemExit(WRITE_FAULT) from None


def open_closed_descriptors() -> None:
    """Opens descriptors of standard files that are closed, so that no other file gets their numbers. What is written to a closed output fails."""
    for number, path, how in ((0, os.devnull, os.O_RDONLY), (OUT, "/dev/full", os.O_WRONLY), (ERR, os.devnull, os.O_WRONLY)):
        try:
            os.fstat(number)
        except OSError:
            opened = os.open(path, how)
            if opened != number:
                os.dup2(opened, number)
                os.close(opened)
            os.set_inheritable(number, True)


def guarded_output() -> Output:
    """Standard output in the encoding that Python has found for it. A character that this lacks is written as an escape."""
    open_closed_descriptors()
    encoding = getattr(sys.stdout, "encoding", None) or "utf-8"
    raw = Output(OUT, "wb", closefd=False)
    sys.stdout = io.TextIOWrapper(io.BufferedWriter(raw), encoding=encoding, errors="surrogateescape" if encoding.lower() == "utf-8" else "backslashreplace", line_buffering=raw.isatty())
    return raw


def as_in_foreground() -> None:
    """Has what is started from here on begin with SIGINT and SIGQUIT at their defaults: a shell's background job inherits them as ignored."""
    defaults: Dict[int, Any] = {signal.SIGINT: signal.default_int_handler, signal.SIGQUIT: signal.SIG_DFL}
    for number, handler in defaults.items():
        if signal.getsignal(number) == signal.SIG_IGN:
            signal.signal(number, handler)


def is_want(fault: BaseException) -> bool:
    """Whether a fault is want of memory, of processes or of descriptors, and no fault of the executable."""
    return isinstance(fault, MemoryError) or getattr(fault, "errno", None) in WANTS or "start new thread" in str(fault)


def reason(fault: OSError) -> str:
    """Why a file can't be used, or a program can't be run. Raises the fault again if the machine is the reason, which `run` tells."""
    if is_want(fault):
        raise fault
    return fault.strerror or str(fault)


def run(main: Callable[[], Any]) -> NoReturn:
    """Ends the process with the status that `main` answers, or raises as SystemExit."""
    raw = guarded_output()
    try:
        try:
            status = main()
        except SystemExit as ended:
            status = ended.code
        if isinstance(status, str):
            sys.stdout.flush()
            print(status, file=sys.stderr)
            status = 1
        sys.stdout.flush()
    except SystemExit as ended:
        status = ended.code
    except KeyboardInterrupt:
        status = INTERRUPTED
    except (MemoryError, OSError, RuntimeError) as fault:
        if is_want(fault):
            say("no memory" if isinstance(fault, MemoryError) else f"the machine gives no more: {getattr(fault, 'strerror', None) or fault}")
            status = NO_MEMORY
        elif isinstance(fault, OSError) and fault.filename is not None:
            say(f"{os.fsdecode(fault.filename)}: {fault.strerror}")
            status = READ_FAULT
        else:
            raise
    raise SystemExit(WRITE_FAULT if raw.has_failed else status)
