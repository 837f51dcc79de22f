"""Children that end with the process that has started them."""
from __future__ import annotations

import ctypes
import signal

# <linux/prctl.h>
PR_SET_PDEATHSIG = 1


def end_with_parent() -> None:
    """For `preexec_fn`: has the kernel end the process that is begun here, if its parent is gone, be that killed."""
    ctypes.CDLL(None).prctl(PR_SET_PDEATHSIG, signal.SIGTERM)
