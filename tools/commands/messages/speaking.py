"""Says something on standard error."""
from __future__ import annotations

import sys
from typing import List


def put(text: str) -> None:
    """A text on standard error; where that fails, nothing is lost that the program has to say."""
    try:
        sys.stderr.write(text)
        sys.stderr.flush()
    except (OSError, UnicodeError):
        pass


def say(lines: List[str]) -> None:
    put("".join(f"{line}\n" for line in lines))
