"""The lines of an output, read one by one."""
from __future__ import annotations

import re
from typing import Any, Pattern, Tuple

from tools.commands.pages.reports import NotAReport, lines_of


class Lines:
    """The lines of an output, taken one by one."""

    def __init__(self, data: bytes) -> None:
        self.lines, self.at = lines_of(data, most=len(data)), 0

    @property
    def next(self) -> str:
        """The next line, where there is one."""
        return self.lines[self.at]

    @property
    def are_left(self) -> bool:
        return self.at < len(self.lines)

    def end(self, what: str) -> None:
        """Sees that the output ends here."""
        if self.are_left:
            raise NotAReport(self.at + 1, f"nothing may follow {what}")

    def next_is(self, text: str) -> bool:
        return self.are_left and self.lines[self.at].startswith(text)

    def take(self, form: Pattern[str], what: str) -> Tuple[Any, ...]:
        """The parts of the next line, which has this form."""
        parts = form.fullmatch(self.lines[self.at]) if self.are_left else None
        if parts is None:
            raise NotAReport(self.at + 1, f"{what} should be here")
        self.at += 1
        return parts.groups()

    def skip(self, text: str) -> None:
        self.take(re.compile(re.escape(text)), repr(text))
