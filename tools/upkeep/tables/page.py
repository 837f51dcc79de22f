"""A page's generated parts: each stands between two marks, the first of which names its source."""
from __future__ import annotations

from typing import Callable, Iterable, NamedTuple, Optional, Sequence, Tuple


class Table(NamedTuple):
    """A generated part of a page: its name, the file that it is made of, and how its text is made."""

    page: str
    name: str
    source: str
    text: Callable[[], str]

    @property
    def marks(self) -> Tuple[str, ...]:
        return f"<!-- from {self.source}, by tools/upkeep/write-tables -->\n", f"<!-- end of {self.name} -->\n"


def written(table: Table, page: str) -> Optional[str]:
    """The page's text with the table as it should be, or None if it has no place for it."""
    begin, end = table.marks
    rest, mark, tail = page.partition(end)
    head, first, _ = rest.rpartition(begin)
    return f"{head}{begin}\n{table.text()}\n{end}{tail}" if mark and first else None


def row(*cells: str) -> str:
    return f"| {' | '.join(cell.replace('|', chr(92) + '|') for cell in cells)} |\n"


def rows(head: Tuple[str, ...], body: Sequence[Sequence[str]]) -> str:
    """A table with its head."""
    return row(*head) + "|" + "---|" * len(head) + "\n" + "".join(row(*it) for it in body)


def listed(items: Iterable[str]) -> str:
    """Names in a sentence: `a`, `b` and `c`."""
    names = list(items)
    return names[0] if len(names) == 1 else f"{', '.join(names[:-1])} and {names[-1]}"
