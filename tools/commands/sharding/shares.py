"""A share of a work: one of N parts. What belongs to a share depends on the work alone, never on the machine."""
from __future__ import annotations

import argparse
import re
from hashlib import blake2b
from typing import Any, Dict, Iterable, List, NamedTuple, Tuple

FORM = re.compile(r"(\d{1,6})/(\d{1,6})", re.ASCII)


class Share(NamedTuple):
    """The share with this index, from 1, of so many."""

    # (a tuple has methods of these names)
    index: int  # type: ignore[assignment]
    count: int  # type: ignore[assignment]

    def __str__(self) -> str:
        return f"{self.index}/{self.count}"

    def takes(self, place: int) -> bool:
        """Whether the thing at a place, from 0, belongs to this share."""
        return place % self.count == self.index - 1


WHOLE = Share(1, 1)


def share(text: str) -> Share:
    """Reads `I/N`."""
    found = FORM.fullmatch(text)
    if found and 1 <= int(found[1]) <= int(found[2]):
        return Share(int(found[1]), int(found[2]))
    raise argparse.ArgumentTypeError(f"{text!r} is no part: write I/N, as 2/7, with I from 1 to N")


def fingerprint(parts: Iterable[bytes]) -> str:
    """A text by which the shares of one work are known."""
    digest = blake2b(digest_size=8)
    for part in parts:
        digest.update(b"%d:" % len(part) + part)
    return digest.hexdigest()


class NotJoined(Exception):
    """Results can't be joined; the text says why."""


class Unlike(NotJoined):
    """A run of a broker isn't the same in two shares; the text says which."""


class Described(NamedTuple):
    """What a result says of its share: the share, the fingerprint of the work, and whether all of the share was done."""

    share: Share
    of: str
    is_complete: bool = True


def missing(described: List[Tuple[str, Described]]) -> list:
    """The shares that aren't there, or weren't finished, each with the reason. Raises NotJoined if some don't belong together."""
    known: Dict[int, Any] = {}
    for name, it in described:
        first_name, first = described[0]
        if (it.share.count, it.of) != (first.share.count, first.of):
            raise NotJoined(f"{name} (part {it.share}) and {first_name} (part {first.share}) are of different works")
        if it.share.index in known:
            raise NotJoined(f"{name} and {known[it.share.index][0]} are both part {it.share}")
        known[it.share.index] = (name, it)
    count = described[0][1].share.count
    absent = [f"part {Share(at, count)} is missing" for at in range(1, count + 1) if at not in known]
    return absent + [f"part {it.share} was interrupted" for _, (_, it) in sorted(known.items()) if not it.is_complete]
