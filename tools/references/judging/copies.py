"""Which bytes of a caller's memory a worker has read, and how good these reads are."""
from __future__ import annotations

from dataclasses import dataclass
from enum import IntEnum
from typing import List, Optional, Tuple

from tools.references.stepping.facts import Fail
from tools.references.stepping.memory import Group
from tools.references.stepping.rules import ADDRESSES, E2BIG, EFAULT, VALUE_LIMIT, plan
from tools.references.stepping.rules import Copy as PlannedCopy

ZERO = b"\0"
UNKNOWN, NOT_MAPPED = -1, -2


class Quality(IntEnum):
    """How far a read can be relied on; each is better than the ones before it."""

    NONE = 0
    ANY = 1
    OF_CALLER = 2
    WHILE_LISTED = 3
    CHECKED = 4


@dataclass(frozen=True)
class Read:
    """A read of a worker: its place in the journal, the memory that was open, and what came of it."""

    place: int
    memory: Optional[Group]
    address: int
    length: int
    answer: object
    was_listed: bool

    @property
    def content(self):
        return b"" if isinstance(self.answer, Fail) else self.answer

    @property
    def ends_at_nothing(self):
        """Whether it shows that nothing is mapped behind what it has read."""
        if isinstance(self.answer, Fail):
            return self.answer.number == EFAULT and self.memory is not None
        return len(self.answer) < self.length

    def offset_in(self, part):
        """Where the read begins, counted from the beginning of a part: below 0 where it begins before it."""
        ahead = (self.address - part.address) % ADDRESSES
        return ahead if ahead < ADDRESSES // 2 else ahead - ADDRESSES


@dataclass(frozen=True)
class Copy:
    """The copy of a call's arguments: all texts, or the first fault that is known, or what is missing of a text."""

    texts: Optional[tuple] = None
    fault: Optional[int] = None
    missing_part: int = 0
    missing_byte: int = 0

    @property
    def is_known(self):
        return self.texts is not None or self.fault is not None


class Reads:
    """The reads for one call, in order, with the good checks between them."""

    def __init__(self, call, group):
        self.call, self.group = call, group
        self.reads, self.checks = [], []
        self.parts = plan(call.number, call.args)

    def quality(self, read: Read) -> Quality:
        if read.memory is not self.group:
            return Quality.ANY
        if not read.was_listed:
            return Quality.OF_CALLER
        return Quality.CHECKED if self.checks and self.checks[-1] > read.place else Quality.WHILE_LISTED

    def at_least(self, quality: Quality) -> List[Read]:
        return [read for read in self.reads if self.quality(read) >= quality]

    # ---- the reads of texts that are given

    def misfit(self, texts):
        """The first part whose text its plan doesn't give: one with a zero byte or too long for its place, or a value of another size. None where all fit."""
        for at, (part, text) in enumerate(zip(self.parts, texts)):
            fits = ZERO not in text and len(text) < part.limit if part.is_text else len(text) == part.limit <= VALUE_LIMIT
            if not fits:
                return at
        return None

    def bytes_of(self, at: int, text: bytes) -> bytes:
        """What has to be read for a text: its zero too, where one ends it."""
        return text + ZERO if self.parts[at].is_text else text

    def support(self, at, text):
        """For each byte of a text the best read that has it, with its quality: the earliest of those."""
        wanted, part = self.bytes_of(at, text), self.parts[at]
        best = [(Quality.NONE, None)] * len(wanted)
        for read in self.reads:
            quality, offset = self.quality(read), read.offset_in(part)
            for place in range(max(offset, 0), min(offset + len(read.content), len(wanted))):
                if read.content[place - offset] == wanted[place] and best[place][0] < quality:
                    best[place] = (quality, read)
        return best

    def newest_support(self, at, text):
        """Reads that have all bytes of a text together, from the newest on: each has one that those behind it lack."""
        wanted, part, found = self.bytes_of(at, text), self.parts[at], []
        missing = set(range(len(wanted)))
        for read in reversed(self.reads):
            offset = read.offset_in(part)
            given = {place for place in missing if 0 <= place - offset < len(read.content) and read.content[place - offset] == wanted[place]}
            if given:
                found.append(read)
            missing -= given
        return found

    def stood(self, quality, at, text):
        """Whether the newest of these reads gave a text at some moment."""
        reads, wanted = self.at_least(quality), self.bytes_of(at, text)
        return any(self.newest_from(reads[:count], at, len(wanted)) == list(wanted) for count in range(len(reads), -1, -1))

    def newest_from(self, reads, at, length):
        return self.newest(self.parts[at], reads)[:length]

    # ---- copies

    def newest(self, part, reads):
        """For each place of a part its newest byte, or that it isn't mapped, or that it wasn't read."""
        found = [UNKNOWN] * part.limit
        for read in reads:
            offset = read.offset_in(part)
            begin, end = max(offset, 0), min(offset + len(read.content), part.limit)
            if begin < end:
                found[begin:end] = read.content[begin - offset:end - offset]
            behind = offset + len(read.content)
            if read.ends_at_nothing and 0 <= behind < part.limit:
                found[behind] = NOT_MAPPED
        return found

    def copies(self, quality):
        """The copies that the reads of at least this quality make. They differ where the caller writes over its memory between two reads of one place, of which the first was for one text and the second for another."""
        return self.newest_copy(quality), self.planned_copy(quality)

    def whole(self, quality: Quality) -> Tuple[Tuple[bytes, ...], ...]:
        """The texts of those copies that are whole."""
        return tuple(copy.texts for copy in self.copies(quality) if copy.texts is not None)

    def planned_copy(self, quality):
        """The copy in the plan's order: each read is taken that is of the piece that is then wanted."""
        planned = PlannedCopy(self.call.number, self.call.args)
        for read in self.at_least(quality):
            if read.memory is not None and (read.address, read.length) == planned.wanted:
                planned.hear(read.answer)
        if planned.fault is not None:
            return Copy(fault=planned.fault.number)
        return Copy(texts=tuple(planned.texts)) if planned.is_whole else Copy(missing_part=len(planned.texts), missing_byte=len(planned.content))

    def newest_copy(self, quality: Quality) -> Copy:
        """The copy with the newest byte at each place."""
        reads, texts, missing = self.at_least(quality), [], None
        for at, part in enumerate(self.parts):
            if not part.is_text and part.limit > VALUE_LIMIT:
                return Copy(fault=E2BIG)
            text, fault, byte = self.text_in(part, self.newest(part, reads))
            if fault is not None:
                return Copy(fault=fault)
            if text is None and missing is None:
                missing = (at, byte)
            texts.append(text)
        return Copy(texts=tuple(texts)) if missing is None else Copy(missing_part=missing[0], missing_byte=missing[1])

    @staticmethod
    def text_in(part, newest):
        """A text, its fault, or the first byte of it that is missing."""
        for at, byte in enumerate(newest):
            if byte == NOT_MAPPED:
                return None, EFAULT, None
            if byte == UNKNOWN:
                return None, None, at
            if byte == 0 and part.is_text:
                return bytes(newest[:at]), None, None
        return (None, part.fault, None) if part.is_text else (bytes(newest), None, None)
