"""What a session has read of its call's arguments, as texts: up to the zero that ends each, and not what was left behind that by an earlier use of the memory."""
from __future__ import annotations

from typing import Dict, Optional

from tools.commands.pages.words import LONGEST_TOLD, address, bytes_text, is_error, short_text, unquoted, was_read

# the label of an argument that is a value, whose zeros are part of it, and that of its size
VALUE, SIZE = "value", "size"
PATHS = ("path", "target")
LONGEST_TEXT = 4096


class Copied:
    """The reads of a session, in their order."""

    def __init__(self, call):
        self.call = call
        # each read as it is shown, and what it gave: an address, a length and bytes, the zeros at their end left out
        self.told, self.reads = [], []

    def take(self, place: int, at: int, length: int, data: str) -> str:
        """Takes a read; gives the words of its step."""
        if is_error(data) or data == "-":
            self.told.append([place, address(at), length, data if is_error(data) else '""'])
            return was_read(at, length, data)
        content = bytes.fromhex(data)
        self.reads.append((at, length, content))
        text, _, behind = (content, b"", b"") if self.is_value(at) else content.partition(b"\0")
        more = f", and {len(behind)} bytes after its zero" if behind.strip(b"\0") else ""
        self.told.append([place, address(at), length, bytes_text(text)])
        return f"reads {short_text(text[:LONGEST_TOLD].hex())}{' and more' if len(text) > LONGEST_TOLD else ''} at {address(at)}{more}"

    def has_read(self, begin: int, size: int) -> bool:
        """Whether some of these bytes of memory were read, up to the zero that ends a text."""
        return any(begin < at + (len(content) if self.is_value(at) else min(len(content), len(content.partition(b"\0")[0]) + 1)) and at < begin + size for at, _, content in self.reads)

    def numbers(self) -> Dict[str, int]:
        return {label: int(number) for label, number, _ in self.call["arguments"]} if self.call is not None else {}

    def is_value(self, at: int) -> bool:
        numbers = self.numbers()
        return VALUE in numbers and numbers[VALUE] <= at < numbers[VALUE] + numbers[SIZE]

    def byte(self, at: int) -> Optional[int]:
        """The newest byte of an address, or None."""
        for begin, length, content in reversed(self.reads):
            if begin <= at < begin + length:
                return content[at - begin] if at - begin < len(content) else 0
        return None

    def text(self, at: int) -> Optional[bytes]:
        """The text that was read at an address, or None where its end wasn't."""
        found = bytearray()
        while len(found) < LONGEST_TEXT:
            byte = self.byte(at + len(found))
            if byte is None:
                return None
            if byte == 0:
                return bytes(found)
            found.append(byte)
        return None

    def path(self):
        """The path of the call, as far as it was read."""
        at = next((number for label, number in self.numbers().items() if label in PATHS), None)
        text = None if at is None else self.text(at)
        return None if text is None else unquoted(bytes_text(text))

    def name_texts(self) -> None:
        """Writes the texts that were read behind their addresses among the call's arguments."""
        for argument in self.call["arguments"] if self.call is not None else ():
            label, number, shown = argument
            text = self.text(int(number)) if shown == address(number) and label not in (VALUE, "flags", "answer") and int(number) else None
            if text is not None:
                argument[2] = f"{shown}, {bytes_text(text)}"
