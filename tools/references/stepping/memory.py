"""Groups of tasks: an address space together with a table of descriptors (docs/KERNEL.md, Tasks)."""
from __future__ import annotations

from typing import Any, Dict, Optional, Set, Tuple, Union

from tools.commands.real_workloads.script_text import PAGE
from tools.references.stepping.facts import Fail
from tools.references.stepping.rules import ADDRESSES, E2BIG, EFAULT, VALUE_LIMIT

ZEROS = bytes(PAGE)
CONSOLE = ("console",)


class Group:
    """Memory and descriptors. A page that was never written has no bytes of its own; pages are shared with copies until they are written."""

    def __init__(self, mapped: Set[int], pages: Optional[Dict[int, bytes]] = None, slots: Optional[Dict[int, Tuple[Any, ...]]] = None) -> None:
        self.mapped, self.pages = mapped, dict(pages or {})
        self.slots = dict(slots) if slots is not None else {number: CONSOLE for number in range(3)}

    def copied(self) -> Group:
        return Group(self.mapped, self.pages, self.slots)

    def is_mapped(self, address: int, length: int = 1) -> bool:
        return all(page in self.mapped for page in range(address // PAGE, (address + length - 1) // PAGE + 1))

    def read(self, address: int, length: int) -> Union[Fail, bytes]:
        """The bytes from an address on, up to the first that isn't mapped; an error where that is the first."""
        if address // PAGE not in self.mapped:
            return Fail(EFAULT)
        found = bytearray()
        while len(found) < length and (address + len(found)) // PAGE in self.mapped:
            page, offset = divmod(address + len(found), PAGE)
            found += self.pages.get(page, ZEROS)[offset:offset + length - len(found)]
        return bytes(found)

    def write(self, address: int, content: bytes) -> None:
        """Stores bytes, which are mapped."""
        while content:
            page, offset = divmod(address, PAGE)
            part = content[:PAGE - offset]
            old = self.pages.get(page, ZEROS)
            self.pages[page] = old[:offset] + part + old[offset + len(part):]
            address, content = address + len(part), content[len(part):]

    def copy(self, part: Any) -> Any:
        """A text of a call, as it is at this moment; or its error."""
        if not part.is_text and part.limit > VALUE_LIMIT:
            return Fail(E2BIG)
        content = b""
        while len(content) < part.limit:
            address = (part.address + len(content)) % ADDRESSES
            piece = self.read(address, min(part.limit - len(content), PAGE - address % PAGE))
            if isinstance(piece, Fail):
                return piece
            content += piece
            if part.is_text and b"\0" in piece:
                return content[:content.index(b"\0")]
        return Fail(part.fault) if part.is_text else content

    def lowest_free(self, limit: int) -> Optional[int]:
        """The lowest number below a limit that isn't open, or None."""
        return next((number for number in range(limit) if number not in self.slots), None)
