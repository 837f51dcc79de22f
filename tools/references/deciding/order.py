"""The order of calls by which `compare` chooses the one that it tells of a class: fewer bytes that differ from plain values come first, and then one field after another decides."""
from __future__ import annotations

from typing import Any, List, Tuple

from tools.references.stepping.facts import AT_FDCWD
from tools.references.stepping.rules import Mknod, Mount, OpenAt, Other, SetXattr, kind_of

PLAIN_PATH, PLAIN_WORD = b"/x", b"x"
LEAST_MODES = {"reg": 0, "fifo": 0o010000, "chr": 0o020000, "bad": 0o030000, "dir": 0o040000, "blk": 0o060000, "sock": 0o140000}
PRINTED = range(32, 127)


def byte_rank(byte: int) -> Tuple[int, int]:
    return (0 if byte in range(ord("a"), ord("z") + 1) else 1 if byte in PRINTED else 2, byte)


def text_part(plain: bytes, text: bytes) -> Tuple[int, Tuple[Any, ...]]:
    return (0, ()) if text == plain else (len(text) + 1, (len(text), [byte_rank(it) for it in text]))


def number_part(number: int) -> Tuple[int, Tuple[int]]:
    return (int(number != 0), (number,))


def descriptor_part(number: int) -> Tuple[int, Tuple[Any, ...]]:
    return (int(number != AT_FDCWD), (number != AT_FDCWD, number < 0, abs(number)))


def flags_part(flags: int) -> Tuple[int, Tuple[int]]:
    return (flags.bit_count(), (flags,))


def node_parts(request: Mknod) -> List[Tuple[Any, ...]]:
    """Those of a node. Of the modes of a kind, which all print alike, the least counts."""
    return [text_part(PLAIN_PATH, request.path), number_part(LEAST_MODES[kind_of(request.mode)]), number_part(request.device)]


def parts(request: Any) -> List[Tuple[Any, ...]]:
    """Which call it is, and what each field costs, with its rank among those that cost as much."""
    if isinstance(request, Other):
        return [(0, (0,)), (0, (request.number < 0, abs(request.number)))]
    if isinstance(request, Mknod):
        return [(0, (2,)), *node_parts(request)] if request.dirfd is None else [(0, (6,)), *node_parts(request), descriptor_part(request.dirfd)]
    if isinstance(request, Mount):
        return [(0, (3,)), text_part(PLAIN_PATH, request.target), text_part(PLAIN_WORD, request.fstype), text_part(PLAIN_WORD, request.source), text_part(b"", request.options), flags_part(request.flags)]
    if isinstance(request, SetXattr):
        return [(0, (4,)), text_part(PLAIN_PATH, request.path), text_part(PLAIN_WORD, request.name), text_part(b"", request.value), flags_part(request.flags)]
    if isinstance(request, OpenAt):
        return [(0, (5,)), text_part(PLAIN_PATH, request.path), descriptor_part(request.dirfd), flags_part(request.flags)]
    return [(0, (1,)), number_part(request.address)]


def rank(request: Any) -> Tuple[int, List[Tuple[Any, ...]]]:
    """The rank of a call: of two the one with the lesser rank is told."""
    found = parts(request)
    return sum(cost for cost, _ in found), [(cost > 0, it) for cost, it in found]
