"""Filters of classic BPF: as bytes, as lines of a script, and what they answer to a call."""
from __future__ import annotations

import struct
from typing import Any, Iterable, List, NamedTuple, Tuple

X86_64 = 0xC000003E
WORDS = {
    "ld": 0x20, "ldi": 0x00, "add": 0x04, "sub": 0x14, "or": 0x44, "and": 0x54, "xor": 0xA4, "lsh": 0x64, "rsh": 0x74, "neg": 0x84,
    "ja": 0x05, "jeq": 0x15, "jgt": 0x25, "jge": 0x35, "jset": 0x45, "ret": 0x06,
}
NAMES = {code: word for word, code in WORDS.items()}
JUMPS = ("jeq", "jgt", "jge", "jset")
INSTRUCTION = struct.Struct("<HBBI")
MOST_INSTRUCTIONS = 4096
WORD = 0xFFFFFFFF
KILL_PROCESS, TRAP, ERRNO, NOTIFY, TRACE, LOG, ALLOW = 0x80000000, 0x30000, 0x50000, 0x7FC00000, 0x7FF00000, 0x7FFC0000, 0x7FFF0000


class Instruction(NamedTuple):
    code: int
    then: int
    otherwise: int
    value: int


class Filter(NamedTuple):
    instructions: list
    listener: bool


def from_bytes(raw: bytes) -> List[Instruction]:
    """The instructions that libseccomp exports and the kernel gives back: eight bytes each."""
    return [Instruction(*INSTRUCTION.unpack_from(raw, at)) for at in range(0, len(raw), INSTRUCTION.size)]


def to_bytes(instructions: Iterable[Tuple[int, int, int, int]]) -> bytes:
    return b"".join(INSTRUCTION.pack(*instruction) for instruction in instructions)


def action(value: int) -> int:
    return value & 0xFFFF0000


def answers(instructions: List[Instruction], wanted: int) -> bool:
    """Whether a `ret` of the filter has this action."""
    return any(it.code == WORDS["ret"] and action(it.value) == wanted for it in instructions)


def unwritable(instructions):
    """Why a script can't have the filter, or None."""
    if len(instructions) > MOST_INSTRUCTIONS:
        return f"it has {len(instructions)} instructions, and a script's filter at most {MOST_INSTRUCTIONS}"
    for place, it in enumerate(instructions):
        if it.code not in NAMES:
            return f"a script has no word for instruction {place}, of code 0x{it.code:02x}"
        if it.code == WORDS["ret"] and action(it.value) == TRAP:
            return f"it answers TRAP (SIGSYS) at instruction {place}, which a script's filter can't"
    return None


def line(instruction: Instruction) -> str:
    """The line that states an instruction."""
    word = NAMES[instruction.code]
    if word == "neg":
        return word
    if word in JUMPS:
        return f"{word} 0x{instruction.value:x} {instruction.then} {instruction.otherwise}"
    return f"{word} 0x{instruction.value:x}" if word in ("ret", "ldi") else f"{word} {instruction.value}"


def block(instructions: List[Instruction], listener: bool) -> List[str]:
    """The lines of a filter in a script."""
    return ["filter listener" if listener else "filter", *map(line, instructions), "end"]


def number(token: str) -> int:
    """A number as scripts write it."""
    return int(token, 0 if token[:2] in ("0x", "0o") else 10)


def instruction_of(words: List[str]) -> Instruction:
    value, then, otherwise = ([number(word) for word in words[1:]] + [0, 0, 0])[:3]
    return Instruction(WORDS[words[0]], *((then, otherwise) if words[0] in JUMPS else (0, 0)), value)


def notify_filter(numbers: List[int]) -> List[Instruction]:
    """The filter that the word `notify` of a script stands for."""
    tests = [Instruction(WORDS["jeq"], len(numbers) - at, 0, number) for at, number in enumerate(numbers)]
    return [Instruction(WORDS["ld"], 0, 0, 4), Instruction(WORDS["jeq"], 1, 0, X86_64), Instruction(WORDS["ret"], 0, 0, KILL_PROCESS),
            Instruction(WORDS["ld"], 0, 0, 0), *tests, Instruction(WORDS["ret"], 0, 0, ALLOW), Instruction(WORDS["ret"], 0, 0, NOTIFY)]


def read_blocks(text: str) -> List[Filter]:
    """The filters of lines as a script has them. Raises ValueError, with the line's number, where one isn't such a line."""
    filters, block = [], None
    for at, words in enumerate((it.split() for it in text.splitlines()), 1):
        if not words or words[0].startswith("#"):
            continue
        if block is None and words in (["filter"], ["filter", "listener"]):
            block = Filter([], len(words) == 2)
        elif block is not None and words == ["end"]:
            filters.append(block)
            block = None
        elif block is not None and words[0] in WORDS:
            block.instructions.append(instruction_of(words))
        else:
            raise ValueError(f"line {at}: {words[0]!r} doesn't belong to a filter's lines")
    if block is not None:
        raise ValueError("the last filter has no end")
    return filters


def data_of(call: int, arguments: List[int], architecture: int) -> bytes:
    """The bytes of `struct seccomp_data`, with an instruction pointer of 0."""
    return struct.pack("<iIQ6Q", call, architecture, 0, *(it % 2**64 for it in arguments))


def arithmetic(word: str, left: int, right: int) -> int:
    return {
        "add": lambda: left + right, "sub": lambda: left - right, "or": lambda: left | right, "and": lambda: left & right,
        "xor": lambda: left ^ right, "lsh": lambda: left << right, "rsh": lambda: left >> right, "neg": lambda: -left,
    }[word]() & WORD


def is_true(word: str, left: int, right: int) -> bool:
    return {"jeq": left == right, "jgt": left > right, "jge": left >= right, "jset": left & right != 0}[word]


def run(instructions: List[Instruction], data: bytes) -> int:
    """What a filter answers."""
    place, register = 0, 0
    while True:
        it = instructions[place]
        word = NAMES[it.code]
        place += 1
        if word == "ret":
            return it.value
        if word == "ld":
            register = struct.unpack_from("<I", data, it.value)[0]
        elif word == "ldi":
            register = it.value
        elif word == "ja":
            place += it.value
        elif word in JUMPS:
            place += it.then if is_true(word, register, it.value) else it.otherwise
        else:
            register = arithmetic(word, register, it.value)


def signed(value: int) -> int:
    return value - 2**32 if value >= 2**31 else value


def verdict(filters: Any, call: int, arguments: Any = (0,) * 6, architecture: int = X86_64) -> str:
    """What a script's journal says of a call under these filters, of which the newest is the last."""
    data = data_of(call, arguments, architecture)
    found = [(run(it.instructions, data), it.listener) for it in reversed(filters)] or [(ALLOW, False)]
    value, listener = min(found, key=lambda pair: signed(action(pair[0])))
    if action(value) == ERRNO:
        return f"errno={min(value & 0xFFFF, 4095)}"
    if action(value) == NOTIFY:
        return "notify" if listener else "nosys"
    return {TRACE: "nosys", LOG: "log", ALLOW: "allow"}.get(action(value), "kill")
