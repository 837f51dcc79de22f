"""What the filters of a script say of a call (docs/reference/SCRIPT.md, Filters)."""
from __future__ import annotations

from typing import Any, List, Tuple

from tools.commands.real_workloads.bpf import ALLOW, ERRNO, JUMPS, LOG, NOTIFY, TRACE, TRAP, X86_64, action

WORD = 0xFFFFFFFF
KILL_PROCESS = 0x80000000
MOST_INSTRUCTIONS, LAST_OFFSET = 4096, 60
HIGHEST_ERROR = 4095

ARITHMETIC = {
    "ldi": lambda a, k: k,
    "add": lambda a, k: a + k,
    "sub": lambda a, k: a - k,
    "or": lambda a, k: a | k,
    "and": lambda a, k: a & k,
    "xor": lambda a, k: a ^ k,
    "lsh": lambda a, k: a << k,
    "rsh": lambda a, k: a >> k,
    "neg": lambda a, k: -a,
}
TESTS = {
    "jeq": lambda a, k: a == k,
    "jgt": lambda a, k: a > k,
    "jge": lambda a, k: a >= k,
    "jset": lambda a, k: a & k != 0,
}


def data_of(number: int, args: Tuple[int, ...], instruction_pointer: int = 0) -> List[int]:
    """The 64 bytes of struct seccomp_data, as words of 32 bits."""
    words = [number & WORD, X86_64, instruction_pointer & WORD, instruction_pointer >> 32]
    for argument in args:
        words += [argument & WORD, argument >> 32]
    return words


def run(instructions: List[Tuple[str, int, int, int]], data: List[int]) -> int:
    """The answer of a filter whose instructions are a word, K, JT and JF each."""
    accumulator, at = 0, 0
    while True:
        word, value, then, otherwise = instructions[at]
        at += 1
        if word == "ret":
            return value
        if word == "ld":
            accumulator = data[value // 4]
        elif word == "ja":
            at += value
        elif word in TESTS:
            at += then if TESTS[word](accumulator, value) else otherwise
        else:
            accumulator = ARITHMETIC[word](accumulator, value) & WORD


def precedence(answer: int) -> int:
    """The place of an action among all: as a signed number, the least first."""
    return (action(answer) + (1 << 31)) & WORD


def verdict(filters: List[Tuple[Any, ...]], number: int, args: Tuple[int, ...], instruction_pointer: int = 0) -> Tuple[Any, ...]:
    """What the filters say, the oldest first, each with whether it has the listener. A notification has no id here."""
    chosen, listens = ALLOW, False
    data = data_of(number, args, instruction_pointer)
    for instructions, listener in filters:
        answer = run(instructions, data)
        # of two equal actions that of the newer filter counts
        if precedence(answer) <= precedence(chosen):
            chosen, listens = answer, listener
    return said(chosen, listens)


def said(answer: int, listens: bool) -> Tuple[Any, ...]:
    kind = action(answer)
    if kind == ERRNO:
        return ("errno", min(answer & 0xFFFF, HIGHEST_ERROR))
    if kind == NOTIFY and listens:
        return ("notify",)
    return ({NOTIFY: "nosys", TRACE: "nosys", LOG: "log", ALLOW: "allow"}.get(kind, "kill"),)


def fault_of(instructions: List[Tuple[str, int, int, int]]) -> bool:
    """Whether a filter isn't accepted."""
    if not instructions or len(instructions) > MOST_INSTRUCTIONS:
        return True
    return instructions[-1][0] != "ret" or any(is_faulty(it, len(instructions) - at - 1) for at, it in enumerate(instructions))


def is_faulty(instruction: Tuple[str, int, int, int], left: int) -> bool:
    word, value, then, otherwise = instruction
    if word == "ld":
        return value > LAST_OFFSET or value % 4 != 0
    if word in ("lsh", "rsh"):
        return value >= 32
    if word == "ja":
        return value >= left
    if word in JUMPS:
        return then >= left or otherwise >= left
    return word == "ret" and action(value) == TRAP


def notifying(numbers: List[int]) -> List[Tuple[str, int, int, int]]:
    """The filter that `notify` stands for."""
    tests = [("jeq", number, len(numbers) - at, 0) for at, number in enumerate(numbers)]
    return [("ld", 4, 0, 0), ("jeq", X86_64, 1, 0), ("ret", KILL_PROCESS, 0, 0), ("ld", 0, 0, 0), *tests, ("ret", ALLOW, 0, 0), ("ret", NOTIFY, 0, 0)]
