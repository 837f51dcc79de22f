"""What is wrong with a filter of a script, as docs/reference/SCRIPT.md has it (Faults of a filter)."""
from __future__ import annotations

from typing import Any

from tools.commands.messages.script_lines import number_of

MOST_INSTRUCTIONS, LAST_OFFSET, TRAP, ACTION = 4096, 60, 0x00030000, 0xFFFF0000


def jumps(line: Any) -> Any:
    """How many instructions a line may skip."""
    numbers = [number_of(token.text) for token in line.operands]
    return numbers[:1] if line.word == "ja" else numbers[1:] if line.word in ("jeq", "jgt", "jge", "jset") else []


def instruction_fault(line, left):
    """What is wrong with an instruction behind which so many stand, and what would be right; None where nothing is."""
    value = number_of(line.operands[0].text) if line.operands else 0
    if line.word == "ld" and (value > LAST_OFFSET or value % 4):
        offsets = "`ld 0` is the call's number, `ld 4` the architecture, `ld 16` the first argument's lower half"
        return f"the call's data has no four bytes at offset {value}", f"an offset is a multiple of 4 up to 60: {offsets}"
    if line.word in ("lsh", "rsh") and value >= 32:
        return f"a shift by {value} leaves nothing of 32 bits", "a shift is 0 to 31"
    if any(skipped >= left for skipped in jumps(line)):
        most = f"at most {left - 1} can be skipped here" if left else "none follows it"
        return f"the jump goes past the last instruction: {most}", "JT and JF count instructions that are skipped, and not places"
    if line.word == "ret" and value & ACTION == TRAP:
        return "a filter of a script can't answer SECCOMP_RET_TRAP", "answer an error in its place, as `ret 0x00050026` for ENOSYS"
    return None


def fault_of(block: Any, end: Any) -> Any:
    """The first fault of a filter: the line that shows it, what is wrong and what would be right; None where none is found."""
    if not block.lines:
        return end, "the filter has no instruction", "the least filter is `ret 0x7fff0000`, which allows every call"
    if len(block.lines) > MOST_INSTRUCTIONS:
        return block.lines[MOST_INSTRUCTIONS], f"the filter has {len(block.lines)} instructions", f"a filter has at most {MOST_INSTRUCTIONS}"
    for at, line in enumerate(block.lines):
        found = instruction_fault(line, len(block.lines) - at - 1)
        if found:
            return (line, *found)
    if block.lines[-1].word != "ret":
        return block.lines[-1], "the filter's last instruction isn't `ret`", "end it by an answer for all that is left, as `ret 0x7fff0000` (allow)"
    return None
