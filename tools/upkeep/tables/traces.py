"""Why the answers of a play differ from those of a trace, as OUTPUTS has it: of the texts that `compare-with-trace` prints."""
from __future__ import annotations

from tools.commands.real_workloads.difference_texts import CLASSES
from tools.upkeep.tables.page import rows


def differences() -> str:
    known = ", ".join(f"`{name}`" for name, text in CLASSES.items() if not text)
    return rows(("name", "cause"), [*((f"`{name}`", text) for name, text in CLASSES.items() if text), (known, "Known differences of the simulated kernel from Linux: see [LINUX](../LINUX.md).")])
