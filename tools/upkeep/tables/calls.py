"""The calls that have a name, as SCRIPT has them: of the definition that the proofs cite. And the lines of a file of calls, as OUTPUTS has them: of the table by which refusals are explained."""
from __future__ import annotations

import re
from typing import Dict, List

from tools.commands.command_line.top import TOP
from tools.commands.messages.calls import USAGE
from tools.commands.real_workloads.script_text import CALLS
from tools.upkeep.tables.page import rows

SOURCE = "crates/call_table/specs/Table.antt"
ROW, BARE = re.compile(r"^(\w+)_row = record \{\n(.*?)^\}", re.M | re.S), re.compile(r"bare nr_(\w+)")
FIELD, ARGUMENT = re.compile(r"^  (\w+) = (.*);$", re.M), re.compile(r"([A-Z]\w+) (\d)(?: (\d))?")
ARGUMENTS = {"Path": "path", "Source": "source", "Fstype": "type", "Data": "data", "Name": "name", "Value": "value", "Mode": "mode", "Device": "device", "Flags": "flags",
             "WideFlags": "flags", "Descriptor": "directory descriptor", "Address": "address of the result"}
BASES = {"Nowhere": "", "WorkingDirectory": "the working directory", "Register 0": "the descriptor"}
OF_BARE = {"base": "Nowhere", "texts": "[]", "numbers": "[]", "lane": "5", "may_be_granted": "false"}


def definitions() -> Dict[str, Dict[str, str]]:
    """The fields of each call's row, by its name."""
    text = (TOP / SOURCE).read_text(encoding="utf-8")
    found = {**{name: OF_BARE for name in BARE.findall(text)}, **{name: dict(FIELD.findall(body)) for name, body in ROW.findall(text)}}
    if set(found) != set(CALLS):
        raise ValueError(f"{SOURCE} has other calls than tools/commands/real_workloads/script_text.py")
    return found


def arguments(row: Dict[str, str]) -> str:
    named: List[tuple] = []
    for kind, place, length in ARGUMENT.findall(f"{row['texts']} {row['numbers']}"):
        named += [(place, ARGUMENTS[kind]), *([(length, "its length")] if length else [])]
    return ", ".join(f"{place}: {name}" for place, name in sorted(named))


def table() -> str:
    known = definitions()
    return rows(("call", "number", "arguments that a worker uses", "relative paths go from", "lane", "may be granted"),
                [(f"`{name}`", str(number), arguments(known[name]), BASES[known[name]["base"]], known[name]["lane"], "yes" if known[name]["may_be_granted"] == "true" else "no")
                 for name, number in CALLS.items()])


def lines() -> str:
    return rows(("line of CALLS", "example"), [(f"`{usage}`", f"`{example}`") for usage, example in USAGE.values()])
