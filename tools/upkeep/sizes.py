"""Writes the table of sizes in docs/inside/PROOF.md anew.

    tools/upkeep/sizes             counts lines, edits and tests
    tools/upkeep/sizes --check     changes nothing, and fails where the table isn't what would be written

Lines are all lines of src/*.rt (code, or tests where the name begins with trials_), and of the .antt files of specs/ and proofs/.
"""
from __future__ import annotations

import glob
import re
import sys
from typing import Dict, List

from tools.commands.command_line.arguments import ToolParser
from tools.commands.command_line.top import TOP

DOCUMENT = f"{TOP}/docs/inside/PROOF.md"
BEGIN, END = "<!-- begin of what tools/upkeep/sizes writes -->\n", "<!-- end of what tools/upkeep/sizes writes -->\n"
HEAD = "| crate | code | specifications | proofs | edits | tests |\n|---|---|---|---|---|---|\n"


def text_of(path: str) -> str:
    with open(path, encoding="utf-8") as file:
        return file.read()


def lines_below(folder: str, pattern: str) -> int:
    return sum(text_of(path).count("\n") for path in glob.glob(f"{folder}/{pattern}", recursive=True))


def crates() -> List[str]:
    """The names of crates.txt, in its order."""
    return re.findall(r"^(\w+)[^#\n]*:", text_of(f"{TOP}/crates.txt"), re.M)


def counts(name: str) -> List[int]:
    """Lines of code, of specifications and of proofs, must-fail edits and tests of a crate."""
    folder = f"{TOP}/crates/{name}"
    tests = sum(text_of(path).count("#[test]") for path in glob.glob(f"{folder}/src/**/*.rt", recursive=True))
    return [
        lines_below(folder, "src/**/*.rt"),
        lines_below(folder, "specs/**/*.antt"),
        lines_below(folder, "proofs/**/*.antt"),
        len(glob.glob(f"{folder}/must-fail/*.edit")),
        tests,
    ]


def summary(rows: Dict[str, List[int]]) -> str:
    """The sentence below the table."""
    code, specs, proofs, edits, tests = (sum(row[at] for row in rows.values()) for at in range(5))
    trials = sum(row[0] for name, row in rows.items() if name.startswith("trials_"))
    return (
        f"Together: {code} lines of code, {trials} of them in the crates of tests; {specs} of specifications, "
        f"{proofs} of proofs; {edits} edits, {tests} tests.\n"
    )


def written() -> str:
    rows = {name: counts(name) for name in crates()}
    body = "".join(f"| `{name}` | {' | '.join(map(str, row))} |\n" for name, row in rows.items())
    return f"{BEGIN}{HEAD}{body}\n{summary(rows)}{END}"


def main() -> None:
    parser = ToolParser()
    parser.add_argument("--check", action="store_true", help="changes nothing, and says if it would")
    asked = parser.parse_args()
    document = text_of(DOCUMENT)
    if document.count(BEGIN) != 1 or document.count(END) != 1:
        sys.exit(f"sizes: {DOCUMENT} has to have each of the two marks once")
    before, rest = document.split(BEGIN)
    new = before + written() + rest.split(END)[1]
    if not asked.check:
        with open(DOCUMENT, "w", encoding="utf-8") as file:
            file.write(new)
    elif new != document:
        sys.exit("sizes: the table in docs/inside/PROOF.md isn't that of the files: run tools/upkeep/sizes")
