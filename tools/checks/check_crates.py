"""Checks that crates.txt has the crates in floors, from the bottom up, that docs/inside/ARCHITECTURE.md shows these floors, and that the
toolchain's crates carry what they are there for.

    tools/checks/check-crates

A crate depends on none that crates.txt names further down; a comment there is the title of a floor. ARCHITECTURE's table has the same
floors and the same crates, in the same order, and says of each only what crates.txt says that it depends on. (The table leaves out much.)

A second table there says what each of the toolchain's crates carries, and by which word of which crate. Each of those crates that the project
stands on has a row. A crate of a row depends on the toolchain's, and its code has the word, outside of comments. No crate of tests has a row.

Exit status: 0 where all of this holds, else 1. The last line is `crates: N passed, N failed`.
"""
from __future__ import annotations

import re
from collections import namedtuple
from typing import Any, Iterator, List, Union

from tools.commands.command_line import arguments
from tools.commands.command_line.top import TOP

ARCHITECTURE = "docs/inside/ARCHITECTURE.md"
TABLE_HEAD = "| crate | purpose | depends on |"
CARRIED_HEAD = "| of the toolchain | carries | in | by |"
# the toolchain's crates on which the project stands
CARRYING = ("serde_json", "bitflags", "itoa", "thiserror", "slab", "atomic_table", "crossbeam_queue")

Floor = namedtuple("Floor", "title")
Crate = namedtuple("Crate", "name below")
Carried = namedtuple("Carried", "carrier what crate word")


def listed() -> Iterator[Union[Crate, Floor]]:
    """The floors and the crates of crates.txt, in its order."""
    for line in (TOP / "crates.txt").read_text(encoding="utf-8").splitlines():
        if line.startswith("# "):
            yield Floor(line[2:])
        elif line:
            head, below = line.split(":", 1)
            yield Crate(head.split()[0], below.split())


def table(head: str) -> Iterator[List[str]]:
    """The cells of each row of a table in ARCHITECTURE."""
    lines = (TOP / ARCHITECTURE).read_text(encoding="utf-8").splitlines()
    for line in lines[lines.index(head) + 2:]:
        if not line.startswith("|"):
            return
        yield [cell.strip() for cell in line.strip("|").split("|")]


def shown() -> Iterator[Union[Crate, Floor]]:
    """The floors and the crates of ARCHITECTURE's table."""
    for first, _, below in table(TABLE_HEAD):
        if first.startswith("**"):
            yield Floor(first.strip("*"))
        else:
            yield Crate(first.strip("`"), re.findall(r"`(\w+)`", below))


def upward(rows: List[Any]) -> List[Any]:
    """What depends on a crate further down."""
    crates = [row for row in rows if isinstance(row, Crate)]
    place = {crate.name: number for number, crate in enumerate(crates)}
    return [f"{crate.name} stands above {name} in crates.txt, and on it" for crate in crates for name in crate.below if place.get(name, -1) > place[crate.name]]


def unlike(rows: List[Any], table: List[Any]) -> List[str]:
    """Where the table says something else than crates.txt."""
    for row, other in zip(rows + [Floor("the end")], table + [Floor("the end")]):
        if row[0] != other[0]:
            return [f"{ARCHITECTURE} has {other[0]} where crates.txt has {row[0]}"]
    below = {row.name: row.below for row in rows if isinstance(row, Crate)}
    return [f"{ARCHITECTURE} says that {row.name} depends on {name}" for row in table if isinstance(row, Crate) for name in row.below if name not in below[row.name]]


def code_of(crate: str) -> str:
    """A crate's Rust code, without comments."""
    files = sorted((TOP / "crates" / crate / "src").glob("**/*.rt"))
    return "\n".join(re.sub(r"^ *//.*", "", path.read_text(encoding="utf-8"), flags=re.M) for path in files)


def fault_of(row, below):
    """Why a crate doesn't use one of the toolchain's for what that carries there, or None."""
    if row.crate.startswith("trials_"):
        return "has tests alone"
    if row.carrier not in below.get(row.crate, ()):
        return f"doesn't depend on {row.carrier} in crates.txt"
    if not re.search(rf"(?<!\w){re.escape(row.word)}(?!\w)", code_of(row.crate)):
        return f"has no {row.word} in its code"
    return None


def uncarried(rows: List[Any], carried: List[Carried]) -> List[Any]:
    """Where one of the toolchain's crates doesn't carry what it is there for."""
    below = {row.name: row.below for row in rows if isinstance(row, Crate)}
    without = [f"{ARCHITECTURE} doesn't say what {name} carries" for name in CARRYING if all(row.carrier != name for row in carried)]
    faults = [(row, fault_of(row, below)) for row in carried]
    return without + [f"{row.carrier} doesn't carry {row.what}: {row.crate} {fault}" for row, fault in faults if fault]


def main() -> bool:
    arguments.none()
    rows, shown_rows = list(listed()), list(shown())
    carried = [Carried(*(cell.strip("`") for cell in cells)) for cells in table(CARRIED_HEAD)]
    failed = upward(rows) + unlike(rows, shown_rows) + uncarried(rows, carried)
    print("".join(f"crates: {what}\n" for what in failed), end="")
    print(f"crates: {max(0, len(rows) + len(carried) - len(failed))} passed, {len(failed)} failed")
    return len(failed) > 0
