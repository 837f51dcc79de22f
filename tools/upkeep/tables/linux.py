"""The differences from Linux, as LINUX and LINUX_MEASURED have them: of the known differences that `on-linux` reads."""
from __future__ import annotations

from pathlib import Path
from typing import Any, Callable, Dict, List

from tools.commands.command_line.top import TOP
from tools.commands.linux_stage import differences, known

SHORT = "| difference | for a test | case |\n|---|---|---|\n"
LONG = "| difference | Linux | here | why | seen in |\n|---|---|---|---|---|\n"
KEYS = {"name", "misleads", "what", "linux", "here", "why", "test", "seen", "stored", "shown", "case"}


def case_of(row: Dict[str, Any]) -> str:
    """A link to the case that shows it; empty if there is none."""
    return f"[{Path(row['case']).parts[0].removesuffix('s')}](../{row['case']})" if row["case"] else ""


def seen_in(row: Dict[str, Any]) -> str:
    scripts = f"{row['stored']} script{'s' if row['stored'] > 1 else ''}"
    return scripts if row["seen"] == "scripts" else row["seen"]


def short(row: Dict[str, Any]) -> List[str]:
    return [f"**{row['name']}** {row['what']}", row["test"], case_of(row)]


def long(row: Dict[str, Any]) -> List[str]:
    return [f"**{row['name']}**", row["linux"], row["here"], row["why"], seen_in(row)]


def tables(head: str, columns: Callable[[Dict[str, Any]], List[str]]) -> str:
    """A table of each kind of differences, with these columns."""
    parts = []
    for kind, title in differences.KINDS.items():
        lines = (f"| {' | '.join(columns(row))} |\n" for row in differences.of_kind(kind))
        parts.append(f"### {title}\n\n{head}{''.join(lines)}")
    return "\n".join(parts)


def short_tables() -> str:
    return tables(SHORT, short)


def long_tables() -> str:
    return tables(LONG, long)


def faults() -> List[str]:
    """What is wrong with the rows."""
    rows = differences.table()
    found = [f"{row.get('name')}: its keys aren't {', '.join(sorted(KEYS))}" for row in rows if set(row) != KEYS]
    found += [f"{row['name']}: no kind {row['misleads']}" for row in rows if row.get("misleads") not in differences.KINDS]
    found += [f"{row['name']}: {row['case']} isn't there" for row in rows if row.get("case") and not (TOP / row["case"]).is_dir()]
    found += [f"{name}: on-linux gives this name, and it has no row" for name in sorted({rule.name for rule in known.RULES} - differences.names())]
    found += ["two rows have one name"] if len({row.get("name") for row in rows}) != len(rows) else []
    return found
