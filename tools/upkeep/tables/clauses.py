"""The clauses of the judge, as CLAUSES has them: each with its class, its mistake, a broker that makes it, the picture of a history, and the right form."""
from __future__ import annotations

import ast
import json
from typing import Any, Dict, List, NamedTuple

from tools.references.judging.clauses import CLAUSES
from tools.commands.command_line.top import TOP
from tools.upkeep.tables.page import rows

SOURCE, BROKERS = "tools/references/judging/mistakes.json", "tests/brokers/clauses.py"


class Shown(NamedTuple):
    """A broker of tests/brokers/clauses.py: its lines, and the name of its history's picture."""

    code: str
    picture: str


def brokers() -> List[Shown]:
    """The brokers in the order of the clauses."""
    text = (TOP / BROKERS).read_text(encoding="utf-8")
    tree = ast.parse(text)
    code = {it.name: ast.get_source_segment(text, it) or "" for it in tree.body if isinstance(it, ast.ClassDef)}
    listed: Any = next(it.value for it in tree.body if isinstance(it, ast.Assign) and getattr(it.targets[0], "id", None) == "CLAUSES")
    return [Shown(code[it.args[0].id], it.args[1].value) for it in listed.elts]


def mistakes() -> List[Dict[str, Any]]:
    found = json.loads((TOP / SOURCE).read_text(encoding="utf-8"))
    if [it["clause"] for it in found] != [it.name for it in CLAUSES]:
        raise ValueError(f"{SOURCE} hasn't the clauses of tools/references/judging/clauses.py in their order")
    return found


def heading(mistake: Dict[str, Any]) -> str:
    return f"`{mistake['clause']}`: {mistake['title']}"


def table() -> str:
    return rows(("clause", "class", "broken if", "also shown by"),
                [(heading(it), clause.gravity.value, clause.broken, ", ".join(f"`{name}`" for name in it["also"])) for clause, it in zip(CLAUSES, mistakes())])


def section(mistake: Dict[str, Any], shown: Shown) -> str:
    return (f"### {heading(mistake)}\n\n{mistake['mistake']}\n\n`{BROKERS}`:\n\n```python\n...\n{shown.code}\n...\n```\n\n"
            f"![{mistake['clause']}: the history](../clauses/{shown.picture}.svg)\n\n**Right:** {mistake['right']}\n")


def sections() -> str:
    return "\n".join(section(*it) for it in zip(mistakes(), brokers()))
