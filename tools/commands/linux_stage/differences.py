"""The table of known differences."""
from __future__ import annotations

import json
from pathlib import Path
from typing import Any, Dict, List, Set

FILE = Path(__file__).resolve().parent / "differences.json"
# what a difference may do to who tests a policy, the worst first
KINDS = {
    "granted-here": "Done here and not on Linux",
    "granted-on-linux": "Done on Linux and not here",
    "either-way": "Done by one of the two, either way",
    "other-answer": "Refused or done by both, with another answer",
    "no": "What a test of a policy can't meet",
}


def table() -> List[Dict[str, Any]]:
    return json.loads(FILE.read_text())


def of_kind(kind: str) -> List[Dict[str, Any]]:
    return [row for row in table() if row["misleads"] == kind]


def names() -> Set[str]:
    return {row["name"] for row in table()}


def cases() -> Dict[str, str]:
    """The folder of each difference."""
    return {row["name"]: row["case"] for row in table()}


def shown_by() -> Dict[str, str]:
    """The folder of each difference that a comparison shows, with the name of the difference."""
    return {row["case"]: row["name"] for row in table() if row["shown"]}
