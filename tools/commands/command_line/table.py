"""The table of words in words.json: each word, its forms, what it takes, and its text."""
from __future__ import annotations

import json
import os
from typing import Any, Dict, Iterable, List, Optional

FOLDER = os.path.dirname(os.path.realpath(__file__))
# words of the command itself, beside those of the table
HELP = "help"


def read() -> Dict[str, Any]:
    with open(f"{FOLDER}/words.json", encoding="utf-8") as file:
        return json.load(file)


def entry(table: Dict[str, Any], word: str) -> Optional[Dict[str, Any]]:
    """The table's entry of a word, be it by a name that it had before, or None."""
    return next((it for it in table["words"] if word in (it["word"], it.get("before"))), None)


def module_name(entry: Dict[str, Any]) -> str:
    """The name of a tool's module."""
    return f"tools.{entry.get('folder', 'commands')}.{entry['word'].replace('-', '_')}"


def options(table: Dict[str, Any], entry: Dict[str, Any]) -> List[Dict[str, Any]]:
    """The options of a word: its own, and for those words of the program that read files the two that say how much is said of a refusal."""
    reads = entry["kind"] == "program" and any(it["takes"] == "file" for it in entry["operands"])
    return [table["explain"], table["plain"]] * reads + entry.get("options", [])


def names(table: Dict[str, Any]) -> List[str]:
    return [it["word"] for it in table["words"]] + [HELP]


def distance(one: str, other: str) -> int:
    """How many letters are left out, put in, changed, or exchanged with the next one, to make one word of the other."""
    rows = [list(range(len(other) + 1))]
    for at, letter in enumerate(one, 1):
        row = [at]
        for to, wanted in enumerate(other, 1):
            least = min(rows[-1][to] + 1, row[-1] + 1, rows[-1][to - 1] + (letter != wanted))
            if at > 1 and to > 1 and letter == other[to - 2] and one[at - 2] == wanted:
                least = min(least, rows[-2][to - 2] + 1)
            row.append(least)
        rows.append(row)
    return rows[-1][-1]


def near(word: str, known: Iterable[str]) -> Optional[str]:
    """The known word that is so near to another one that it may have been meant, whatever the case of its letters; None where none is."""
    folded = {it.lower(): it for it in known}
    if not folded or not word:
        return None
    word = word.lower()
    found = min(folded, key=lambda it: (not it.startswith(word), distance(word, it)))
    begins = len(word) > 2 and found.startswith(word)
    return folded[found] if begins or distance(word, found) <= min(3, max(1, len(word) // 3)) else None


def meant(word: str, known: Iterable[str]) -> str:
    """What is said of the known word that is near, if one is."""
    found = near(word, known)
    return f"; did you mean {found!r}?" if found else ""
