"""Nothing in the tools is left that nobody names: each function, class and constant stands somewhere else too."""
import ast
import re
from collections import Counter
from pathlib import Path

import pytest
from conftest import TOP

WORD = re.compile(r"[A-Za-z_][A-Za-z_0-9-]*")
SOURCES = [path for folder in ("tools", "bench", "tests", "examples") for path in (TOP / folder).rglob("*") if path.suffix in (".py", ".js", ".html", ".json", ".c", ".txt", "") and path.is_file()]
# methods that a library calls by their names, and those whose names are made of a word
CALLED = ("format_help", "send_error", "log_message", "handle_error")
MADE = ("do_", "by_", "note_", "test_", "__")


def words_of(path: Path) -> Counter:
    try:
        text = path.read_text(encoding="utf-8")
    except UnicodeDecodeError:
        return Counter()
    return Counter(it.replace("-", "_") for it in WORD.findall(text))


def names_of(path: Path) -> "list[str]":
    tree = ast.parse(path.read_text(encoding="utf-8"))
    found = [it.name for it in ast.walk(tree) if isinstance(it, (ast.FunctionDef, ast.ClassDef))]
    stated = [target for it in tree.body if isinstance(it, (ast.Assign, ast.AnnAssign)) for target in (it.targets if isinstance(it, ast.Assign) else [it.target])]
    return found + [it.id for target in stated for it in ast.walk(target) if isinstance(it, ast.Name)]


@pytest.fixture(scope="module")
def words() -> Counter:
    return sum(map(words_of, SOURCES), Counter())


def test_each_name_stands_somewhere_else(words):
    modules = [path for path in SOURCES if path.suffix == ".py" and path.relative_to(TOP).parts[0] in ("tools", "bench")]
    dead = [f"{path.relative_to(TOP)}: {name}" for path in modules for name in names_of(path) if words[name] == 1 and not name.startswith(MADE) and name not in CALLED]
    assert dead == []
