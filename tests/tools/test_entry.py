"""Every executable of tools/ calls the command, and has a module with a `main` beside it."""
import os
import subprocess

import pytest
from conftest import TOP

from tools.commands.command_line import entry, table

EXECUTABLES = sorted(path for folder in (TOP / "tools").iterdir() if folder.is_dir() for path in folder.iterdir() if path.is_file() and os.access(path, os.X_OK))
CALL = f"""#!/bin/sh
exec "${{0%/*}}/../../broker" {entry.AS} "$0" "$@"
"""


@pytest.mark.parametrize("path", EXECUTABLES, ids=lambda path: path.name)
def test_an_executable_calls_the_command_and_has_a_module(path):
    assert path.read_text() == CALL
    module = entry.loaded(entry.module_name(str(path)))
    assert callable(module.main)
    assert module.__doc__


@pytest.mark.parametrize("word", [it["word"] for it in table.read()["words"] if it["kind"] == "tool"])
def test_a_tool_of_the_table_has_an_executable(word):
    name = table.module_name(table.entry(table.read(), word))
    assert any(entry.module_name(str(path)) == name for path in EXECUTABLES)


def test_an_older_name_is_a_word():
    known = table.read()
    assert table.entry(known, "judge-slowly") is table.entry(known, "reference-judge")
    assert "judge-slowly" not in table.names(known)


def test_modules_are_found_from_another_folder(tmp_path):
    ended = subprocess.run([TOP / "tools/commands/script-of-strace", "--help"], cwd=tmp_path, env={**os.environ, "PYTHONPATH": ""}, capture_output=True, text=True)
    assert (ended.returncode, ended.stderr) == (0, "")
