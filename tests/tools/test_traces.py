"""Scripts of traces, beside the stored ones."""
import subprocess

import pytest
from conftest import TOP

STORED = sorted(path.parent for path in (TOP / "examples").glob("traced-*/trace.txt"))


@pytest.mark.parametrize("folder", STORED, ids=lambda folder: folder.name)
def test_a_trace_gives_the_stored_script(folder):
    ended = subprocess.run([TOP / "tools/commands/script-of-strace", folder / "trace.txt"], stdin=subprocess.DEVNULL, capture_output=True)
    assert ended.returncode == 0
    assert ended.stdout == (folder / "script.txt").read_bytes()


def test_a_file_that_is_no_trace_is_refused(tmp_path):
    other = tmp_path / "other"
    other.write_text("hello\n")
    ended = subprocess.run([TOP / "tools/commands/script-of-strace", other], stdin=subprocess.DEVNULL, capture_output=True, text=True)
    assert ended.returncode == 1
    assert ended.stderr.count("\n") == 1
