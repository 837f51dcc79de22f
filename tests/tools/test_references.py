"""The readings of the documents, on examples whose reports are stored."""
import subprocess

import pytest
from conftest import TOP

from tools.references.judging.sessions import Unreadable, read_session

REFERENCES = TOP / "tools/references"


def said(name, *words):
    return subprocess.run([REFERENCES / name, *words], stdin=subprocess.DEVNULL, capture_output=True)


def test_a_play_gives_the_stored_report(example):
    ended = said("reference-step", "play", example / "policy.json", example / "script.txt")
    assert (ended.returncode, ended.stderr) == (0, b"")
    assert ended.stdout == (example / "report.txt").read_bytes()


def test_what_isnt_json_is_refused_in_a_line(tmp_path):
    policy = tmp_path / "policy.json"
    policy.write_text("{")
    ended = said("reference-step", "play", policy, TOP / "examples/first/script.txt")
    assert (ended.returncode, ended.stdout) == (4, b"")
    assert ended.stderr == b"policy: not JSON\n"


def test_a_session_whose_lines_end_with_cr_is_told_with_the_cure():
    with pytest.raises(Unreadable) as wrong:
        read_session(b"> able\r\n< able\r\n")
    assert wrong.value.args[0] == 1 and "CR and LF" in wrong.value.args[1]


def test_a_file_that_isnt_there_is_a_read_fault(tmp_path):
    ended = said("reference-step", "play", tmp_path / "none", TOP / "examples/first/script.txt")
    assert (ended.returncode, ended.stderr) == (2, b"read fault: policy\n")
