"""How an executable ends where its output can't be written."""
import os
import subprocess
import sys

import pytest
from conftest import TOP

MAIN = "from tools.commands.command_line import ending\nending.run(lambda: {})"


def ended(what, **how):
    return subprocess.run([sys.executable, "-B", "-c", MAIN.format(what)], cwd=TOP, stdin=subprocess.DEVNULL, stderr=subprocess.PIPE, text=True, **how)


@pytest.mark.parametrize("what, status", [("None", 0), ("3", 3), ("print('x')", 0), ("True", 1)])
def test_the_status_is_what_main_answers(what, status):
    assert ended(what, stdout=subprocess.PIPE).returncode == status


def test_a_full_device_is_told_in_one_line():
    with open("/dev/full", "wb") as full:
        it = ended("print('x')", stdout=full)
    assert it.returncode == 6
    assert it.stderr.count("\n") == 1 and "write fault" in it.stderr


def test_a_reader_that_is_gone_is_told_in_one_line():
    here, there = os.pipe()
    os.close(here)
    it = ended("print('x' * 100000)", stdout=there)
    os.close(there)
    assert (it.returncode, it.stderr.count("\n")) == (6, 1)


def test_a_file_that_isnt_there_is_named_in_one_line():
    it = ended("open('/none')", stdout=subprocess.PIPE)
    assert (it.returncode, it.stderr) == (2, "-c: /none: No such file or directory\n")


def test_an_interrupt_has_its_status():
    assert ended("(_ for _ in ()).throw(KeyboardInterrupt)", stdout=subprocess.PIPE).returncode == 130


def test_want_of_memory_has_its_status():
    it = ended("(_ for _ in ()).throw(MemoryError)", stdout=subprocess.PIPE)
    assert it.returncode == 7
    assert "Traceback" not in it.stderr
