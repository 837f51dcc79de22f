"""Which commands of a page are run, what is wrong with one, and the tables of calls."""
from subprocess import CompletedProcess

import pytest

from tools.checks import check_commands, check_style
from tools.commands.packaging import files
from tools.upkeep.tables import calls


@pytest.mark.parametrize("line", ["    seccomp-broker test policies", "    $ ./broker play a b", "    make -C c test-step"])
def test_a_command_outside_of_a_console_is_found(line):
    assert list(check_commands.not_in_console(f"one\n\n{line}\n\ntwo\n")) == [line.strip().removeprefix("$ ")]


@pytest.mark.parametrize("page", ["    seccomp-broker play POLICY SCRIPT\n", "    sudo apt install ./x.deb\n", "    call mknod\n", "```console\n$ seccomp-broker help\n```\n",
                                  "<!-- from a, by b -->\n\n    seccomp-broker help\n\n<!-- end of it -->\n"])
def test_forms_and_generated_parts_are_no_commands(page):
    assert not list(check_commands.not_in_console(page))


@pytest.mark.parametrize("shown, status, printed, is_right", [
    ("", 0, "", True), ("", 11, "", True), ("", 1, "", False), ("a\n", 1, "a\n", True), ("a\n", 0, "b\n", False), ("a ...\n", 0, "a b\n", True), ("...\nb\n", 0, "a\nb\n", True)])
def test_what_a_page_shows_is_compared(shown, status, printed, is_right):
    assert (check_commands.fault_of(shown, CompletedProcess([], status, printed)) is None) == is_right


def test_packages_have_what_the_guides_name():
    there = files.shared()
    assert {"examples/first/script.txt", "tests/brokers/common.py", "cases/ids-wrap/script.txt", "lib/seccomp_step.c"} <= set(there)
    assert not any(name.startswith("cases/greatest-inputs/") for name in there)


def test_a_link_of_a_packaged_page_names_its_path():
    page = files.documents()["docs/YOUR_BROKER.md"].data.decode()
    assert "[C]" not in page and "C (`examples/c/step_broker.c`)" in page and "[CLAUSES](reference/CLAUSES.md)" in page


def test_the_calls_are_those_of_the_definition():
    row = next(line for line in calls.table().splitlines() if line.startswith("| `setxattr` "))
    assert row == "| `setxattr` | 188 | 0: path, 1: name, 2: value, 3: its length, 4: flags | the working directory | 2 | yes |"


def test_texts_of_help_are_read():
    assert "prints the list of commands, as {command} help does; after a command, its page" in list(check_style.texts_of_help(check_style.commands.read()))
