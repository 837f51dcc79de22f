"""Which checks of the gate may begin, and what it tells of them."""
import os

from tools.checks import run_checks
from tools.checks.run_checks import Check, Ended

FIRST, SECOND, ALONE = Check("tools/first"), Check("tools/second {program}", after=("first",)), Check("tools/alone", is_alone=True)
CHECKS = [FIRST, SECOND, ALONE]


def test_one_waits_for_what_it_needs():
    assert run_checks.may_begin(FIRST, CHECKS, {}, {})
    assert not run_checks.may_begin(SECOND, CHECKS, {}, {})
    assert run_checks.may_begin(SECOND, CHECKS, {"first": Ended(0, 1.0)}, {})


def test_one_that_isnt_run_isnt_waited_for():
    assert run_checks.may_begin(SECOND, [SECOND], {}, {})


def test_one_that_measures_runs_by_itself_at_the_end():
    ended = {"first": Ended(0, 1.0), "second": Ended(1, 1.0)}
    assert not run_checks.may_begin(ALONE, CHECKS, {}, {})
    assert not run_checks.may_begin(ALONE, CHECKS, ended, {"a future": "another"})
    assert run_checks.may_begin(ALONE, CHECKS, ended, {})


def test_what_is_missing_is_named():
    assert run_checks.missing(Check("x", needs=("sh",))) is None
    assert run_checks.missing(Check("x", needs=("sh", "no-such-command"))) == "no-such-command"
    assert run_checks.missing(Check("x", needs=("no/such/file",))) == "no/such/file"


def test_each_check_is_an_executable(top):
    for checks in run_checks.CHECKS.values():
        for check in checks:
            assert os.access(top / check.words.split()[0], os.X_OK), check.name


def test_a_failure_is_told(capsys):
    assert run_checks.tell("text", {"one": Ended(0, 1.0), "two": Ended(1, 2.0), "three": Ended(None, 0.0, "cc isn't there")}, 3)
    said = capsys.readouterr().out
    assert "two FAILED with status 1" in said
    assert "1 passed, 1 failed" in said and "three (cc isn't there)" in said


def test_variables_of_the_user_are_left_out(monkeypatch):
    monkeypatch.setenv("SECCOMP_BROKER_PLAIN", "1")
    monkeypatch.setenv("LC_ALL", "C")
    found = run_checks.environment()
    assert "SECCOMP_BROKER_PLAIN" not in found and found["LC_ALL"] == "C.UTF-8"
