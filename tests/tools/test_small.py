"""Small modules: pods, lanes, pages in Markdown, and modules outside the package."""
import pytest
from conftest import TOP

from tools.checks.outside import module_at
from tools.checks.style import markdown
from tools.commands import laned, pods

REPORT = (TOP / "examples/first/report.txt").read_bytes()


def pod(*reports):
    return b"".join(b"container %d\n%s" % it for it in enumerate(reports))


def test_a_pod_is_taken_apart():
    reports, last = pods.parts(pod(REPORT, REPORT) + pods.last_line([REPORT, REPORT]))
    assert reports == [REPORT, REPORT]
    assert last.startswith(b"pod containers=2 ")


@pytest.mark.parametrize("out", [b"", pod(REPORT), b"container 1\n" + REPORT + b"pod\n", b"container 0\nx\npod\n"])
def test_another_text_is_no_pod(out):
    with pytest.raises(ValueError):
        pods.parts(out)


def test_a_report_of_one_worker_is_laned(example):
    fault = laned.first_fault((example / "report.txt").read_bytes())
    assert fault is None or fault.split(b" ")[1].startswith(b"w")


def test_blocks_of_code_are_no_prose():
    page = "one\n\n```\ncode\n```\n\n    more code\n\ntwo\n"
    assert [text for _, text in markdown.prose_lines(page) if text] == ["one", "two"]


def test_a_module_outside_the_package_is_found():
    module = module_at(TOP / "examples/python/seccomp_step.py")
    assert module.__name__ == "seccomp_step" and module.Kernel


def test_a_module_that_isnt_there_is_told(tmp_path):
    with pytest.raises(OSError):
        module_at(tmp_path / "none.py")
