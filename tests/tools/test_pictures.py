"""Pictures of stored reports: whole, and without anything that a report could have put into the page."""
import re

import pytest

from tools.commands.pages.documents import picture_page
from tools.commands.pages.judged import NotJudged
from tools.commands.pages.reports import NotAReport, read
from tools.commands.pages.still import still_picture
from tools.commands.pages.views import judged_view, view_of


def test_a_report_is_read(example):
    data = (example / "report.txt").read_bytes()
    report = read(data)
    assert len(report.events) == int(data.split(b"\n")[0].split()[1])


def test_a_picture_needs_no_other_file(example):
    page = picture_page(view_of((example / "report.txt").read_bytes()), "a title & <more>")
    assert "<more>" not in page.split("</title>")[0].split("<title>")[1]
    assert not re.search(r'(?:src|href)="(?:https?:)?//', page)


def test_a_still_picture_is_one_svg(example):
    picture = still_picture(view_of((example / "report.txt").read_bytes()))
    assert picture.lstrip().startswith("<svg") and picture.count("</svg>") == 1


@pytest.mark.parametrize("data", [b"", b"journal x\n", b"journal 1\n", b"\xff\xfe", b"journal 2\n0 - spawn 0 pid=1 new\n"])
def test_another_text_is_refused_with_its_line(data):
    with pytest.raises(NotAReport):
        view_of(data)


def test_lines_that_end_with_cr_are_told_with_the_cure(example):
    data = (example / "report.txt").read_bytes()
    with pytest.raises(NotAReport, match=r"line 2: this line ends with CR and LF: `sed "):
        view_of(data.replace(b"\n", b"\r\n").replace(b"\r", b"", 1))
    with pytest.raises(NotJudged, match="line 1: this line ends with CR and LF"):
        judged_view(data, b"mediated events=1 calls=0 effects=0 answers=0\r\n")


def test_a_cut_report_is_refused(example):
    data = (example / "report.txt").read_bytes()
    with pytest.raises(NotAReport):
        view_of(data[:len(data) // 2])
