"""What a pod printed, taken apart."""
from __future__ import annotations

import re
from typing import Dict, List, Tuple

PART = re.compile(rb"container (\d+)\n")
LEDGERS = re.compile(rb"handovers (\d+)\n")


def parts(out: bytes) -> Tuple[List[bytes], bytes]:
    """The report of each container, with its ledgers where workers were replaced, and the last line. A ValueError says what has another form."""
    lines = out.splitlines(keepends=True)
    reports: List[bytes] = []
    while lines and (title := PART.fullmatch(lines[0])):
        if int(title[1]) != len(reports):
            raise ValueError(f"{title[0]!r} where container {len(reports)} is next")
        end = next((at for at, line in enumerate(lines) if line.startswith(b"summary ")), None)
        if end is None:
            raise ValueError(f"container {len(reports)} has no summary")
        ledgers = LEDGERS.fullmatch(b"".join(lines[end + 1:end + 2]))
        end += 1 + int(ledgers[1]) if ledgers else 0
        reports.append(b"".join(lines[1:end + 1]))
        lines = lines[end + 1:]
    if len(lines) != 1:
        raise ValueError(f"{len(lines)} lines behind the parts")
    return reports, lines[0]


def numbers(line: bytes) -> Dict[bytes, int]:
    """The counts of a line, each under its name."""
    return {name: int(count) for name, count in re.findall(rb"(\w+)=(\d+)", line)}


def summary(report: bytes) -> bytes:
    """The line of a report that has its counts; what stands after it are ledgers."""
    return report.split(b"\nhandovers ", 1)[0].splitlines()[-1]


def last_line(reports: List[bytes]) -> bytes:
    """The last line of a pod with these reports."""
    sums: Dict[bytes, int] = {}
    for report in reports:
        for name, count in numbers(summary(report)).items():
            sums[name] = sums.get(name, 0) + count
    return b"pod containers=%d " % len(reports) + b" ".join(b"%s=%d" % counted for counted in sums.items()) + b"\n"
