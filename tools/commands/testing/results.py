"""What came of the tests of a file."""
from __future__ import annotations

from dataclasses import dataclass, field
from typing import Optional


@dataclass(frozen=True)
class Result:
    """One test: its line, what is tested, what is expected, and what was found; where it failed, with a schedule that shows it, if there is one."""

    line: int
    text: str
    expected: str
    found: str
    passed: bool
    within: str = ""
    schedule: tuple = ()

    @property
    def name(self):
        """The test in one line."""
        return f"{self.text} -> {self.expected}" if self.expected else self.text


@dataclass
class FileResults:
    """The results of a file, or why it wasn't understood: findings of its own lines, or lines about a file that it names."""

    path: str
    results: list = field(default_factory=list)
    findings: list = field(default_factory=list)
    # of a finding the lines about the file that is named there
    about: dict = field(default_factory=dict)
    warnings: list = field(default_factory=list)
    text: Optional[object] = None
    seconds: float = 0.0

    def add(self, finding, about=()):
        """Adds a finding, unless it is there already. They are kept in the order of the file."""
        if finding not in self.findings:
            self.findings = sorted([*self.findings, finding], key=lambda it: (it.line, it.start))
            self.about[finding] = about

    @property
    def is_understood(self) -> bool:
        return not self.findings

    @property
    def passed(self) -> int:
        return sum(it.passed for it in self.results)

    @property
    def failed(self) -> int:
        return len(self.results) - self.passed
