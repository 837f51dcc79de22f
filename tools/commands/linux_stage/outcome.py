"""What came of the comparisons: a line for each that differs, and the counts at the end."""
from __future__ import annotations

from collections import Counter
from typing import Collection, List, Optional

from tools.commands.linux_stage.comparison import Result
from tools.commands.linux_stage.play import Difference

ALL = ("equal", "known", "otherwise", "stopped", "not played")
DIFFERENT = ("known", "otherwise", "stopped", "not played")
NOT_KNOWN = ("otherwise", "stopped", "not played")
WIDTH = 160


def cut(text: str) -> str:
    """A text that fits into a line: paths and data may be long."""
    return text if len(text) <= WIDTH else f"{text[:WIDTH // 2]} .. {text[-WIDTH // 3:]}"


class Outcome:
    """`told` are the kinds of results that get a line."""

    def __init__(self, told):
        self.lines = told
        self.counts, self.names, self.events = Counter(), Counter(), 0

    def take(self, name: str, result: Result, excluded: Collection[str] = (), unshown: Optional[str] = None) -> None:
        """Takes a result. `excluded` are differences that it may not show, and `unshown` one that it should show and doesn't."""
        self.events += result.compared
        unknown = [difference for difference in result.differences if not difference.name or difference.name in excluded]
        kind = self.kind(result, unknown, unshown)
        self.counts[kind] += 1
        self.names.update(result.names)
        if kind in self.lines:
            self.print(name, kind, result, unshown)

    def kind(self, result: Result, unknown: List[Difference], unshown: Optional[str]) -> str:
        """A comparison that had to be stopped says nothing of what it didn't come to."""
        if result.refused:
            return "not played"
        if unknown or unshown and not result.stopped:
            return "otherwise"
        if result.stopped:
            return "stopped"
        return "known" if result.names else "equal"

    def print(self, name: str, kind: str, result: Result, unshown: Optional[str]) -> None:
        texts = {"equal": "equal", "known": ", ".join(result.names), "otherwise": "DIFFERS", "stopped": "compared in part", "not played": result.refused}
        print(f"{name}: {texts[kind]}, {result.compared} of {len(result.journal)} events", flush=True)
        for difference in result.differences:
            print(f"    {cut(difference.line)}\n        {difference.what}: Linux {cut(difference.linux)}, here {cut(difference.here)}"
                  + (f" ({difference.name})" if difference.name else ""))
        if unshown:
            print(f"    it doesn't show {unshown}")
        if result.stopped:
            print("    " + result.stopped.strip().replace("\n", "\n    "))

    def told(self) -> int:
        """Prints the counts, and gives the exit status."""
        counts = self.counts
        for name, count in self.names.most_common():
            print(f"on-linux: {count:6} {name}")
        print(f"on-linux: {sum(counts.values())} compared, {self.events} events: {counts['equal']} equal, {counts['known']} differ in known ways, "
              f"{counts['otherwise']} otherwise, {counts['stopped']} in part, {counts['not played']} not played")
        return 1 if counts["otherwise"] else 0
