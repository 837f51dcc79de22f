"""What no script can ask for: odd requests to a listener, odd addresses, and each code of a filter's instructions.

What is expected is written down here, from docs/KERNEL.md and docs/reference; of texts of filters the program is asked.
"""
from __future__ import annotations

import traceback
from collections import Counter
from typing import Callable, List, NamedTuple, Tuple

from tools.commands.linux_stage import apart, probes_of_filters, probes_of_listeners, probes_of_memory
from tools.commands.linux_stage.comparison import Bench


class Probe(NamedTuple):
    area: str
    what: str
    linux: str
    expected: str
    name: str  # of the known difference that Linux's answer shows, if it is the one below
    there: str = ""  # the answer that Linux is known for


# takes what is probed, both answers, and the name of a known difference
Note = Callable[..., None]


class Notes:
    """Takes what the probes find."""

    def __init__(self):
        self.probes: List[Probe] = []

    def take(self, area: str, what: str, linux: object, expected: object, name: str = "", there: object = "") -> None:
        self.probes.append(Probe(area, what, str(linux), str(expected), name, str(there)))


def name_of(probe: Probe) -> str:
    """The known difference that a probe shows, or nothing."""
    return probe.name if probe.linux == probe.there != probe.expected else ""


def found_by(group: Callable[[Bench, Notes], None], bench: Bench) -> Tuple[List[Probe], str]:
    """What a group of probes finds, and the error that ended it."""
    notes, error = Notes(), ""
    try:
        group(bench, notes)
    except Exception:
        error = traceback.format_exc()
    return notes.probes, error


def run(bench: Bench, verbose: bool) -> int:
    """Prints what differs and the counts, and gives the exit status."""
    groups = [probes_of_listeners.run, probes_of_listeners.run_killable, probes_of_memory.run, probes_of_filters.run]
    found, errors = [], []
    for group in groups:
        probes, error = apart.in_namespaces(lambda: found_by(group, bench)) or ([], "a group of probes ended\n")
        found += [Probe(*probe) for probe in probes]
        errors += [error] if error else []
    unknown = [probe for probe in found if probe.linux != probe.expected and not name_of(probe)]
    for probe in found:
        if verbose or probe in unknown:
            print(f"{probe.area}: {probe.what}: Linux {probe.linux}, here {probe.expected}" + (f" ({name_of(probe)})" if name_of(probe) else ""))
    print("".join(errors), end="")
    counts = Counter(name_of(probe) for probe in found if probe.linux != probe.expected)
    for name, count in counts.most_common():
        print(f"on-linux: {count:6} {name or 'not known'}")
    equal = sum(probe.linux == probe.expected for probe in found)
    print(f"on-linux: {len(found)} probes: {equal} equal, {len(found) - equal - len(unknown)} differ in known ways, {len(unknown)} otherwise")
    return 1 if unknown or errors else 0
