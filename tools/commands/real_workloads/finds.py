"""What the calls of a script find in its tree where that isn't what they found in the trace, and what in the trace makes it so.

A path is in the tree from the start, or it isn't. In the trace it may have been made, removed, renamed or covered meanwhile, by calls that a script
doesn't have. Each call of the script that finds something else for that gets a line in the script, which tools/commands/compare-with-trace reads.
"""
from __future__ import annotations

import re
from dataclasses import dataclass
from typing import TYPE_CHECKING, Any, Dict, List, Optional, Tuple, Union

if TYPE_CHECKING:
    from tools.commands.real_workloads.calls import Made
    from tools.commands.real_workloads.strace_text import Call
    from tools.commands.real_workloads.tree import Tree

# what a call finds in the script's tree
THERE, MISSING, BELOW_THERE, BELOW_MISSING = "there", "missing", "in a directory that is there", "in a missing directory"
BEHIND_A_FILE, BEHIND_A_DIRECTORY = "behind a file", "behind a directory"
# what the trace shows of a path, and the name of the difference that comes of it
NAMES = {
    "makes": "made-meanwhile", "removes": "made-meanwhile", "renames": "renamed", "binds": "bind-mount", "mounts": "mounted-meanwhile",
    "unmounts": "unmounted",
}
ELSEWHERE, LINKS, BOTH_WAYS, NO_ROOM = "begins-elsewhere", "links", "made-meanwhile", "no-room"
LINE = re.compile(r"# in the play line (\d+) finds its path ([a-z ]+): ([a-z-]+)")


@dataclass
class Found:
    """What a call of the script found in the trace."""

    line: int
    fact: str
    is_above: bool  # the path is that of a directory in front of the call's own


@dataclass
class Change:
    """What a call that a script doesn't have did to a path, or a mount that it leaves out."""

    line: int
    call: str
    deed: str
    path: tuple


class Finds:
    def __init__(self):
        self.found, self.changes, self.files = {}, {}, []
        self.elsewhere = {}  # the first lines whose paths begin elsewhere than at the script's root, by where these lead to from it
        self.line, self.path, self.is_elsewhere = 0, None, False  # of the call whose facts are noted

    def begin(self, line: int, path: Optional[Tuple[bytes, ...]], is_elsewhere: bool) -> None:
        """What is noted from now on is what this call found."""
        self.line, self.path, self.is_elsewhere = line, path, is_elsewhere

    def note(self, path: Tuple[bytes, ...], fact: str) -> None:
        self.found.setdefault(path, []).append(Found(self.line, fact, path != self.path))
        if self.is_elsewhere:
            self.elsewhere.setdefault(path, self.line)

    def is_file(self, path: Tuple[bytes, bytes]) -> None:
        """A call found that a path leads through what is no directory."""
        self.files.append((path, self.line))

    def change(self, call: Union[Call, Made], deed: str, path: Tuple[bytes, ...]) -> None:
        if path:
            self.changes.setdefault(path, []).append(Change(getattr(call, "first", self.line), call.name, deed, path))

    def lines(self, tree):
        """The lines of a script, where the lines of its tree were made."""
        told = {}
        for path, found in self.found.items():
            self.tell_existence(tree, path, found, told)
        for path, line in self.files:
            if tree.stated.get(path, ("",))[0] == "dir":
                told[line, BEHIND_A_DIRECTORY] = self.reason(tree, path, line)
        return [f"# in the play line {line} finds its path {what}: {why}" for (line, what), why in sorted(told.items())]

    def tell_existence(self, tree: Tree, path: Tuple[bytes, ...], found: List[Found], told: Dict[Tuple[int, str], str]) -> None:
        is_there = path == () or path in tree.stated
        for it, others in zip(found, nearest_otherwise(found)):
            if (it.fact == "there") != is_there:
                what = (BELOW_THERE if is_there else BELOW_MISSING) if it.is_above else THERE if is_there else MISSING
                told[it.line, what] = self.reason(tree, path, it.line, others)
            elif not is_there:
                self.tell_files(tree, path, it, told)
            is_there = is_there or it.fact == "made"

    def tell_files(self, tree: Tree, path: Tuple[bytes, ...], it: Found, told: Dict[Tuple[int, str], str]) -> None:
        """A path that is missing may lead through what is a file in the tree."""
        for length in range(1, len(path)):
            if tree.stated.get(path[:length], ("dir",))[0] not in ("dir", "link"):
                told[it.line, BEHIND_A_FILE] = self.reason(tree, path[:length], it.line)

    def reason(self, tree: Tree, path: Tuple[bytes, ...], line: int, others: Optional[List[Tuple[int, bool]]] = None) -> str:
        """The name of what the trace shows of a path, or of a directory in front of it, and where. `others` are the nearest lines that found the
        path there where this one found it missing, or the other way round, each with whether it was there: what changed it stands between."""
        if tree.starts_with(path) and path not in tree.stated:
            return f"{NO_ROOM}, in the tree of a script"
        places = [path[:length] for length in range(len(path), 0, -1)]
        changes = [change for place in places for change in self.changes.get(place, []) if is_between(change, path, line, others)]
        if changes:
            change = min(changes, key=lambda it: (it.path != path, abs(it.line - line), it.line > line))
            return f"{NAMES[change.deed]}, line {change.line} {change.deed} {'it' if change.path == path else 'what is above it'} ({change.call})"
        if path in self.elsewhere:
            return f"{ELSEWHERE}, line {self.elsewhere[path]} doesn't begin at the root that the script has"
        link = next((place for place in places if tree.kinds.get(place, ("",))[0] == "link"), None)
        if link:
            return f"{LINKS}, one leads from it"
        return f"{BOTH_WAYS}, line {others[0][0] if others else line} found it otherwise"


def nearest_otherwise(found):
    """For each of the calls that found a path, the nearest ones in front and behind that found it otherwise, and whether it was there."""
    nearest = [[] for _ in found]
    for step in (1, -1):
        last = {}  # the line that was come to last at which the path was there, and at which it was missing
        for at in range(len(found))[::step]:
            it, is_there = found[at], found[at].fact == "there"
            nearest[at] += [(last[not is_there], not is_there)] if (not is_there) in last else []
            last[is_there] = it.line
            if step > 0 and it.fact == "made":
                last[True] = it.line
    return nearest


def is_between(change: Any, path: Any, line: int, others: Any) -> bool:
    """Whether a change of a path, or of a directory in front of it, stands between two calls that found the path otherwise."""
    if others is not None and not any(leads_over(change, line, other, was_there) for other, was_there in others):
        return False
    return change.path != path or change.deed not in ("binds", "mounts", "unmounts")


def leads_over(change: Change, line: int, other: int, was_there: bool) -> bool:
    """Whether a change stands between a line and another one that found a path there, or found it missing, and makes the one of the other."""
    is_made = was_there == (other > line)  # what is missing first is there later
    return min(line, other) <= change.line <= max(line, other) and change.deed != ("removes" if is_made else "makes")


def read(line: str) -> Optional[Tuple[int, str, str]]:
    """The line of the trace, what its call finds, and the name of the difference, of a line of a script; or None."""
    found = LINE.match(line)
    return (int(found[1]), found[2], found[3]) if found else None
