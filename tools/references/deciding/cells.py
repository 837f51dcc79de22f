"""The cells of all calls by which rules fit them: by trying, for each field of a call, the values that a rule names, and some that none names.

Rules are read and tried as by the simulated kernel (`tools/references/stepping`). Two values of a field that meet the same conditions are one here; so a cell is tried
for each combination of the others.
"""
from __future__ import annotations

import itertools
from typing import Any, Callable, Dict, Iterable, Iterator, List, NamedTuple, Optional, Tuple

from tools.commands.real_workloads.script_text import CALLS
from tools.references.stepping.rules import BITS, OTHER_CALLS, Mknod, Mount, OpenAt, Other, Request, Rule, SetXattr, Sysinfo, meets

LONGEST_PATH, LONGEST_NAME, LONGEST_VALUE = 4095, 255, 4096
# of more flags than these, sets of one or two and their complements are tried alone
MOST_FLAGS = 14
MODES = (0o100000, 0o020000, 0o060000, 0o010000, 0o140000, 0o040000, 0o170000)
HIGH_BIT = 2**32
UNNAMED = 0
FIELD_OF = {
    "path": "path", "under": "path", "kind": "node", "dev": "node", "short device": "node", "fstype": "fstype", "source": "source", "name": "name", "value": "value", "dirfd": "dirfd",
    "flags": "flags", "plain flags": "flags",
}
FIELDS = {
    "mknod": ("path", "node"), "mknodat": ("dirfd", "path", "node"), "mount": ("source", "path", "fstype", "flags"), "setxattr": ("path", "name", "value", "flags"), "openat": ("dirfd", "path"),
}
USUAL: Dict[str, Any] = {"path": b"/x", "node": (0o100000, 0), "dirfd": -100, "source": b"x", "fstype": b"x", "name": b"x", "value": b"", "flags": 0}


class Cell(NamedTuple):
    """A call, and the rules that fit it, as the set of their places in one number."""

    fitting: int
    request: Request

    def first(self, begin: int, end: int) -> Any:
        """The first of some rules that fits, counted from the first of them; None where none does."""
        among = self.fitting >> begin & (1 << end - begin) - 1
        return (among & -among).bit_length() - 1 if among else None


def request_of(call: Optional[str], **values: Any) -> Request:
    """A call of a name, by its fields; those that aren't stated are usual ones."""
    it = {**USUAL, **values}
    if call in ("mknod", "mknodat"):
        return Mknod(None if call == "mknod" else it["dirfd"], it["path"], *it["node"])
    if call == "mount":
        return Mount(it["source"], it["path"], it["fstype"], b"", b"", it["flags"], False)
    if call == "setxattr":
        return SetXattr(it["path"], it["name"], it["value"], it["flags"])
    if call == "openat":
        return OpenAt(it["dirfd"], it["path"], 0)
    return Sysinfo(0) if call == "sysinfo" else Other(CALLS.get(call or "", UNNAMED))


# ---- the values of each field


def named(rules: List[Rule], name: str) -> List[Tuple[Any, ...]]:
    """The values of the conditions of one name, each once, in their order."""
    return list(dict.fromkeys(it.values for rule in rules for it in rule.conditions if it.name == name))


def another(choices: Iterator[Any], taken: Iterable[Any]) -> Any:
    return next(it for it in choices if it not in taken)


def texts(rules: List[Rule], name: str, longest: int, zeros: bool = False) -> List[bytes]:
    """The texts of a field that are named, as far as calls can have them, and another."""
    found = [text for (text,) in named(rules, name) if len(text) <= longest and (zeros or b"\0" not in text)]
    return [*found, another((b"x" * count for count in itertools.count(1)), found)]


def paths(rules: List[Rule]) -> List[bytes]:
    """As for other texts; below each directory there is another one too, and one that goes up again."""
    known = {text for (text,) in named(rules, "path")}
    found = [*texts(rules, "path", LONGEST_PATH), another((b"/" + b"x" * count for count in itertools.count(1)), known)]
    for (directory,) in named(rules, "under"):
        ends = [end for end in (b"", *(bytes([letter]) for letter in range(ord("a"), ord("z") + 1)), b"other/below") if directory + b"/" + end not in known]
        found += [directory, directory + b"other", directory + b"/../x", *(directory + b"/" + end for end in ends)]
    return [path for path in dict.fromkeys(found) if len(path) <= LONGEST_PATH and b"\0" not in path]


def makedev(major: int, minor: int) -> int:
    return minor % 256 + major * 256 + minor // 256 * 2**20


def nodes(rules: List[Rule]) -> List[Tuple[int, int]]:
    devices = [makedev(*numbers) for numbers in named(rules, "dev")]
    devices.append(another(itertools.count(makedev(9, 9)), devices))
    return [(mode, device + high) for mode in MODES for device in devices for high in (0, HIGH_BIT)]


def descriptors(rules: List[Rule]) -> List[int]:
    found = [number for (number,) in named(rules, "dirfd")]
    return [*found, another(itertools.count(9), found), another(itertools.chain([-100], itertools.count(9)), found)]


def flag_sets(rules: List[Rule]) -> List[int]:
    """The sets of the flags that are named."""
    flags = {flag for every, none in named(rules, "flags") for flag in (*every, *none)} | ({"REMOUNT", "BIND", "MOVE"} if named(rules, "plain flags") else set())
    bits = sorted({BITS[flag] for flag in flags})
    sizes = range(len(bits) + 1) if len(bits) <= MOST_FLAGS else range(3)
    found = [sum(chosen) for size in sizes for chosen in itertools.combinations(bits, size)]
    return found if len(bits) <= MOST_FLAGS else list(dict.fromkeys([*found, *(sum(bits) - it for it in found)]))


VALUES: Dict[str, Callable[[List[Rule]], List[Any]]] = {
    "path": paths, "node": nodes, "dirfd": descriptors, "flags": flag_sets,
    "source": lambda rules: texts(rules, "source", LONGEST_PATH), "fstype": lambda rules: texts(rules, "fstype", LONGEST_PATH),
    "name": lambda rules: texts(rules, "name", LONGEST_NAME), "value": lambda rules: texts(rules, "value", LONGEST_VALUE, zeros=True),
}


# ---- the cells


def is_for(rule: Rule, call: Optional[str]) -> bool:
    return call is None if rule.calls == OTHER_CALLS else call in rule.calls


def sides(placed: List[Tuple[int, Rule]], call: Optional[str], field: str, values: Optional[Iterable[Any]] = None) -> List[Tuple[int, Any]]:
    """The values of a field, one for each set of rules whose conditions on it a value meets, with that set; `values` are those that are tried."""
    found: Dict[int, Any] = {}
    for value in VALUES[field]([rule for _, rule in placed]) if values is None else values:
        request = request_of(call, **{field: value})
        met = sum(1 << place for place, rule in placed if all(meets(request, it) for it in rule.conditions if FIELD_OF[it.name] == field))
        found.setdefault(met, value)
    return list(found.items())


def cells_of(rules: List[Rule], call: Optional[str]) -> List[Cell]:
    """The cells of the calls of a name."""
    placed = [(place, rule) for place, rule in enumerate(rules) if is_for(rule, call)]
    fields = FIELDS.get(call or "", ())
    # what conditions say of a field that the call hasn't, or has always with one value
    usual = request_of(call)
    every = sum(1 << place for place, rule in placed if all(meets(usual, it) for it in rule.conditions if FIELD_OF[it.name] not in fields))
    found = {}
    for chosen in itertools.product(*(sides(placed, call, field) for field in fields)):
        met = every
        for part, _ in chosen:
            met &= part
        if met not in found:
            found[met] = request_of(call, **dict(zip(fields, (value for _, value in chosen))))
    return [Cell(*it) for it in found.items()]


def cells(rules: List[Rule]) -> List[Cell]:
    """The cells of all calls."""
    return [cell for call in (*CALLS, None) for cell in cells_of(rules, call)]
