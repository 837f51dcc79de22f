"""Calls that are passed, and would be denied if other bytes stood behind the same registers: the kernel reads the memory of a passed call again."""
from __future__ import annotations

import itertools
from typing import Any, Dict, Iterable, List, NamedTuple, Optional, Set, Tuple

from tools.commands.real_workloads.script_text import CALLS
from tools.references.deciding.cells import FIELD_OF, FIELDS, VALUES, is_for, named, request_of as request_by_name, sides
from tools.references.stepping.facts import CALL_NAMES
from tools.references.stepping.rules import Mount, Rule, covers, decide, meets, plan, request_of

TEXTS = ("path", "source", "fstype", "name", "value")


class Denied(NamedTuple):
    """The rule that denies another call, and that call."""

    rule: Rule
    request: Any


def values_of(rules: List[Rule], length: int) -> List[bytes]:
    """The values of one length that rules name, and another one, if there is one."""
    found = [text for (text,) in named(rules, "value") if len(text) == length]
    others = map(bytes, itertools.product(range(256), repeat=length))
    return found + [it for it in itertools.islice(others, len(found) + 1) if it not in found][:1]


def lengths(rules: List[Rule]) -> List[int]:
    """The lengths of the values that rules name, and another one."""
    found = {len(text) for (text,) in named(rules, "value")}
    return sorted(found | {next(it for it in itertools.count() if it not in found)})


def met_by(placed: List[Tuple[int, Rule]], call: str, fields: Iterable[str], values: Optional[List[bytes]]) -> Set[int]:
    """The sets of rules whose conditions on these fields a call can meet at once."""
    parts = (sides(placed, call, field, values if field == "value" else None) for field in fields)
    found = set()
    for chosen in itertools.product(*parts):
        met = -1
        for part, _ in chosen:
            met &= part
        found.add(met)
    return found


def passing(rules: List[Rule]) -> Dict[int, Set[int]]:
    """The places of the rules that pass a call of which other texts are denied, each with those of the rules that deny them."""
    found: Dict[int, Set[int]] = {}
    for call in (it for it in CALLS if it in FIELDS):
        placed = [(place, rule) for place, rule in enumerate(rules) if is_for(rule, call)]
        usual, fields = request_by_name(call), FIELDS[call]
        every = sum(1 << place for place, rule in placed if all(meets(usual, it) for it in rule.conditions if FIELD_OF[it.name] not in fields))
        registers = met_by(placed, call, [it for it in fields if it not in TEXTS], None)
        tried: List[Optional[List[bytes]]] = [values_of(rules, it) for it in lengths(rules)] if "value" in fields else [None]
        for values in tried:
            texts = met_by(placed, call, [it for it in fields if it in TEXTS], values)
            for numbers in registers:
                firsts = {(met & -met).bit_length() - 1 for met in (every & numbers & it for it in texts)}
                denying = {it for it in firsts if rules[it].verdict == "deny"}
                for it in firsts if denying else ():
                    if rules[it].verdict == "pass":
                        found.setdefault(it, set()).update(denying)
    return found


def registers_of(request: Any) -> Tuple[Any, int]:
    """A call without its texts, and the length of an attribute's value."""
    texts = {name_in(request, field): b"" for field in TEXTS if hasattr(request, name_in(request, field))}
    return request._replace(**texts), len(getattr(request, "value", b""))


# ---- of one call


def name_in(request: Any, field: str) -> str:
    """What the request calls a field."""
    return "target" if isinstance(request, Mount) and field == "path" else field


def choices(rules: List[Rule], request: Any, field: str) -> List[bytes]:
    """The texts of a field that rules tell apart; of an attribute's value those of its length."""
    values = values_of(rules, len(request.value)) if field == "value" else VALUES[field](rules)
    found: Dict[Tuple[bool, ...], bytes] = {}
    for value in values:
        other = request._replace(**{name_in(request, field): value})
        found.setdefault(tuple(meets(other, it) for rule in rules for it in rule.conditions if FIELD_OF[it.name] == field), value)
    return list(found.values())


def denied_beside(rules: List[Rule], number: int, args: Any, texts: Any) -> Optional[Denied]:
    """A call that is denied, with the registers of this one, which is passed. A text whose address is 0 stays."""
    request, call = request_of(number, args, texts), CALL_NAMES.get(number, "")
    left = [rule for rule in rules if covers(rule, request) and all(meets(request, it) for it in rule.conditions if FIELD_OF[it.name] not in TEXTS)]
    if not any(rule.verdict == "deny" for rule in left):
        return None
    parts = plan(number, args)
    missing = {"source": 0, "fstype": 2} if call == "mount" else {}
    fields = [it for it in FIELDS[call] if it in TEXTS and (it not in missing or parts[missing[it]].is_text)]
    for chosen in itertools.product(*(choices(left, request, field) for field in fields)):
        other = request._replace(**{name_in(request, field): value for field, value in zip(fields, chosen)})
        rule = decide(left, other)
        if rule.verdict == "deny":
            return Denied(rule, other)
    return None
