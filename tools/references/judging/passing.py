"""Notes on passed calls that would be denied if other bytes stood behind the same registers. They are the policy's, and break no clause."""
from __future__ import annotations

from typing import Any, Dict, Iterator, NamedTuple, Optional, Set, Tuple

from tools.references.deciding.passed import Denied, denied_beside
from tools.references.stepping.facts import call_text, quoted
from tools.references.stepping.rules import Mknod, Mount, OpenAt, request_of

# a call's number, its arguments, and the texts that were read for it
Passed = Tuple[int, tuple, tuple]
NAME = "pass-by-memory"


class Note(NamedTuple):
    """The rule that passes a call, the rule that denies another one, and both calls."""

    rule: str
    against: str
    call: str
    other: str

    @property
    def text(self) -> str:
        return f"{NAME} by={self.rule} call={self.call} denied={self.against} other={self.other}"


def shown(number: int, request: Any) -> str:
    """A call by its texts."""
    texts: Tuple[bytes, ...] = ()
    if isinstance(request, (Mknod, OpenAt)):
        texts = (request.path,)
    elif isinstance(request, Mount):
        texts = (request.source, request.target, request.fstype)
    else:
        texts = (request.path, request.name, request.value)
    return " ".join([call_text(number), *map(quoted, texts)])


def notes(judge: Any, known: Dict[Passed, Optional[Denied]]) -> Iterator[Note]:
    """One for each rule that passes such calls, in the order of the first ones. `known` keeps what was found of calls, in this history or in others."""
    told: Set[str] = set()
    for passed, rule in judge.passes.items():
        if rule.name in told:
            continue
        if passed not in known:
            known[passed] = denied_beside(judge.rules, *passed)
        denied = known[passed]
        if denied is not None:
            told.add(rule.name)
            number, args, texts = passed
            yield Note(rule.name, denied.rule.name, shown(number, request_of(number, args, texts)), shown(number, denied.request))
