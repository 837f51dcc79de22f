"""What the program tells of a call, and in which words it is shown."""
from __future__ import annotations

from dataclasses import dataclass

from tools.commands.testing import words

NOT_MADE = "never made"


@dataclass(frozen=True)
class Deed:
    """What a session did: the kind of request, the program that mounted, whether it succeeded, and what is so of it at the end."""

    request: str
    via: str
    is_good: bool
    afterwards: str


@dataclass(frozen=True)
class Found:
    """What came of a call: what the filters said, its outcome, and the audit of its session."""

    filters: str
    outcome: str
    rule: str = "-"
    verdict: str = "-"
    reply: str = "-"
    deeds: tuple = ()

    @property
    def is_missing(self) -> bool:
        return self.outcome == NOT_MADE

    @property
    def was_killed(self) -> bool:
        return self.outcome in ("ended", NOT_MADE)

    @property
    def has_result(self) -> bool:
        """Whether the call returned something."""
        return self.outcome not in (*words.OUTCOMES, NOT_MADE)

    @property
    def was_refused(self) -> bool:
        return self.filters in ("errno", "nosys")

    def is_called(self, word: str) -> bool:
        """Whether one of the words for what is expected says what came of the call."""
        if word in words.VERDICTS:
            return self.verdict == words.VERDICTS[word]
        return {words.ALLOWED: self.filters in ("allow", "log"), words.REFUSED: self.was_refused, words.KILLED: self.was_killed}[word]

    def shown(self, with_result: bool = True) -> str:
        """What came of the call, in the words of what is expected."""
        if self.is_missing:
            return "the call was never made"
        if self.filters == "kill":
            return "killed by the filter"
        if self.verdict == "-" and self.filters == "notify":
            return f"{self.shown_outcome}, and no worker had received it"
        word = words.NAMES_OF_VERDICTS.get(self.verdict) or ("undecided" if self.verdict == "open" else words.REFUSED if self.was_refused else words.ALLOWED)
        parts = [word]
        if self.has_result and (with_result or word in ("denied", words.REFUSED)):
            parts.append(self.outcome)
        if self.rule != "-":
            parts += ["by", self.rule]
        after = [it.afterwards for it in self.deeds if it.afterwards]
        ended = {"ended": "and the caller was killed", "restarted": "and the call was interrupted", "open": "and the call never returned"}.get(self.outcome)
        return ", ".join([" ".join(parts), *after, *([f"{ended} (reply {self.reply})"] if ended else [])])

    @property
    def shown_outcome(self):
        return {"ended": words.KILLED, "restarted": "interrupted", "open": "waiting"}.get(self.outcome, self.outcome)


MISSING = Found("", NOT_MADE)
