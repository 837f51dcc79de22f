"""What is expected of a call: a result, or what decided it, with alternatives."""
from __future__ import annotations

import re
from dataclasses import dataclass
from typing import TYPE_CHECKING, Optional

from tools.commands.messages.findings import advice, listed, meant
from tools.commands.messages.policy_words import ERRORS
from tools.commands.testing import words
from tools.commands.testing.lines import ARROW, missing

if TYPE_CHECKING:
    from tools.commands.testing.found import Found
    from tools.commands.testing.lines import NotUnderstood, Word
    from tools.commands.testing.traces import TracedCall

NUMBER, OTHER_ERROR = re.compile(r"-?\d{1,19}", re.ASCII), re.compile(r"E\d{1,4}", re.ASCII)
BY, OR = "by", "or"
EXAMPLE = "mknod /dev/null c 1:3 -> granted by lxd.mknod.1:3"


@dataclass(frozen=True)
class Alternative:
    """One thing that may come of a call. What is None may be anything."""

    word: str = ""
    result: str = ""
    rule: str = ""

    def fits(self, found, traced):
        """Whether it is what was found of a call, which is one of a trace or None."""
        if self.word == words.AS_TRACED:
            return traced.is_answered(found.outcome)
        return (not self.word or found.is_called(self.word)) and self.result in ("", found.outcome) and self.rule in ("", found.rule)


@dataclass(frozen=True)
class Expected:
    """All that may come of a call, and how it is written in the file."""

    alternatives: tuple
    rules: tuple
    text: str

    def fits(self, found: Found, traced: Optional[TracedCall] = None) -> bool:
        return any(it.fits(found, traced) for it in self.alternatives)

    @property
    def asks_tree(self) -> bool:
        """Whether it depends on what the call finds in the tree. What a rule denies doesn't."""
        return any(it.result and it.word != "denied" for it in self.alternatives)


def is_result(word: Word) -> bool:
    return not word.is_quoted and (NUMBER.fullmatch(word.text) or word.text in ERRORS or OTHER_ERROR.fullmatch(word.text)) is not None


def unknown_error(word: Word) -> NotUnderstood:
    return word.fault(f"{word.text} is no error that a report names", advice(meant(word.text, ERRORS), "another error is `E` and its number, as `E5`"))


class Reader:
    """Reads the words behind an arrow."""

    def __init__(self, line, given, of_trace):
        self.line, self.given, self.of_trace, self.at, self.rules = line, given, of_trace, 0, []

    @property
    def next(self) -> Optional[Word]:
        return self.given[self.at] if self.at < len(self.given) else None

    def take(self) -> Word:
        self.at += 1
        return self.given[self.at - 1]

    def is_next(self, text: str) -> bool:
        return self.next is not None and not self.next.is_quoted and self.next.text == text

    def result(self, verdict):
        """The result behind a word for a verdict; empty where none is stated."""
        if self.next is None or self.next.text in (BY, OR):
            return ""
        word = self.take()
        if not is_result(word):
            raise unknown_error(word) if re.fullmatch(r"E[A-Z]+", word.text) else self.unexpected(word, verdict)
        if verdict == "denied" and not word.text.startswith("E"):
            raise word.fault("a call is denied with an error", "name it, as in `denied EPERM`")
        return word.text

    def unexpected(self, word, verdict):
        near = meant(word.text, (BY, OR))
        return word.fault(f"{word.text} can't follow `{verdict}`", advice(near, f"it is `{verdict}`, `{verdict} RESULT`, `{verdict} by RULE` or `{verdict} RESULT by RULE`"))

    def rule(self) -> str:
        """The name of the rule behind `by`; empty where none is stated."""
        if not self.is_next(BY):
            return ""
        self.take()
        if self.next is None or self.is_next(OR):
            raise self.missing("the name of the rule", EXAMPLE)
        self.rules.append(self.take())
        return self.rules[-1].text

    def missing(self, what: str, example: str) -> NotUnderstood:
        return missing(self.line, what, example)

    def alternative(self):
        if self.next is None or self.is_next(OR):
            raise self.missing("the expected result", EXAMPLE)
        word = self.take()
        if is_result(word):
            return Alternative(result=word.text)
        if word.text == words.KILLED and not word.is_quoted:
            return Alternative(words.KILLED)
        if word.text == words.AS_TRACED and not word.is_quoted:
            if not self.of_trace:
                raise word.fault(f"{words.AS_TRACED} is expected of a call that isn't one of a trace", "it belongs below `traced`; name the result of this call, as `0`")
            return Alternative(words.AS_TRACED)
        if word.text not in words.EXPECTED or word.is_quoted:
            raise unknown_expected(word, self.of_trace)
        result = self.result(word.text)
        return Alternative(word.text, result, self.rule() if word.text in words.VERDICTS else "")

    def read(self):
        found = [self.alternative()]
        while self.is_next(OR):
            self.take()
            found.append(self.alternative())
        if self.next is not None:
            hint = f"write `{BY} {self.next.text}` if it is a rule; " if found[-1].word in words.VERDICTS and not found[-1].rule and not is_result(self.next) else ""
            raise self.next.fault(f"{self.next.text} can't be here", f"{hint}alternatives have `or` between them, as in `{ARROW} 0 or killed`")
        return found


def unknown_expected(word: Word, of_trace: bool) -> NotUnderstood:
    """The exception for a word with which nothing that is expected begins."""
    if re.fullmatch(r"E[A-Z]+", word.text):
        return unknown_error(word)
    known = (*words.EXPECTED, words.AS_TRACED) if of_trace else words.EXPECTED
    other = words.OTHER_EXPECTED.get(word.text.lower())
    hint = f"did you mean `{other}`? " if other else meant(word.text, (*known, *ERRORS))
    return word.fault(f"{word.text} isn't a result", advice(hint, f"it is a number, the name of an error, {listed(known, 'or')}"))


def expected_of(line, given, text, of_trace=False):
    """What these words of a line expect, of calls of a trace or of others; `text` is how they stand there."""
    reader = Reader(line, given, of_trace)
    return Expected(tuple(reader.read()), tuple(reader.rules), text)
