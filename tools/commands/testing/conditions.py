"""What a claim says of the calls that an order of steps comes to.

A pattern is said of one call: `helper mount /tmp done and reply=lost` holds where there is such a call. Words that name a task, a call or a text
begin a pattern, and what stands behind them is about that same call, up to the next words that do. `not` in front of a pattern says that there is no
such call.
"""
from __future__ import annotations

from dataclasses import dataclass
from typing import TYPE_CHECKING, Optional, Tuple, Union

from tools.commands.messages.findings import advice, listed, meant
from tools.commands.testing import words
from tools.commands.testing.expectations import BY, is_result
from tools.commands.testing.lines import Word, missing
from tools.commands.testing.selections import some

if TYPE_CHECKING:
    from tools.commands.testing.calls import Call
    from tools.commands.testing.lines import NotUnderstood
    from tools.commands.testing.orders import Made

AND, OR, NOT, OPEN, CLOSE = "and", "or", "not", "(", ")"
OPERATORS = (AND, OR, NOT)
KEYS = {"rule": None, "reply": words.REPLIES, "verdict": tuple(words.NAMES_OF_VERDICTS), "via": None}
PREDICATES = (words.DONE, *words.OUTCOMES, *words.EXPECTED, *words.AFTERWARDS)
EXAMPLE = "never: mount done and reply=lost"


@dataclass(frozen=True)
class All:
    parts: tuple

    def holds(self, of: Union[Made, Tuple[Made, ...]]) -> bool:
        return all(it.holds(of) for it in self.parts)


@dataclass(frozen=True)
class Any:
    parts: tuple

    def holds(self, of: Made) -> bool:
        return any(it.holds(of) for it in self.parts)


@dataclass(frozen=True)
class Not:
    part: object

    def holds(self, of):
        return not self.part.holds(of)


@dataclass(frozen=True)
class Says:
    """One word about a call."""

    key: str
    value: str

    def holds(self, made: Made) -> bool:
        found = made.found
        if self.key in ("rule", "reply", "verdict"):
            return getattr(found, self.key) == self.value
        if self.key == "via":
            return any(it.via == self.value for it in found.deeds)
        if self.key == "result":
            return found.outcome == self.value
        if self.value == words.DONE:
            return any(it.is_good for it in found.deeds)
        if self.value in words.AFTERWARDS:
            return any(it.afterwards == self.value for it in found.deeds)
        return found.outcome == self.value if self.value in words.OUTCOMES else found.is_called(self.value)


@dataclass(frozen=True)
class Pattern:
    """A call with this task, name and texts, as far as they are stated, of which something holds."""

    task: str
    name: str
    texts: tuple
    about: object

    def is_about(self, task: str, call: Call) -> bool:
        return self.task in ("", task) and self.name in ("", call.name) and all(it in call.texts for it in self.texts)

    def fits(self, made):
        return self.is_about(made.task, made.call) and self.about.holds(made)

    def holds(self, outcome: Tuple[Made, ...]) -> bool:
        return any(self.fits(made) for made in outcome)


def is_predicate(word: Word) -> bool:
    if word.is_quoted:
        return word.key in KEYS
    return word.text in PREDICATES or is_result(word) or word.text.partition("=")[0] in KEYS and "=" in word.text


def is_text(word: Word) -> bool:
    return word.is_quoted and not word.key or word.text.startswith("/")


class Reader:
    """Reads a condition on the calls of tasks."""

    def __init__(self, line, given, tasks):
        self.line, self.given, self.at, self.rules = line, given, 0, []
        self.tasks = [it.name for it in tasks]
        self.calls = [(task.name, step.call) for task in tasks for step in task.steps if step.call is not None]
        self.texts = sorted({it for _, call in self.calls for it in call.texts})

    def peek(self, ahead: int = 0) -> Optional[Word]:
        at = self.at + ahead
        return self.given[at] if at < len(self.given) else None

    def is_next(self, text: str, ahead: int = 0) -> bool:
        word = self.peek(ahead)
        return word is not None and not word.is_quoted and word.text == text

    def take(self) -> Word:
        self.at += 1
        return self.given[self.at - 1]

    def missing(self, what: str) -> NotUnderstood:
        return missing(self.line, what, EXAMPLE)

    def close(self, opened: Word) -> None:
        if not self.is_next(CLOSE):
            raise opened.fault("the parenthesis isn't closed", "add `)` after the part that it holds")
        self.take()

    # ---- of an order of steps

    def read(self):
        found = self.either()
        if self.peek() is not None:
            raise self.unexpected(self.peek())
        return found

    def either(self):
        parts = [self.both()]
        while self.is_next(OR):
            self.take()
            parts.append(self.both())
        return parts[0] if len(parts) == 1 else Any(tuple(parts))

    def both(self):
        parts = [self.unit()]
        while self.is_next(AND):
            self.take()
            parts.append(self.unit())
        return parts[0] if len(parts) == 1 else All(tuple(parts))

    def unit(self):
        word = self.peek()
        if word is None:
            raise self.missing("a condition")
        if self.is_next(NOT):
            self.take()
            return Not(self.unit())
        if self.is_next(OPEN):
            self.take()
            found = self.either()
            self.close(word)
            return found
        return self.pattern()

    def pattern(self):
        begin, task, name, texts = self.at, "", "", []
        while self.peek() is not None and not is_predicate(self.peek()):
            word = self.peek()
            if not word.is_quoted and word.text in self.tasks and not task and not name:
                task = word.text
            elif not word.is_quoted and word.text in words.CALL_NAMES and not name:
                name = word.text
            elif is_text(word) or word.content in self.texts:
                texts.append(self.text(word))
            else:
                break
            self.take()
        subject = self.given[begin:self.at]
        about = self.about() if self.goes_on() else All(())
        if self.at == begin:
            raise self.unexpected(self.peek())
        found = Pattern(task, name, tuple(texts), about)
        if not any(found.is_about(*it) for it in self.calls):
            raise self.of_nothing(subject)
        return found

    def text(self, word):
        """The bytes of a word that names a text of a call."""
        if word.content not in self.texts:
            known = [it.decode("utf-8", "surrogateescape") for it in self.texts]
            raise word.fault(f"no call of this container has the text {word.text}", advice(meant(word.text, known), f"their texts are {some(known)}" if known else "none of them has one"))
        return word.content

    def of_nothing(self, subject: Tuple[Word, ...]) -> NotUnderstood:
        """The exception for a task, a call and texts that no call of the container has together, so that nothing could be so of it."""
        made = sorted({f"{task} {call.name}" for task, call in self.calls})
        if not made:
            return self.line.first.fault("no task of this container makes a call", "add one to a task, as `mknod /dev/null c 1:3`")
        whole = Word(" ".join(it.text for it in subject), self.line.number, subject[0].start, subject[-1].end)
        return whole.fault(f"no task makes this call: {whole.text}", f"the calls of this container are {some(made)}")

    # ---- of one call

    def goes_on(self, ahead: int = 0) -> bool:
        """Whether what comes is still about the same call."""
        while self.is_next(NOT, ahead) or self.is_next(OPEN, ahead):
            ahead += 1
        word = self.peek(ahead)
        return word is not None and is_predicate(word)

    def about(self):
        parts = [self.all_about()]
        while self.is_next(OR) and self.goes_on(1):
            self.take()
            parts.append(self.all_about())
        return parts[0] if len(parts) == 1 else Any(tuple(parts))

    def all_about(self):
        parts = [self.one_about()]
        while self.is_next(AND) and self.goes_on(1) or self.goes_on():
            if self.is_next(AND):
                self.take()
            parts.append(self.one_about())
        return parts[0] if len(parts) == 1 else All(tuple(parts))

    def one_about(self):
        word = self.take()
        if word.text == NOT and not word.is_quoted:
            return Not(self.one_about())
        if word.text == OPEN and not word.is_quoted:
            found = self.about()
            self.close(word)
            return found
        return self.predicate(word)

    def predicate(self, word):
        key, equals, value = (word.key, "=", word.text) if word.key else word.text.partition("=")
        if equals:
            return self.field(word, key, value)
        if is_result(word):
            return Says("result", word.text)
        said = Says("word", word.text)
        if word.text in words.VERDICTS and self.is_next(BY):
            self.take()
            if self.peek() is None:
                raise self.missing("the name of the rule")
            self.rules.append(self.take())
            return All((said, Says("rule", self.rules[-1].text)))
        return said

    def field(self, word, key, value):
        """A condition of the form KEY=VALUE."""
        known = KEYS[key]
        if not value:
            example = {"rule": "no-disks", "via": "fuse2fs"}.get(key)
            raise word.fault(f"nothing follows `{key}=`", f"as in `{key}={example}`" if example else f"it is {listed((f'{key}={it}' for it in known), 'or')}")
        if known and value not in known:
            raise word.fault(f"there is no {key} {value}", advice(meant(value, known), f"it is {listed((f'{key}={it}' for it in known), 'or')}"))
        if key == "rule":
            self.rules.append(Word(value, word.line, word.start + len(key) + 1, word.end))
        return Says(key, value)

    def unexpected(self, word: Word) -> NotUnderstood:
        if word is None:
            return self.missing("a condition")
        if word.text == CLOSE:
            return word.fault("nothing is open that `)` closes", "remove it, or open it by `(`")
        if word.text in OPERATORS:
            return word.fault(f"`{word.text}` has nothing before it that it joins", f"as in `{EXAMPLE}`")
        if word.text in (*words.CALL_NAMES, *self.tasks):
            return word.fault(f"{word.text} follows a statement about another call", "write `and` or `or` before the statement about a second one")
        key = word.key or word.text.partition("=")[0]
        if key != word.text:
            return word.fault(f"there is no condition {key}=", advice(meant(key, KEYS), f"it is {listed((f'{it}=' for it in KEYS), 'or')}"))
        near = meant(word.text, (*self.tasks, *words.CALL_NAMES, *PREDICATES, *OPERATORS))
        tasks = f"a task ({some(self.tasks, 'or')}), " if self.tasks else ""
        says = listed((words.DONE, "ended", "0", "EPERM", "granted", "reply=lost"), "or")
        return word.fault(f"{word.text} states nothing of a call", advice(near, f"a condition names {tasks}a call or a text, and then states {says} and the like"))


@dataclass(frozen=True)
class Condition:
    """What a claim says, and which rules it names."""

    formula: object
    rules: tuple

    def holds(self, outcome):
        return self.formula.holds(outcome)


def condition_of(line, given, tasks):
    reader = Reader(line, given, tasks)
    return Condition(reader.read(), tuple(reader.rules))
