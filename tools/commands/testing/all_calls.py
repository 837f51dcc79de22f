"""Lines on all calls, as `never granted: mknod kind=blk`: how they are read, and the claims that the program checks for them."""
from __future__ import annotations

import json
import re
from dataclasses import dataclass
from typing import TYPE_CHECKING, Any, Dict, List, Optional, Tuple

from tools.commands.messages.findings import advice, listed, meant
from tools.commands.messages.policy_words import ANSWERS, CONDITIONS, ERRORS, FLAGS
from tools.commands.testing import asking, options, words
from tools.commands.testing.calls import device_of, kind_of, text_of
from tools.commands.testing.lines import NotUnderstood, Word, missing
from tools.commands.testing.results import Result

if TYPE_CHECKING:
    from tools.commands.testing.asking import Program
    from tools.commands.testing.lines import Line

NEVER, ALWAYS = "never", "always"
SENSES = {NEVER: "never", ALWAYS: "expect"}
# what a claim says of its calls, and the answer of a rule that says so
VERDICTS = {"granted": "grant", "denied": "deny", "passed": "pass", "injected": "inject"}
NUMBER = re.compile(r"\d{1,10}", re.ASCII)
MOST_DESCRIPTOR, MOST_DIRECTORY = 2**32 - 1, 2**31 - 1
UNSET = "!"
EXAMPLE = "never granted: mknod kind=blk"
LINE = re.compile(rb"(held|refuted|undecided) line-(\d+)(?: (vacuous)|(?: (.+) rule=(\S+))?)")
REACH = "all calls"


@dataclass(frozen=True)
class OfAllCalls:
    """A line: whether its calls never or always come to something, and the claim, as `check` takes it. `conditions` is the place of what names the calls."""

    line: object
    sense: str
    claim: dict
    conditions: Word


def is_one(line: Line) -> bool:
    """Whether a line is one on all calls: some word in front of a colon stands behind `never` or `always`."""
    return line.first.text in SENSES and not line.first.is_quoted and any(it.text.endswith(":") and not it.is_quoted for it in line.rest[:4])


# ---- the values of conditions: each answers what stands in the claim, or raises what is wrong


def text_value(word):
    content = text_of(word)
    try:
        return content.decode("utf-8")
    except UnicodeDecodeError:
        raise word.fault("the text isn't UTF-8, and no policy has such a one", "name a directory that the path lies in, by `under=`") from None


def directory_value(word):
    found = text_value(word)
    if not found.startswith("/") or found.endswith("/"):
        raise word.fault(f"{word.text} is no directory for `under=`", "it begins with `/` and doesn't end with one, as `under=/run`")
    return found


def numbers_value(word: Word) -> str:
    device_of(word)
    major, minor = map(int, word.text.split(":"))
    return f"{major}:{minor}"


def descriptor_value(word):
    if word.text in ("AT_FDCWD", str(words.HERE)):
        return words.HERE
    if not NUMBER.fullmatch(word.text) or int(word.text) > MOST_DIRECTORY:
        raise word.fault(f"{word.text} is no directory descriptor", f"it is `AT_FDCWD`, or a number up to {MOST_DIRECTORY}")
    return int(word.text)


def flags_value(word, call):
    """The flags that are set, and those with `!` in front, which aren't."""
    found = {"all": [], "none": []}
    for it in options.parts(word):
        is_unset = it.text.startswith(UNSET)
        name = re.sub("^(MS_|XATTR_)", "", it.text[is_unset:])
        if name not in FLAGS[call]:
            hint = f"did you mean `{words.OPTIONS_OF_MOUNT[name]}`? " if name in words.OPTIONS_OF_MOUNT and call == "mount" else meant(name, FLAGS[call])
            raise it.fault(f"{name} is no flag of {call}", advice(hint, f"flags have commas between them, and `{UNSET}` before one that isn't set, as `flags=RDONLY,{UNSET}NODEV`"))
        found["none" if is_unset else "all"].append(name)
    return {key: names for key, names in found.items() if names}


VALUES = {"kind": kind_of, "dev": numbers_value, "under": directory_value, "dirfd": descriptor_value}


class Reader:
    """Reads a line on all calls."""

    def __init__(self, line: Line) -> None:
        self.line, self.given, self.at = line, line.rest, 0

    @property
    def next(self) -> Optional[Word]:
        return self.given[self.at] if self.at < len(self.given) else None

    def take(self, what: str) -> Word:
        if self.next is None:
            raise missing(self.line, what, EXAMPLE)
        self.at += 1
        return self.given[self.at - 1]

    def read(self):
        says, then = self.verdict()
        calls = self.calls(says)
        begin = self.at
        when = self.conditions(calls)
        named = self.given[begin:] or self.given[begin - 1:begin]
        claim = {"name": f"line-{self.line.number}", "call": [it.text for it in calls], "when": when, "then": then}
        return OfAllCalls(self.line, SENSES[self.line.first.text], claim, Word("", self.line.number, named[0].start, named[-1].end))

    # ---- what is said

    def verdict(self) -> Tuple[Word, Any]:
        """The word for the verdict, and the answer that the claim names."""
        said = []
        while True:
            word = self.take("the decision of the calls")
            is_last = word.text.endswith(":") and not word.is_quoted
            said.append(Word(word.text[:-1], word.line, word.start, word.end - 1, word.is_quoted) if is_last else word)
            if is_last:
                break
        colon = said[-1]
        if not colon.text:
            said.pop()
        if not said:
            raise Word("", colon.line, colon.start, colon.end + 1).fault("the decision of the calls is missing", f"as in `{EXAMPLE}`")
        first, rest = said[0], said[1:]
        if first.text not in VERDICTS or first.is_quoted:
            other = words.OTHER_EXPECTED.get(first.text.lower())
            hint = f"did you mean `{other}`? " if other in VERDICTS else meant(first.text, VERDICTS)
            raise first.fault(f"{first.text} is nothing that a policy decides of all calls", advice(hint, f"it is {listed(('granted', 'passed', 'denied EPERM', 'injected 5'), 'or')}"))
        return first, self.answer(first, rest)

    @staticmethod
    def answer(first, rest):
        verdict, most = VERDICTS[first.text], {"denied": 1, "injected": 3}.get(first.text, 0)
        if len(rest) > most:
            raise rest[most].fault(f"{rest[most].text} can't follow `{first.text}`", f"as in `{EXAMPLE}`")
        if first.text == "denied":
            if not rest:
                raise first.fault("a call is denied with an error", "name it, as in `denied EPERM`")
            if rest[0].text not in ERRORS:
                raise rest[0].fault(f"{rest[0].text} is no error that a policy answers", advice(meant(rest[0].text, ERRORS), f"the errors are {listed(ERRORS)}"))
            return {verdict: rest[0].text}
        if first.text == "injected":
            if len(rest) not in (1, 3) or len(rest) == 3 and rest[1].text != "at":
                raise first.fault("a call is given a descriptor of the broker", "name it, as in `injected 5` or `injected 5 at 9`")
            wrong = next((it for it in rest[::2] if not NUMBER.fullmatch(it.text) or int(it.text) > MOST_DESCRIPTOR), None)
            if wrong is not None:
                raise wrong.fault(f"{wrong.text} is no descriptor", "a descriptor is a number, as `5`")
            return dict(zip(("inject", "at"), (int(it.text) for it in rest[::2])))
        return verdict

    def calls(self, says):
        found = []
        while self.next is not None and not options.is_option(self.next):
            word = self.take("the call")
            if word.text not in words.CALL_NAMES or word.is_quoted:
                raise self.no_call(word, found)
            if VERDICTS[says.text] in ANSWERS and word.text not in ANSWERS[VERDICTS[says.text]].calls:
                raise says.fault(f"no rule can say that {word.text} is {says.text}", f"that is for {listed(ANSWERS[VERDICTS[says.text]].calls)}")
            found.append(word)
        if not found:
            raise missing(self.line, "the name of a call", EXAMPLE)
        return found

    @staticmethod
    def no_call(word: Word, before: List[Word]) -> NotUnderstood:
        if before:
            example = {"mount": "source=/dev/sda1", "setxattr": "name=user.mark"}.get(before[0].text, "path=/dev/null")
            return word.fault(f"{word.text} is in the place of a condition", f"a condition is written with its name, as `{example}`")
        other = words.OTHER_CALLS.get(word.text)
        hint = f"did you mean `{other}`? " if other else "" if word.text in words.NOT_NAMED else meant(word.text, words.CALL_NAMES)
        return word.fault(f"{word.text} is no call that a policy names", advice(hint, f"the calls are {listed(words.CALL_NAMES)}"))

    # ---- of which calls

    def conditions(self, calls):
        found = {}
        while self.next is not None:
            word = self.take("a condition")
            if not options.is_option(word):
                raise word.fault(f"{word.text} is in the place of a condition", "conditions are written `KEY=VALUE`, and follow the calls")
            key, value = options.split(word)
            if word.key:
                value = Word(value.text, value.line, value.start, value.end, True)
            self.check_key(word, key, calls, found)
            if not value.text and not word.key:
                raise word.fault(f"nothing follows `{key}=`", f'an empty text is `{key}=""`')
            found[key] = flags_value(value, calls[0].text) if key == "flags" else VALUES.get(key, text_value)(value)
        return found

    @staticmethod
    def check_key(word: Word, key: str, calls: List[Word], found: Dict[str, str]) -> None:
        place = Word(key, word.line, word.start, word.start + len(key))
        if key not in CONDITIONS:
            raise place.fault(f"there is no condition {key}=", advice(meant(key, CONDITIONS), f"the conditions are {listed(CONDITIONS)}"))
        if key in found:
            raise place.fault(f"{key}= is twice on the line", "all conditions have to hold, and each is stated once")
        other = next((it.text for it in calls if it.text not in CONDITIONS[key].calls), None)
        if other:
            raise place.fault(f"`{key}` isn't for {other}", f"it is for {listed(CONDITIONS[key].calls)}")
        if key == "flags" and len({it.text for it in calls}) > 1:
            raise place.fault("mount and setxattr have no flag in common", "write a line for each")


def read(line):
    """The line as a claim on all calls. Raises NotUnderstood."""
    return Reader(line).read()


# ---- what the program says


@dataclass(frozen=True)
class Claims:
    """A file of claims, as `check` takes it: one for each of some lines."""

    lines: tuple

    @property
    def stated(self) -> Dict[str, List[Dict[str, Any]]]:
        return {sense: [it.claim for it in self.lines if it.sense == sense] for sense in SENSES.values()}

    @property
    def data(self) -> bytes:
        """The bytes of the file."""
        return "".join(f"{line}\n" for line in self.shown).encode()

    @property
    def shown(self) -> List[str]:
        """Its lines: one for each claim."""
        lists = [(sense, claims) for sense, claims in self.stated.items() if claims]
        rows = []
        for sense, claims in lists:
            rows.append(f' "{sense}": [')
            rows += [f"  {json.dumps(it)}{',' * (it is not claims[-1])}" for it in claims]
            rows.append(f" ]{',' * (sense != lists[-1][0])}")
        return ["{", *rows, "}"]


@dataclass(frozen=True)
class Checking:
    """Lines on all calls under a policy: the program checks them as claims."""

    policy: str
    claims: Claims

    @property
    def words(self):
        return f"check {self.policy} CLAIMS"

    @property
    def names(self) -> Tuple[int, ...]:
        return tuple(it.line.number for it in self.claims.lines)

    @property
    def shown(self):
        return self.claims.shown

    def answer(self, program: Program) -> bytes:
        """What the program prints of them."""
        return program.asked("check", self.policy, self.claims)

    def results(self, output: bytes) -> List[Result]:
        said = {int(it[2]): it for it in map(LINE.fullmatch, output.splitlines()) if it}
        if set(said) != set(self.names):
            raise asking.NotAsked("what the program printed isn't understood: it doesn't say of each claim whether it holds")
        return [of_line(it, said[it.line.number]) for it in self.claims.lines]


def of_line(line, said):
    """The result of a line."""
    if said[3]:
        raise NotUnderstood(line.conditions.fault("no call meets these conditions, so the line is about nothing", "leave out a condition, or write one that goes with the others").found)
    comes_to, text = said[1].decode(), line.line.text
    if comes_to == "refuted":
        call, rule = said[4].decode("ascii"), said[5].decode("ascii")
        found = f"{call}, which {rule} decides"
    else:
        found = "" if comes_to == "held" else "it isn't known: the policy has too many kinds of calls to be tried"
    return Result(line.line.number, text, "", found, comes_to == "held", REACH)
