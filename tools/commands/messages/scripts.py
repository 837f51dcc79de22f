"""Explains why the program refuses a script: the line and the reason that it named lead to the place, to what is wrong and to what would be right."""
from __future__ import annotations

import re
from typing import Any, Callable, List, Optional, Tuple

from tools.commands.messages import filters, limits, operands, requests
from tools.commands.messages import script_words as words
from tools.commands.messages.findings import Text, advice, listed, meant, whole_file
from tools.commands.messages.script_lines import FILTER, PROGRAM, SCHEDULE, SETTINGS, Line, LineFault, Script, Token, number_of, script_of, tokens_of

FIRST_MAP = ((0x10000, 16),)
# what is said where the place in the line can't be told, by the reason that the program names (docs/reference/SCRIPT.md, Refusals of a script)
PLAIN = {
    "bad byte": "this byte is no blank, and begins no token",
    "bad quote": "a quoted text isn't closed, has a byte or an escape that it may not have, or touches another token",
    "unknown word": "the line begins with a word that a script doesn't have",
    "out of place": "the word belongs to another part of the script",
    "wrong count": "there are too few operands, or too many",
    "wrong form": "an operand that must be quoted isn't, or one that mustn't be quoted is",
    "bad number": "an operand isn't a number, or isn't the name of a task",
    "out of range": "a number, a length or a byte is outside its range, or mapped ranges overlap",
    "bad path": "the path breaks its rules, its directory isn't stated above, or a line above has the same path",
    "unknown name": "the name of a call, a program or a signal's disposition isn't known, or a word after `kill` or `filter` isn't",
    "duplicate": "this may be stated once, and is stated again",
    "unmapped": "a byte is stored in memory that isn't mapped",
    "second listener": "a second filter has the listener",
    "no listener": "`killable` comes before the listener's line",
    "bad filter": "the filter has a fault",
    "too large": "the line exceeds one of the limits of a script",
    "not closed": "the block that begins here has no `end`",
    "no program": "there is no program",
}


class Asked:
    """A line that the program refuses, with the script above it."""

    def __init__(self, text: Any, line: int) -> None:
        self.text, self.number = text, line
        self.script = script_of(text, line - 1)
        self.line = Line(line, tokens_of(text.line(line)))

    @property
    def first(self) -> Token:
        return self.line.tokens[0]

    def at(self, token: Any, told: Any) -> Any:
        return (token.start, token.end, *told)

    def on_word(self, told: str, cure: str) -> Tuple[int, int, str, str]:
        return self.at(self.first, (told, cure))


def comment_behind(line: Line) -> Optional[Token]:
    """The token with which a comment begins behind a statement, or None."""
    names = 1 if line.word in ("prog", "spawn", "thread") else 0
    return next((token for token in line.operands[names:] if not token.is_quoted and token.text.startswith(("#", "//", ";"))), None)


# ---- the reasons. Each answers from where to where, what is wrong and what would be right, or None where it finds nothing


def unknown_word(asked: Any) -> Any:
    first, text = asked.first, asked.first.text
    if first.is_quoted:
        return asked.on_word("a line begins with a word, and this is a quoted text", "write the word without quotes, as in `poke 0x10000 \"/null\\0\"`")
    if text.startswith(("//", ";", "--", "/*")):
        return asked.on_word(f"{text} begins no comment here", "a comment is a line of its own that begins with `#`")
    if requests.is_request(asked.line):
        return asked.at(asked.line.operands[2], requests.unknown_call(asked.line.operands[2]))
    if asked.script.part == SCHEDULE and of_session(asked):
        return asked.on_word(*of_session(asked))
    if text in words.CALL_NAMES:
        return asked.on_word(f"{text} is the name of a call, and no word of a script", f"a program makes a call by `call {text} ..`; a filter notifies it by `notify {text}`")
    if re.fullmatch(r"[wt]\d[\d.]*", text):
        return asked.on_word(f"{text} is no word of a script", f"put a blank between: `{text[0]} {text[1:]}`")
    part = asked.script.part
    known = [form.word for form in words.ALL_FORMS if form.part == part or (not form.part and part != SETTINGS)]
    other = words.OTHER_WORDS.get(text.lower())
    hint = f"did you mean `{other}`? " if other else meant(text, known) or meant(text, words.FORMS)
    return asked.on_word(f"{text} is no word of a script", advice(hint, belongs_to(part, known)))


def of_session(asked: Asked) -> Optional[Tuple[str, str]]:
    """What is wrong with a line of a session, or of a report, in a schedule; None of another line."""
    text, whole = asked.first.text, asked.text.line(asked.number).strip()
    if requests.OF_SESSION.fullmatch(text):
        return f"`{text}` is before a line of a session", "a schedule has only the requests: leave out `> `, and the lines of answers, which begin with `< `"
    if text in requests.OF_SESSIONS:
        return f"`{text}` is a request of `step`, and no step", f"leave the line out: {requests.OF_SESSIONS[text]}"
    event = requests.OF_JOURNAL.match(whole)
    if event:
        right = f"write `t {event[2]}`" if event[1] == "t" else f"write `w {event[2]}` and the worker's request, as `w {event[2]} recv`"
        return "this is a line of a journal", f"{right}; `script` of `step` prints a session as a script"
    return None


def belongs_to(part: str, known: List[str]) -> str:
    """A sentence with the words that may stand in a part."""
    names = {SETTINGS: "among the settings", FILTER: "in a filter", PROGRAM: "in a program", SCHEDULE: "in a schedule"}
    return f"{names[part]} are {listed(known)}" if part in names else f"after a program's `end` come {listed(['prog', 'schedule'])}"


def out_of_place(asked: Asked) -> Tuple[int, int, str, str]:
    word, script = asked.line.word, asked.script
    block = script.open
    if word == "end":
        return asked.on_word("no block is open that this `end` could close", "remove it, or open the block by `prog NAME`, `filter` or `schedule` further up")
    if word == "pidmax" and script.part == SETTINGS:
        return asked.on_word(f"`pidbase` of line {script.named('pidbase')[0].number} comes before it", "put the line `pidmax` before the line `pidbase`")
    if block is None:
        return misplaced(asked, word, script)
    ended = next((line for line in block.lines if line.word == "exit"), None)
    if block.kind == PROGRAM and ended:
        return asked.on_word(f"nothing follows the `exit` of line {ended.number}", "close the program by `end`, or remove the `exit`: a program exits at its end")
    if block.kind == SCHEDULE and word == "w":
        mixed = requests.mixed(asked.line, block.lines)
        return mixed and asked.on_word(*mixed)
    inside = f"the {block.kind} of line {block.opening.number} isn't closed yet"
    if word in words.BLOCKS:
        return asked.on_word(f"{inside}, and `{word}` opens another block", "put `end` before this line")
    part = words.FORMS[word].part
    if part == SETTINGS and block.kind == FILTER:
        return asked.on_word(f"{inside}, and `{word}` is a setting", "put `end` before this line")
    if part == SETTINGS:
        return asked.on_word(f"{inside}, and `{word}` is a setting", "settings come before the first program: put the line there")
    return asked.on_word(f"{inside}, and `{word}` is a line of a {part}", f"put `end` before it if the {block.kind} ends here; a line `{word}` is inside of a {part}")


def misplaced(asked: Asked, word: str, script: Script) -> Tuple[int, int, str, str]:
    """A word outside of all blocks."""
    part = words.FORMS[word].part
    if script.schedule and word in words.BLOCKS:
        return asked.on_word(f"the schedule of line {script.schedule.opening.number} is the last part of a script",
                             "put all steps into one schedule" if word == "schedule" else "put programs and filters before the schedule")
    if part == SETTINGS:
        first = next(block for block in script.blocks if block.kind != FILTER)
        return asked.on_word(f"`{word}` is a setting, and line {first.opening.number} has begun the {'programs' if first.kind == PROGRAM else 'schedule'}",
                             f"put it above line {first.opening.number}: first the settings, then the programs, then the schedule")
    opening = {PROGRAM: "prog NAME", SCHEDULE: "schedule", FILTER: "filter"}[part]
    return asked.on_word(f"`{word}` is a line of a {part}, and none is open", f"put it between `{opening}` and its `end`")


def wrong_count(asked: Any) -> Any:
    line, form = asked.line, operands.form_of(asked.line)
    if requests.is_request(line) and requests.form_of(line) is None:
        return asked.at(line.operands[1], requests.no_call())
    if requests.no_count(line):
        return asked.at(line.operands[1], requests.no_count(line))
    if operands.is_counted(line):
        return None
    tokens = line.operands
    few = len(tokens) < form.fewest
    start = tokens[form.most].start if not few else line.tokens[-1].start
    number = len(tokens) - operands.words_among(line)
    count = f"{number} {'operand' if number == 1 else 'operands'}" if number else "no operand"
    if line.word == "kill" and not (tokens and tokens[0].text in words.WHOM):
        form_text = f"it is {listed(words.KILL_FORMS, 'or')}"
    elif line.word == "poke" and not few and not tokens[1].is_quoted:
        form_text = 'put the bytes into double quotes, as `poke 0x10000 "/dev/null\\0"`'
    else:
        usage = form.usage if not form.operands or line.word != "kill" else f"kill {tokens[0].text} " + " ".join(it.name for it in form.operands[1:])
        form_text = f"the line is `{usage}` alone" if operands.has_words_alone(form) else f"the line is `{usage}`, as in `{form.example}`"
    return (start, line.tokens[-1].end, f"`{operands.named(line)}` has {count} here, which is too {'few' if few else 'many'}", form_text)


def of_operand(reason: str, explain: Callable[..., Any]) -> Callable[..., Any]:
    """An explanation of the first operand that shows a reason by itself."""

    def explained(asked: Any) -> Any:
        found = operands.culprit(asked.line, reason)
        return asked.at(found[0], explain(asked, *found)) if found else None

    return explained


def out_of_range(asked):
    line, found = asked.line, operands.culprit(asked.line, operands.OUT_OF_RANGE)
    if found:
        return asked.at(found[0], operands.out_of_range(line, *found))
    if line.word == "map":
        return overlapping(asked)
    if line.word == "pidbase":
        most = next((number_of(it.operands[0].text) for it in asked.script.named("pidmax")), 32_768)
        base = words.GREATEST_PID - most
        cure = f"pidbase is at most {base} here; a smaller `pidmax` above this line allows more"
        return asked.at(line.operands[0], (f"with {most} PIDs (pidmax) the last would be above {words.GREATEST_PID}", cure))
    return None


def ranges(script: Any) -> Any:
    """The stated ranges of memory: from where, how many pages, and the line."""
    return [(number_of(line.operands[0].text), number_of(line.operands[1].text), line.number) for line in script.named("map")]


def overlapping(asked):
    start, pages = (number_of(token.text) for token in asked.line.operands)
    end = start + pages * operands.PAGE
    for other, count, number in ranges(asked.script):
        if start < other + count * operands.PAGE and other < end:
            told = f"these pages end at {end:#x}, and overlap with those of line {number}, {other:#x} to {other + count * operands.PAGE:#x}"
            return (asked.line.operands[0].start, asked.line.operands[-1].end, told, "mapped ranges don't overlap: begin after the other one, or map fewer pages")
    return (asked.line.operands[0].start, asked.line.operands[-1].end, f"these pages end at {end:#x}", "a range ends at 2^47 (0x800000000000) at most") if end > operands.END_OF_ADDRESSES else None


def bad_path(asked: Any) -> Any:
    line = asked.line
    token = line.operands[0]
    alone = operands.bad_path(token)
    if alone and not (line.word == "root" and token.content == b"/"):
        return asked.at(token, alone)
    stated = {it.operands[0].content: it for it in asked.script.named(*words.NODES)}
    path = token.content
    name = path.decode("utf-8", "replace")
    if line.word in ("attr", "root"):
        if path in stated:
            return asked.at(token, (f"line {stated[path].number} states {name} as `{stated[path].word}`, and a root is a directory", f'write `dir "{name}"` there'))
        return asked.at(token, (f"no line above states {name}", f'put `{"dir" if line.word == "root" else "reg"} "{name}"` above this line'))
    if path in stated:
        return asked.at(token, (f"line {stated[path].number} states {name} already", "state each path once"))
    parent = path.rpartition(b"/")[0]
    above = parent.decode("utf-8", "replace")
    if parent in stated:
        told = f"{above} of line {stated[parent].number} is a `{stated[parent].word}`, and no directory"
        return asked.at(token, (told, f'state {above} by `dir "{above}"`, or choose another path'))
    return asked.at(token, (f"the directory {above} isn't stated above", f'put `dir "{above}"` above this line')) if parent else None


def unknown_name(asked: Any) -> Any:
    found = operands.culprit(asked.line, operands.UNKNOWN_NAME)
    if found:
        return asked.at(found[0], operands.unknown_name(asked.line, *found, asked.script))
    if asked.line.word not in ("spawn", "thread"):
        return None
    token = asked.line.operands[0]
    closed = [program.name for program in asked.script.programs if program.end]
    if asked.script.open and asked.script.open.name == token.text:
        return asked.at(token, (f"{token.text} is this very program, and can't start itself", "a program starts only programs above it: write one more for the child"))
    below = next((it for it in script_of(asked.text).programs if it.name == token.text and it.opening.number > asked.number), None)
    if below:
        return asked.at(token, (f"{token.text} is below, in line {below.opening.number}", "a program starts only programs above it: put that one above this one"))
    known = f"the only program above is {listed(closed)}" if len(closed) == 1 else f"the programs above are {listed(closed)}" if closed else "put the child's program above this one"
    return asked.at(token, (f"no program above has the name {token.text}", advice(meant(token.text, closed), known)))


def duplicate(asked: Any) -> Any:
    line, script = asked.line, asked.script
    if line.word == "prog":
        other = next((it.opening for it in script.programs if it.name == line.operands[0].text), None)
        return other and asked.at(line.operands[0], (f"line {other.number} has a program of this name already", "give each program a name of its own"))
    if line.word == "broker":
        other = next((it for it in script.named("broker") if number_of(it.operands[0].text) == number_of(line.operands[0].text)), None)
        return other and asked.at(line.operands[0], (f"line {other.number} states the broker's descriptor {line.operands[0].text} already", "state each descriptor once"))
    other = next(iter(script.named(line.word)), None)
    return other and asked.on_word(f"line {other.number} has `{line.word}` already", "it may be there once: remove one of the two lines")


def unmapped(asked):
    line = asked.line
    start = number_of(line.operands[0].text)
    length = len(line.operands[1].content) if line.word == "poke" else number_of(line.operands[1].text)
    stated = ranges(asked.script)
    mapped = sorted((it[:2] for it in stated) if stated else FIRST_MAP)
    at = start
    for first, pages in mapped:
        at = max(at, first + pages * operands.PAGE) if first <= at else at
    if at >= start + length or start < 0:
        return None
    known = " and ".join(f"{first:#x} to {first + pages * operands.PAGE - 1:#x}" for first, pages in mapped)
    page = at - at % operands.PAGE
    cure = f"store it elsewhere, or add `map {page:#x} 1` to the settings"
    if not stated:
        cure += ", and `map 0x10000 16` with it: the default holds only if there is no line `map`"
    return asked.at(line.operands[0], (f"nothing is mapped at {at:#x}; mapped is {known}", cure))


def second_listener(asked: Any) -> Any:
    first = next((it for it in [*asked.script.settings, *(block.opening for block in asked.script.blocks)] if it.word == "notify" or (it.word == "filter" and it.operands)), None)
    if first is None:
        return None
    both = asked.line.word == first.word == "notify"
    cure = f"name all calls in line {first.number}, as `notify mknod mount`" if both else "only one filter has the listener: leave it out here, or there"
    return asked.on_word(f"line {first.number} has the listener already", cure)


def no_listener(asked: Asked) -> Tuple[int, int, str, str]:
    return asked.on_word("`killable` is about the listener, and no line above has one", "put it below the line `notify ..`, or below the filter with the listener")


def bad_filter(asked: Any) -> Any:
    found = filters.fault_of(asked.script.open, asked.line)
    return found and (found[0].tokens[0].start, found[0].tokens[-1].end, *found[1:]) + (found[0].number,)


def too_large(asked: Asked) -> Tuple[int, int, str, str]:
    found = limits.exceeded(asked.script, asked.line)
    return found and asked.on_word(*found)


def not_closed(asked: Asked) -> Tuple[int, int, str, str]:
    word = asked.line.word
    return asked.on_word(f"`{word}` opens a block that has no `end`", f"put a line `end` after the {'last instruction' if word != 'schedule' else 'last line of the schedule'}")


REASONS = {
    "unknown word": unknown_word, "out of place": out_of_place, "wrong count": wrong_count,
    "wrong form": of_operand(operands.WRONG_FORM, lambda asked, token, operand: operands.wrong_form(asked.line, token, operand)),
    "bad number": of_operand(operands.BAD_NUMBER, lambda asked, token, operand: operands.bad_number(asked.line, token, operand, script_of(asked.text))),
    "out of range": out_of_range, "bad path": bad_path, "unknown name": unknown_name, "duplicate": duplicate, "unmapped": unmapped, "second listener": second_listener,
    "no listener": no_listener, "bad filter": bad_filter, "too large": too_large, "not closed": not_closed,
}
WITH_COMMENTS = ("wrong count", "wrong form", "bad number", "unknown name")


def place_and_words(asked, reason):
    """What the reason means in this line: from where to where, what is wrong, what would be right, and maybe another line."""
    comment = comment_behind(asked.line) if reason in WITH_COMMENTS else None
    if comment:
        return (comment.start, len(asked.text.line(asked.number).rstrip("\r")), "a comment follows a statement", "a comment is a line of its own that begins with `#`: put it above this line")
    explain = REASONS.get(reason)
    return explain(asked) if explain else None


def finding_of_requests(data: bytes) -> Any:
    """What it means that a word refuses a schedule, since a worker of another broker asks for something there."""
    text = Text(data)
    schedule = script_of(text).schedule
    line = next((it for it in schedule.lines if requests.is_request(it)), None) if schedule else None
    if line is None:
        return None
    start = text.starts[line.number - 1]
    return text.finding("requests-in-the-schedule", start + line.tokens[0].start, start + line.tokens[-1].end, "this is what a worker of another broker asks for",
                        "`handover` replaces this project's own worker, whose steps are counted, as in `w 0 9`; `play` plays this schedule")


def finding_of(data: bytes, number: int, reason: str) -> Any:
    """What the program's refusal of a script means, by the line and the reason that it named."""
    text, name = Text(data), reason.replace(" ", "-")
    if reason == "no program":
        return whole_file(name, "the script has no program", "add the program of task 0: `prog main`, its instructions, and `end`")
    line = text.line(number)
    first = len(text.whole) - len(text.whole.lstrip())
    if text.whole.startswith("{", first) and number == text.line_of(first):
        return text.finding("json", first, first + 1, "this looks like JSON, and the script comes second", "give the policy's file first, and then the script's")
    try:
        asked = Asked(text, number)
        found = place_and_words(asked, reason) if asked.line.tokens else None
    except LineFault as fault:
        found = fault.found
    if found is None:
        start = len(line) - len(line.lstrip())
        return text.finding(name, text.starts[number - 1] + start, text.starts[number - 1] + len(line.rstrip()), PLAIN.get(reason, reason), "") if number <= len(text.lines) else None
    start, end, told, cure, *other = found
    at = text.starts[(other[0] if other else number) - 1]
    return text.finding(name, at + start, at + end, told, cure)
