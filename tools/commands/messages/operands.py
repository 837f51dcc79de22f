"""What is wrong with an operand of a script's line, and what would be right. Which reason an operand shows is as the program tells it (docs/reference/SCRIPT.md, Refusals of a script)."""
from __future__ import annotations

import errno
import re
from typing import TYPE_CHECKING, Any, Optional, Tuple, Union

from tools.commands.messages import requests
from tools.commands.messages import script_words as words
from tools.commands.messages.findings import advice, joined, listed, meant
from tools.commands.messages.policy_words import ERRORS
from tools.commands.messages.script_lines import NUMBER, Line, Script, Token, is_task, number_of

if TYPE_CHECKING:
    from tools.commands.messages.script_words import Form, Operand

WRONG_FORM, BAD_NUMBER, OUT_OF_RANGE, BAD_PATH, UNKNOWN_NAME = "wrong form", "bad number", "out of range", "bad path", "unknown name"
END_OF_ADDRESSES, PAGE, MOST_PATH, MOST_NAME = 2**47, 4096, 4095, 255
OF_CALLS = "`call` takes numbers: store the text with `poke ADDRESS \"TEXT\\0\"`, and pass ADDRESS"


def form_of(line: Line) -> Form:
    """The form of a line, by its word; of `kill` by the word behind it too, and of a worker's request by what is asked for."""
    if requests.is_request(line) and requests.form_of(line):
        return requests.form_of(line)
    if line.word == "kill" and line.operands and line.operands[0].text in words.KILL_WITH_NUMBER:
        return words.KILL_WITH_NUMBER[line.operands[0].text]
    return words.FORMS[line.word]


def named(line: Line) -> str:
    """What a line is called in a sentence: its word, or what a worker asks for."""
    form = form_of(line)
    return form.words if isinstance(form, requests.Request) else line.word


def words_among(line: Line) -> int:
    """How many of the tokens behind a line's first word are no operands: a worker's number, and the words of what it asks for."""
    form = form_of(line)
    return 1 + len(form.words.split(" ")) if isinstance(form, requests.Request) else 0


def has_words_alone(form: Union[Form, requests.Request]) -> bool:
    return not form.operands or (isinstance(form, requests.Request) and not form.behind)


def is_counted(line: Line) -> bool:
    form = form_of(line)
    most = form.most + 1 if line.word == "kill" and line.operands and line.operands[0].text not in words.WHOM else form.most
    return form.fewest <= len(line.operands) <= most


# ---- which reason an operand shows


def is_name(name: bytes) -> bool:
    return name not in (b"", b".", b"..") and len(name) <= MOST_NAME and b"\0" not in name


def is_path(path: bytes) -> bool:
    return path.startswith(b"/") and len(path) <= MOST_PATH and all(map(is_name, path[1:].split(b"/")))


def text_reason(operand, content):
    if operand.kind == "path" or (operand.kind == "root" and content != b"/"):
        return None if is_path(content) else BAD_PATH
    if operand.kind == "root":
        return None
    fits = operand.least <= len(content) <= operand.most and (operand.zeros or b"\0" not in content)
    return None if fits else OUT_OF_RANGE


def is_in_range(operand: Operand, number: int) -> bool:
    if operand.kind == "page":
        return number % PAGE == 0 and 0 <= number <= END_OF_ADDRESSES
    if operand.kind == "signal":
        return number in words.SIGNALS
    if operand.kind == "handled":
        return number in words.HANDLED
    return operand.least <= number <= operand.most


def begins_number(text: str) -> bool:
    return text[:1] in ("-", *"0123456789")


KNOWN = {"call name": words.CALL_NAMES, "disposition": words.DISPOSITIONS, "listener": ("listener",), "whom": words.WHOM, "via": ("via",), "shift": ("shift",)}
DIGITS = re.compile(r"[0-9a-fA-F]*")


def hex_reason(operand, digits):
    """Why digits aren't the bytes of a structure; how many they are is looked at first."""
    if len(digits) != 2 * operand.most:
        return OUT_OF_RANGE
    return None if DIGITS.fullmatch(digits) else BAD_NUMBER


def reason_of(operand: Operand, token: Token) -> Optional[str]:
    """Why a token can't stand where an operand belongs; None where it can."""
    if token.is_quoted or operand.is_quoted:
        return text_reason(operand, token.content) if token.is_quoted and operand.is_quoted else WRONG_FORM
    if operand.kind == "program":
        return None if len(token.text) <= operand.most else OUT_OF_RANGE
    if operand.kind == "literal":
        return None
    if operand.kind == "hex":
        return hex_reason(operand, token.text)
    if operand.kind in KNOWN:
        return None if token.text in KNOWN[operand.kind] else UNKNOWN_NAME
    if operand.kind == "task":
        return None if is_task(token.text) else BAD_NUMBER
    if operand.kind == "call" and not begins_number(token.text):
        return None if token.text in words.CALL_NAMES else UNKNOWN_NAME
    number = number_of(token.text)
    return BAD_NUMBER if number is None else None if is_in_range(operand, number) else OUT_OF_RANGE


def culprit(line: Line, reason: str) -> Optional[Tuple[Token, Operand]]:
    """The first operand of a line that shows a reason, with what it has to be; None where none does."""
    form = form_of(line)
    pairs = zip(line.operands, (form.operand(place) for place in range(len(line.operands)))) if form.operands else ()
    return next(((token, operand) for token, operand in pairs if reason_of(operand, token) == reason), None)


# ---- what is wrong with it. Each answers the words and the cure


def wrong_form(line: Line, token: Token, operand: Operand) -> Tuple[str, str]:
    if not token.is_quoted:
        text = token.text.strip("'`")
        if token.text[:1] in "'`":
            return f"{operand.called} is in quotes of another kind", f'write `"{text}"`'
        return f"{operand.called} of `{named(line)}` isn't in double quotes", f'write `"{text}"`'
    if line.word == "call":
        return "this is a text, and a call takes an address or a number", OF_CALLS
    inner = Token(token.text[1:-1], token.start + 1, token.end - 1)
    form = form_of(line)
    if operand.name == "COUNT" and line.word == "w":
        return f"{token.text} is in quotes", requests.A_REQUEST
    return f"{operand.called} of `{named(line)}` is in quotes", f"the line is `{form.usage}`, as in `{form.example}`" if reason_of(operand, inner) else f"write `{inner.text}`"


def packed(major: int, minor: int) -> int:
    """A device as one number (makedev(3))."""
    return (major & 0xFFF) << 8 | (major & ~0xFFF) << 32 | minor & 0xFF | (minor & ~0xFF) << 12


def in_c(text: str) -> Optional[int]:
    """The number that a part of an expression of C is, or None."""
    if text in words.CONSTANTS:
        return words.CONSTANTS[text]
    if re.fullmatch(r"0[0-7]+", text):
        return int(text, 8)
    return number_of(text)


def written(number: int, text: str) -> str:
    """A number as a script has it, in octal where that is how it was meant."""
    return f"0o{number:o}" if number >= 0 and re.search(r"S_I|O_|\b0[0-7]", text) else str(number)


def meant_number(text):
    """The number that was likely meant, as a script writes it, or None."""
    plain = text.replace("_", "").replace("'", "").replace(",", "")
    parts = [in_c(part) for part in text.split("|")]
    if all(part is not None for part in parts):
        value = 0
        for part in parts:
            value |= part
        return written(value, text)
    if re.fullmatch(r"-?0[XO][0-9a-fA-F]+", text):
        return text.lower() if number_of(text.lower()) is not None else None
    if re.fullmatch(r"0[bB][01]{1,64}", text):
        return hex(int(text, 2))
    if re.fullmatch(r"\+.+", text) and number_of(text[1:]) is not None:
        return text[1:]
    suffix = re.fullmatch(r"(.+?)[uUlL]{1,3}", text)
    if suffix and number_of(suffix[1]) is not None:
        return suffix[1]
    sized = re.fullmatch(r"(\d{1,9})([KMGT])iB", text, re.ASCII)
    if sized:
        return str(int(sized[1]) << 10 * (1 + "KMGT".index(sized[2])))
    if plain != text and number_of(plain) is not None:
        return plain
    return f"0x{text.lower()}" if re.fullmatch(r"(?=.*\d)(?=.*[a-fA-F])[0-9a-fA-F]{2,16}", text) else None


HOW = "a number is decimal, hexadecimal with `0x`, or octal with `0o`"


def bad_number(line, token, operand, script):
    text = token.text
    if operand.kind == "task":
        return bad_task(text, script)
    if operand.kind == "hex":
        at = DIGITS.match(text).end()
        return f"{text[at]} is no hexadecimal digit", "the bytes of a structure are written as they lie in memory, two digits for each"
    if operand.name == "COUNT" and requests.no_count(line):
        return requests.no_count(line)
    of_answer = answer_of(operand, text)
    if of_answer:
        return f"{text} is no number", f"write `{of_answer}`; `{form_of(line).usage}` has the fields of a struct seccomp_notif_resp"
    device = re.fullmatch(r"(\d{1,9})[:,](\d{1,9})", text, re.ASCII)
    if device:
        major, minor = int(device[1]), int(device[2])
        if operand is requests.DEV:
            return f"{text} is no number", f"a request has a device as one number, as makedev(3) packs it: `{packed(major, minor)}` is {major}:{minor}"
        if line.word in ("chr", "blk"):
            return f"{text} is no number", f"the two numbers of a device are two words: `{major} {minor}`"
        if line.word == "call":
            return f"{text} is no number", f"a call takes a device as one number, as makedev(3) packs it: `{packed(major, minor)}` is {major}:{minor}"
    if line.word == "call" and "/" in text:
        return f"{text} is no number", OF_CALLS
    if line.word == "w" and re.fullmatch(r"w\d{1,2}", text):
        return f"{text} is no number", f"a worker is named by its number alone: `w {text[1:]}`"
    right = meant_number(text)
    if right is not None:
        if "|" in text or text in words.CONSTANTS:
            return f"{text} is no number", f"a script has no {'names of C' if re.search('[A-Z_]{3}', text) else '`|`'}: write `{right}`"
        return f"{text} is no number", f"write `{right}`; {HOW}"
    if re.fullmatch(r"-?0o\d+", text, re.ASCII) and re.search("[89]", text):
        return f"{text} is no number", "an octal number has the digits 0 to 7 alone"
    if NUMBER.match(text) and re.fullmatch(r"-?(?:0[xo])?[0-9a-fA-F]+", text):
        return f"{text} is no number", f"{HOW}, with at most 20, 16 or 22 digits"
    return f"{text} is no number", f"{HOW}; {operand.called} of `{named(line)}` is one, as in `{form_of(line).example}`"


def answer_of(operand: Operand, text: str) -> Optional[int]:
    """The number that a name of an error, or of a flag, stands for in an answer; None where it isn't one."""
    if operand.name == "ERROR" and text.lstrip("-") in ERRORS:
        return -getattr(errno, text.lstrip("-"))
    if operand is requests.SMALL_FLAGS and text.lower() in ("continue", "seccomp_user_notif_flag_continue"):
        return 1
    return None


def bad_task(text: str, script: Script) -> Tuple[str, str]:
    """A word that names no task."""
    rule = "tasks are named by their place: `0` is the first one, and `0.2` the second that it starts"
    named = [program.name for program in script.programs]
    if text in named:
        return f"{text} is a program, and no task", advice("task `0` runs it. " if text == named[-1] else "", rule)
    bare = text[1:] if text[:1] == "t" else text
    if is_task(bare):
        return f"{text} is no task's name", advice(f"write `{bare}`. ", rule)
    if re.fullmatch(r"0(\.\d{1,6})+", text):
        return f"{text} is no task's name", f"children are counted from 1, without leading zeros; {rule}"
    if re.fullmatch(r"[1-9]\d{0,5}(\.[1-9]\d{0,5})*", text):
        return f"{text} is no task's name", advice(f"did you mean `0.{text}`? ", rule)
    return f"{text} is no task's name", rule


POWERS = {-(2**63): "-2^63", 2**63 - 1: "2^63 - 1", words.WIDE: "2^64 - 1"}


def span(operand: Operand) -> str:
    """The range of a number, in words."""
    if operand.kind == "page":
        return "a multiple of 4096 up to 2^47"
    if operand.kind in ("signal", "handled"):
        numbers = words.SIGNALS if operand.kind == "signal" else words.HANDLED
        return joined((f"{number} ({name})" for name, number in words.NAMES_OF_SIGNALS.items() if number in numbers), "or")
    return f"{POWERS.get(operand.least, operand.least)} to {POWERS.get(operand.most, operand.most)}"


def out_of_range(line, token, operand):
    if token.is_quoted:
        return text_out_of_range(line, token, operand)
    if operand.kind == "program":
        return f"the name has {len(token.text)} bytes", "a program's name has at most 64"
    if operand.kind == "hex":
        return requests.hex_out_of_range(token, operand)
    number = number_of(token.text)
    if operand.kind == "page" and 0 <= number < END_OF_ADDRESSES:
        return f"{token.text} isn't the address of a page", f"a page begins at {span(operand)}: write `{hex(number - number % PAGE)}` or `{hex(number - number % PAGE + PAGE)}`"
    if operand.kind == "handled" and number == 9:
        return "no handler is run for SIGKILL", f"SIGNAL of `handler` is {span(operand)}"
    if line.word == "map" and operand.name == "N" and number % PAGE == 0 and 1 <= number // PAGE <= operand.most:
        return f"{token.text} is outside of the range of N", f"N of `map` counts pages of {PAGE} bytes: write `{number // PAGE}`"
    octal = f"; in C {token.text} is octal, which is written `0o{token.text}` here" if is_like_octal(token.text) else ""
    return f"{token.text} is outside of the range of {operand.name}", f"{operand.name} of `{named(line)}` is {span(operand)}{octal}"


def is_like_octal(text: str) -> bool:
    """Whether C reads a decimal number of a script as an octal one, and so as another."""
    return re.fullmatch(r"0+[1-7][0-7]+", text) is not None


def text_out_of_range(line: Any, token: Any, operand: Any) -> Any:
    if not operand.zeros and b"\0" in token.content:
        hint = "leave out the `\\0` at its end: only the bytes of `poke` need one" if token.content.endswith(b"\0") else "leave it out"
        return f"{operand.name} has a zero byte", hint
    return f"{operand.name} has {len(token.content)} bytes", f"{operand.name} of `{named(line)}` has {operand.least} to {operand.most}"


def bad_path(token: Any) -> Any:
    """What is wrong with a path by itself; None where it is one."""
    content = token.content
    if content.endswith(b"\0"):
        return "the path has a zero byte", "leave out the `\\0` at its end: only the bytes of `poke` need one"
    if b"\0" in content:
        return "the path has a zero byte", "leave it out"
    if len(content) > MOST_PATH:
        return f"the path has {len(content)} bytes", f"a path has at most {MOST_PATH}"
    text = content.decode("utf-8", "surrogateescape")
    if text == "/":
        return "`/` is there already", "name what lies in it, as `/dev`"
    if not text.startswith("/"):
        return "the path isn't absolute", f'write `"/{text.lstrip("./")}"`' if text.strip("./") else 'a path begins with `/`, as `"/dev"`'
    names = text[1:].split("/")
    if "." in names or ".." in names:
        return "`.` and `..` are no names", "write the path without them"
    if "" in names:
        right = "/" + "/".join(filter(None, names))
        return "a name of the path is empty", f'write `"{right}"`' if right != "/" else "a path has a name after each slash"
    if any(len(name.encode("utf-8", "surrogateescape")) > MOST_NAME for name in names):
        return "a name of the path is too long", f"a name has at most {MOST_NAME} bytes"
    return None


def unknown_name(line: Line, token: Token, operand: Operand, script: Script) -> Tuple[str, str]:
    text = token.text
    if operand.kind in ("call", "call name"):
        return unknown_call(line, text)
    if operand.kind in ("via", "shift"):
        return f"{text} is in the place of `{operand.kind}`", "after a mount's data come `shift`, `via \"PROGRAM\"`, or both in the order `via \"PROGRAM\" shift`"
    if operand.kind == "whom":
        number = f"write `kill pid {text} ..` for a PID. " if text.isdecimal() else meant(text, words.WHOM)
        return f"`kill` knows nobody named {text}", advice(number, f"it is {listed(words.KILL_FORMS, 'or')}")
    if operand.kind == "disposition":
        other = {"SA_RESTART": "restart", "ignore": None, "SIG_DFL": "default", "norestart": "plain"}.get(text)
        return f"{text} is no mode of a handler", advice(f"did you mean `{other}`? " if other else meant(text, words.DISPOSITIONS), f"the modes are {listed(words.DISPOSITIONS)}")
    return f"only `listener` may follow `filter`, not {text}", advice(meant(text, ("listener",)), "write `filter`, or `filter listener` for the one that notifies the broker")


def unknown_call(line, text):
    if text.rstrip(",") in words.CALL_NAMES:
        return f"{text} is no call that a script names", f"write `{text.rstrip(',')}`: only blanks are between names"
    other = words.OTHER_CALLS.get(text)
    hint = f"did you mean `{other}`? " if other else meant(text, words.CALL_NAMES)
    more = "another call is made by its number, as `call 39`"
    if line.word != "call":
        more = "calls are named here, and not numbered" if begins_number(text) else "a filter of your own can notify other calls"
    return f"{text} is no call that a script names", advice(hint, f"the names are {listed(words.CALL_NAMES)}; {more}")
