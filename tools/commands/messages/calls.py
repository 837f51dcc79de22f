"""Explains why the program refuses a file of calls: the line and the reason that it named lead to the place, to what is wrong and to what would be right."""
from __future__ import annotations

import re
from dataclasses import dataclass
from typing import Any, List, Optional, Tuple

from tools.commands.messages import policy_words
from tools.commands.messages.findings import Text, advice, listed, meant
from tools.commands.messages.operands import in_c, written
from tools.commands.messages.script_lines import Line, LineFault, Token, number_of, tokens_of
from tools.commands.messages.script_words import CALL_NAMES, FORMS as SCRIPT_FORMS, OTHER_CALLS
from tools.commands.real_workloads.named_numbers import MOUNT_FLAGS, OTHER_NAMES
from tools.commands.real_workloads.script_text import CALLS

WRONG_COUNT, WRONG_FORM, BAD_NUMBER, OUT_OF_RANGE, UNKNOWN_NAME = "wrong count", "wrong form", "bad number", "out of range", "unknown name"
# what is said where the place in the line can't be told, by the reason that the program names (docs/reference/OUTPUTS.md, An explanation)
PLAIN = {
    "bad byte": "this byte is no blank, and begins no token",
    "bad quote": "a quoted text isn't closed, has a byte or an escape that it may not have, or touches another token",
    "unknown word": "the line doesn't begin with the name of a call",
    WRONG_COUNT: "an operand is missing, or is one too many",
    WRONG_FORM: "an operand that must be quoted isn't, or one that mustn't be quoted is",
    BAD_NUMBER: "an operand isn't a number, or a device isn't written MAJOR:MINOR",
    OUT_OF_RANGE: "a number is outside its range, `other` has the number of a call that has a name, or a text has a zero byte",
    UNKNOWN_NAME: "a kind or a flag isn't known, or is another call's",
}
# the bits of flags, by their names
BITS = {"mount": {name: MOUNT_FLAGS[f"MS_{name}"] for name in policy_words.FLAGS["mount"]}, "setxattr": {name: OTHER_NAMES[f"XATTR_{name}"] for name in policy_words.FLAGS["setxattr"]}}
DEVICES = ("chr", "blk")
# lines of a report, and the requests in those of a journal
OF_REPORT = re.compile(r"\d+ (?:-|listener|[tw]\d[\d.]*) (?:act (.*) \S+|.*)")
MOUNT_OF_REPORT = re.compile(r'(mount .*) flags=(\d+) data=(".*") via=\S+ shift=[01]')
ATTRIBUTE_OF_REPORT = re.compile(r"(setxattr .*) (-|(?:[0-9a-f]{2})+) flags=(\d+)")
# words that others have for a kind of node, and for a flag
OTHER_KINDS = {"c": "chr", "char": "chr", "u": "chr", "b": "blk", "block": "blk", "p": "fifo", "pipe": "fifo", "s": "sock", "socket": "sock", "f": "reg", "file": "reg", "regular": "reg"}
OTHER_FLAGS = {"ro": "RDONLY", "sync": "SYNCHRONOUS", "rbind": "BIND,REC", "mand": "MANDLOCK"}
MOST_PERMISSIONS, MOST_NUMBER = 0o7777, 2**31 - 1
A_DEVICE = "a device is written MAJOR:MINOR, decimal without leading zeros, up to 4095 and 1048575, as `1:3`"


@dataclass(frozen=True)
class Operand:
    name: str
    kind: str
    example: str = ""


PATH, SOURCE, TARGET, TYPE, DATA = Operand("PATH", "text"), Operand("SOURCE", "text"), Operand("TARGET", "text"), Operand("TYPE", "text"), Operand("DATA", "text")
NAME, VALUE = Operand("NAME", "text"), Operand("VALUE", "bytes")
KIND, DEVICE, MODE, DIRFD, NUMBER = Operand("KIND", "kind", "chr"), Operand("MAJOR:MINOR", "device", "1:3"), Operand("mode=NUMBER", "mode", "mode=0o600"), Operand("DIRFD", "dirfd", "3"), Operand("NUMBER", "number", "321")
FLAGS_OF = {call: Operand("FLAGS", f"flags of {call}", example) for call, example in (("mount", "RDONLY,NODEV"), ("setxattr", "CREATE"))}
USAGE = {
    "mknod": ("mknod PATH KIND [MAJOR:MINOR] [mode=NUMBER]", 'mknod "/dev/null" chr 1:3'),
    "mknodat": ("mknodat DIRFD PATH KIND [MAJOR:MINOR] [mode=NUMBER]", 'mknodat 3 "x" blk 8:0 mode=0o600'),
    "mount": ("mount SOURCE TARGET TYPE [FLAGS [DATA]]", 'mount "/dev/sdb1" "/mnt" "ext4" RDONLY,NODEV "ro"'),
    "setxattr": ("setxattr PATH NAME VALUE [FLAGS]", 'setxattr "/f" "user.mark" "1" CREATE'),
    "openat": ("openat DIRFD PATH", 'openat AT_FDCWD "d"'),
    "other": ("other NUMBER", "other 321"),
    **{name: (name, name) for name in ("sysinfo", "close", "getpid")},
}


class Fault(Exception):
    """The first fault of a line: its reason, the token that shows it, and what it should be; of a count no operand."""

    def __init__(self, reason: str, token: Token, operand: Optional[Operand] = None, few: bool = False) -> None:
        super().__init__(reason)
        self.reason, self.token, self.operand, self.few = reason, token, operand, few


# ---- what a line is, as docs/reference/OUTPUTS.md has it


def items_of(text: str) -> List[str]:
    """The items of a list: empty ones are skipped."""
    return [item for item in text.split(",") if item]


def is_device(text: str) -> bool:
    found = re.fullmatch(r"(0|[1-9]\d{0,6}):(0|[1-9]\d{0,6})", text, re.ASCII)
    return found is not None and int(found[1]) <= 4095 and int(found[2]) <= 1_048_575


def within(number: Optional[int], least: int, most: int) -> Optional[str]:
    return BAD_NUMBER if number is None else None if least <= number <= most else OUT_OF_RANGE


def reason_of(operand: Any, token: Any) -> Optional[str]:
    """Why a token can't stand where an operand belongs; None where it can."""
    kind, text = operand.kind, token.text
    if kind in ("text", "bytes") or token.is_quoted:
        fits = token.is_quoted and kind in ("text", "bytes")
        return WRONG_FORM if not fits else OUT_OF_RANGE if kind == "text" and b"\0" in token.content else None
    if kind == "kind":
        return None if text in policy_words.KINDS else UNKNOWN_NAME
    if kind == "device":
        return None if is_device(text) else BAD_NUMBER
    if kind == "mode":
        return within(number_of(text[5:]), 0, MOST_PERMISSIONS) if text.startswith("mode=") else UNKNOWN_NAME
    if kind == "dirfd":
        return None if text == "AT_FDCWD" else within(number_of(text), -MOST_NUMBER - 1, MOST_NUMBER)
    if kind == "number":
        return within(number_of(text), 0, MOST_NUMBER) or (OUT_OF_RANGE if number_of(text) in CALLS.values() else None)
    known = BITS[kind.rpartition(" ")[2]]
    return None if text == "-" or all(item in known for item in items_of(text)) else UNKNOWN_NAME


class Operands:
    """The operands of a line, taken from the left; raises the first fault."""

    def __init__(self, line: Line) -> None:
        self.line, self.left = line, list(line.operands)

    def need(self, count: int) -> None:
        if len(self.left) < count:
            raise Fault(WRONG_COUNT, self.line.tokens[-1], few=True)

    def at_most(self, count: int) -> None:
        if len(self.left) > count:
            raise Fault(WRONG_COUNT, self.left[count])

    def take(self, operand: Operand) -> Token:
        token = self.left.pop(0)
        reason = reason_of(operand, token)
        if reason:
            raise Fault(reason, token, operand)
        return token

    def take_last(self, operand: Operand) -> None:
        self.at_most(1)
        if self.left:
            self.take(operand)


def read_mknod(found):
    found.need(2)
    found.take(PATH)
    if found.take(KIND).text in DEVICES:
        found.need(1)
        found.take(DEVICE)
    found.take_last(MODE)


def read_mknodat(found: Operands) -> None:
    found.need(1)
    found.take(DIRFD)
    read_mknod(found)


def read_mount(found: Operands) -> None:
    found.need(3)
    for operand in (SOURCE, TARGET, TYPE):
        found.take(operand)
    if found.left:
        found.take(FLAGS_OF["mount"])
    found.take_last(DATA)


def read_setxattr(found: Operands) -> None:
    found.need(3)
    for operand in (PATH, NAME, VALUE):
        found.take(operand)
    found.take_last(FLAGS_OF["setxattr"])


def reads(*operands):
    """The reader of a line that has just these operands."""

    def read(found):
        found.need(len(operands))
        found.at_most(len(operands))
        for operand in operands:
            found.take(operand)

    return read


READERS = {"mknod": read_mknod, "mknodat": read_mknodat, "mount": read_mount, "setxattr": read_setxattr, "openat": reads(DIRFD, PATH), "other": reads(NUMBER),
           **{name: reads() for name in ("sysinfo", "close", "getpid")}}


def fault_of(line: Line) -> Optional[Fault]:
    """The first fault of a line; None of one that states a call."""
    if line.word not in READERS:
        return Fault("unknown word", line.tokens[0])
    try:
        READERS[line.word](Operands(line))
    except Fault as fault:
        return fault
    return None


# ---- what is wrong, and what would be right. Each answers the words and the cure


def form_of(line: Line) -> str:
    usage, example = USAGE[line.word]
    return f"the line is `{usage}`" + (f", as in `{example}`" if usage != example else " alone")


def quoted(content: bytes) -> str:
    return '"' + "".join(chr(byte) if 32 <= byte < 127 and byte not in b'"\\' else f"\\{chr(byte)}" if byte in b'"\\' else f"\\x{byte:02x}" for byte in content) + '"'


def names_of(call, bits):
    """The names of the flags that are set, as a line has them; None where a bit has no name."""
    known = BITS[call]
    return ",".join(name for name, bit in known.items() if bits & bit) or "-" if bits & ~sum(known.values()) == 0 else None


def requested(text: str) -> Optional[str]:
    """A request as a report writes it, as a line of a file of calls; None where it isn't one."""
    mount, attribute = MOUNT_OF_REPORT.fullmatch(text), ATTRIBUTE_OF_REPORT.fullmatch(text)
    if mount:
        flags = names_of("mount", int(mount[2]))
        return flags and f"{mount[1]} {flags}" + (f" {mount[3]}" if mount[3] != '""' else "")
    if attribute:
        flags = names_of("setxattr", int(attribute[3]))
        return flags and f"{attribute[1]} {quoted(bytes.fromhex(attribute[2].strip('-')))}" + (f" {flags}" if flags != "-" else "")
    return text if text.startswith(("mknod ", "mknodat ")) else None


def pasted(line: str) -> Any:
    """What is said of a line, as text, that was taken from a report; None of another one."""
    text = line.strip()
    event = OF_REPORT.fullmatch(text)
    if event is None:
        request = requested(text) if text.startswith(("mount ", "setxattr ")) else None
        return request and ("a report writes a request so", f"here it is `{request}`")
    request = requested(event[1]) if event[1] else None
    right = f"leave out its place and its actor: write `{request}`" if request else 'a line here is a call as a person writes it, as `mknod "/dev/null" chr 1:3`'
    return "this is a line of a report", right


def unknown_word(line: Line) -> Tuple[str, str]:
    first, text = line.tokens[0], line.tokens[0].text
    if first.is_quoted:
        return "a line begins with the name of a call, and this is a quoted text", 'write the name without quotes, as in `mknod "/dev/null" chr 1:3`'
    if text.startswith(("//", ";", "--", "/*")):
        return f"{text} begins no comment here", "a comment is a line of its own that begins with `#`"
    if text == "call" and line.operands:
        name = line.operands[0].text
        form = USAGE.get(name, USAGE["mknod"])
        return "`call` begins no line here", f"begin with the call's name: `{form[0]}`, as in `{form[1]}`"
    if re.fullmatch(r"\d{1,10}", text):
        return f"{text} is no name of a call", f"write `other {text}` for a call that has no name here"
    other = OTHER_CALLS.get(text)
    hint = f"did you mean `{other}`? " if other else meant(text, READERS)
    if not hint and text in SCRIPT_FORMS:
        return f"{text} is a word of a script, and no name of a call", "this is a file of calls, each as a person writes it, as `mknod \"/dev/null\" chr 1:3`; `play` and `explore` take a script"
    return f"{text} is no name of a call", advice(hint, f"the names are {listed(CALL_NAMES)}; another call is `other NUMBER`")


def wrong_count(line: Line, fault: Fault) -> Tuple[str, str]:
    word, tokens = line.word, line.operands
    if fault.few and tokens and tokens[-1].text in DEVICES and word in ("mknod", "mknodat"):
        return f"a `{tokens[-1].text}` has numbers, and none are here", f"write them after it, as `{tokens[-1].text} 1:3`"
    count = f"{len(tokens)} {'operand' if len(tokens) == 1 else 'operands'}" if tokens else "no operand"
    return f"`{word}` has {count} here, which is too {'few' if fault.few else 'many'}", form_of(line)


def wrong_form(line: Any, fault: Any) -> Any:
    token, operand = fault.token, fault.operand
    if token.is_quoted:
        inner = Token(token.text[1:-1], token.start + 1, token.end - 1)
        return f"{operand.name} of `{line.word}` is in quotes", f"write `{inner.text}`" if reason_of(operand, inner) is None and inner.text else form_of(line)
    if token.text[:1] in "'`":
        return f"{operand.name} is in quotes of another kind", f'''write `"{token.text.strip("'`")}"`'''
    if operand is DATA and token.text in BITS["mount"]:
        return f"the flag {token.text} is in the place of DATA", "flags have commas between them and no blanks, as `RDONLY,NODEV`"
    if operand is VALUE and re.fullmatch(r"-|(?:[0-9a-f]{2})+", token.text):
        return "VALUE of `setxattr` isn't in double quotes", f"a report has it in hexadecimal; here it is `{quoted(bytes.fromhex(token.text.strip('-')))}`"
    return f"{operand.name} of `{line.word}` isn't in double quotes", f'write `"{token.text}"`'


def bad_number(line: Line, fault: Fault) -> Tuple[str, str]:
    token, operand = fault.token, fault.operand
    text = token.text
    if operand is DEVICE:
        number = in_c(text)
        behind = line.tokens[line.tokens.index(token) + 1:]
        apart = re.fullmatch(r"(\d+)[,. ](\d+)", f"{text} {behind[0].text}" if behind else text, re.ASCII) or re.fullmatch(r"(\d+)[,.](\d+)", text, re.ASCII)
        zeros = re.fullmatch(r"(\d+):(\d+)", text, re.ASCII)
        right = None
        if apart:
            right = f"{int(apart[1])}:{int(apart[2])}"
        elif zeros:
            right = f"{int(zeros[1])}:{int(zeros[2])}"
        elif number is not None and 0 <= number < 2**32:
            right = f"{number >> 8 & 0xFFF}:{number & 0xFF | number >> 12 & ~0xFF}"
        if right and is_device(right):
            return f"{text} is no device's numbers", f"write `{right}`; {A_DEVICE}"
        return f"{text} is no device's numbers", A_DEVICE
    if operand is NUMBER:
        if text in CALLS:
            return f"`other` is for calls without a name here, and {text} has one", f"write `{USAGE[text][0]}`"
        return f"{text} is no number", "a call without a name here is written by its number on x86-64, as `other 321`"
    if operand is DIRFD:
        return f"{text} is no descriptor", advice(meant(text, ("AT_FDCWD",)), "a descriptor of a directory is a number, or `AT_FDCWD`")
    return f"{text[5:] or 'nothing'} is no number", "a number is decimal, hexadecimal with `0x`, or octal with `0o`, as `mode=0o600`"


def out_of_range(line, fault):
    token, operand = fault.token, fault.operand
    if token.is_quoted:
        hint = "leave out the `\\0` at its end: texts here have none" if token.content.endswith(b"\0") else "leave it out: the kernel reads a text up to its first zero byte"
        return f"{operand.name} has a zero byte", hint
    if operand is NUMBER:
        name = next((name for name, number in CALLS.items() if number == number_of(token.text)), None)
        return (f"{token.text} is the number of {name}", f"write the call by its name: `{USAGE[name][0]}`") if name else (f"{token.text} is no number of a call", f"NUMBER of `other` is 0 to {MOST_NUMBER}")
    if operand is DIRFD:
        return f"{token.text} is no descriptor", f"DIRFD is {-MOST_NUMBER - 1} to {MOST_NUMBER}, and `AT_FDCWD` is -100"
    number = number_of(token.text[5:])
    if number > MOST_PERMISSIONS and number < 2**16:
        return f"{token.text[5:]} has a kind in it", f"the kind comes before it, and the mode has only the permissions: write `mode=0o{number & MOST_PERMISSIONS:o}`"
    return f"{token.text[5:]} is outside of the range of mode", "mode has the permissions, 0 to 4095 (`0o7777`)"


def flags_meant(call: str, text: str) -> Optional[str]:
    """The flags that were likely meant, as a line has them, or None."""
    bits = re.fullmatch(r"(?:flags=)?(0x[0-9a-f]+|\d+)", text, re.ASCII)
    if bits:
        return names_of(call, number_of(bits[1]) or 0)
    found = []
    for item in re.split(r"[|,+]", text.removeprefix("flags=")):
        name = OTHER_FLAGS.get(item, re.sub(r"^(MS|XATTR)_", "", item.upper()))
        if not name or not all(part in BITS[call] for part in name.split(",")):
            return None
        found.append(name)
    return ",".join(found)


def unknown_flag(line: Line, token: Token) -> Tuple[str, str]:
    call, text = line.word, token.text
    known = f"the flags of `{call}` are {listed(BITS[call])}, with commas between them; `-` is none"
    right = flags_meant(call, text)
    wrong = next((item for item in items_of(text) if item not in BITS[call]), text)
    if right:
        return f"{wrong} is no flag of `{call}`", f"write `{right}`"
    other = next((name for name, bits in BITS.items() if name != call and wrong in bits), None)
    if other:
        return f"{wrong} is a flag of `{other}`, and not of `{call}`", known
    return f"{wrong} is no flag of `{call}`", advice(meant(wrong, BITS[call]), known)


def unknown_name(line: Line, fault: Fault) -> Tuple[str, str]:
    token, operand = fault.token, fault.operand
    text = token.text
    if operand is KIND:
        other = OTHER_KINDS.get(text.lower())
        if text in ("dir", "d"):
            return "mknod(2) makes no directory", f"the kinds are {listed(policy_words.KINDS)}"
        return f"{text} is no kind of a node", advice(f"did you mean `{other}`? " if other else meant(text, policy_words.KINDS), f"the kinds are {listed(policy_words.KINDS)}")
    if operand is MODE:
        if is_device(text):
            kind = line.tokens[line.tokens.index(token) - 1].text
            return f"a `{kind}` has no numbers", f"leave them out: only {listed(DEVICES)} have numbers"
        right = in_c(text)
        what = f"write `mode={written(right, text)}`" if right is not None and 0 <= right <= MOST_PERMISSIONS else "after the node comes `mode=NUMBER`, as `mode=0o600`, or nothing"
        return f"{text} is in the place of the mode", what
    return unknown_flag(line, token)


REASONS = {WRONG_COUNT: wrong_count, WRONG_FORM: wrong_form, BAD_NUMBER: bad_number, OUT_OF_RANGE: out_of_range, UNKNOWN_NAME: unknown_name}


def place_and_words(line: Any, reason: str) -> Any:
    """What the reason means in this line: from where to where, what is wrong, and what would be right; None where nothing is found."""
    fault = fault_of(line)
    if fault is None or fault.reason != reason:
        return None
    comment = next((token for token in line.operands if not token.is_quoted and token.text.startswith(("#", "//", ";"))), None)
    if comment and reason != OUT_OF_RANGE and line.word in READERS:
        return comment.start, line.tokens[-1].end, "a comment follows a call", "a comment is a line of its own that begins with `#`: put it above this line"
    told = unknown_word(line) if reason == "unknown word" else REASONS[reason](line, fault)
    end = line.tokens[-1].end if reason == WRONG_COUNT else fault.token.end
    return (fault.token.start, end, *told)


def finding_of(data: bytes, number: int, reason: str) -> Any:
    """What the program's refusal of a file of calls means, by the line and the reason that it named."""
    text, name = Text(data), reason.replace(" ", "-")
    if number > len(text.lines):
        return None
    line = text.line(number)
    first = len(text.whole) - len(text.whole.lstrip())
    if number == text.line_of(first) and text.whole.startswith(("{", "["), first):
        return text.finding("json", first, first + 1, "this looks like JSON, and the calls come second", "give the policy's file first, and then the file of calls")
    start, whole = len(line) - len(line.lstrip()), len(line.rstrip())
    from_report = pasted(line)
    try:
        found = (start, whole, *from_report) if from_report else place_and_words(Line(number, tokens_of(line)), reason)
    except LineFault as fault:
        found = fault.found
    begin, end, told, cure = found or (start, whole, PLAIN.get(reason, reason), "")
    return text.finding(name, text.starts[number - 1] + begin, text.starts[number - 1] + end, told, cure)
