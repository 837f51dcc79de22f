"""Options behind the name of a file, as `notify=mknod,mount`: each is a name, `=` and a value."""
from __future__ import annotations

import re
from typing import List, Set, Tuple

from tools.commands.messages.findings import advice, listed, meant
from tools.commands.real_workloads import profiles
from tools.commands.testing import words
from tools.commands.testing.lines import Word

NUMBER, RANGE, VERSION = re.compile(r"[1-9]\d{0,8}", re.ASCII), re.compile(r"(\d{0,9})-(\d{0,9})", re.ASCII), re.compile(r"\d{1,4}\.\d{1,4}", re.ASCII)


def is_option(word: Word) -> bool:
    return word.key != "" or not word.is_quoted and "=" in word.text


def split(word: Word) -> Tuple[str, Word]:
    """The name and the value of an option, and the word that the value is."""
    if word.key:
        return word.key, Word(word.text, word.line, word.start + len(word.key) + 2, word.end - 1)
    name, _, value = word.text.partition("=")
    return name, Word(value, word.line, word.start + len(name) + 1, word.end)


def parts(value: Word) -> List[Word]:
    """The names of a value, which have commas or blanks between them, as words."""
    return [Word(it[0], value.line, value.start + it.start(), value.start + it.end()) for it in re.finditer(r"[^,\s]+", value.text)]


# ---- values: each answers what it stands for, or raises what is wrong


def calls(value: Word) -> List[str]:
    for it in parts(value):
        if it.text not in words.CALL_NAMES:
            hint = f"did you mean `{words.OTHER_CALLS[it.text]}`? " if it.text in words.OTHER_CALLS else meant(it.text, words.CALL_NAMES)
            raise it.fault(f"{it.text} is no call that a script has", advice(hint, f"the calls are {listed(words.CALL_NAMES)}"))
    return [it.text for it in parts(value)]


def capabilities(value):
    known = {*profiles.CAPABILITIES, profiles.ALL, profiles.NONE}
    for it in parts(value):
        if profiles.with_prefix("CAP_", it.text) not in known:
            names = [name[len("CAP_"):].lower() for name in sorted(known)]
            raise it.fault(f"no capability is called {it.text}", advice(meant(it.text.lower().replace("cap_", ""), names), "they are named as in capabilities(7), with or without `CAP_`, as `sys_admin`"))
    return profiles.capabilities(it.text for it in parts(value))


def kernel(value):
    if not VERSION.fullmatch(value.text):
        raise value.fault(f"{value.text} is no version of a kernel", "it is two numbers with a point between them, as `6.1`")
    return profiles.version(value.text)


def processes(value: Word) -> Set[int]:
    for it in parts(value):
        if not NUMBER.fullmatch(it.text):
            raise it.fault(f"{it.text} is no number of a process", "it is the number that strace prints before a line, as `29917`")
    return {int(it.text) for it in parts(value)}


def lines(value: Word) -> Tuple[int, ...]:
    found = RANGE.fullmatch(value.text)
    if not found or value.text == "-":
        raise value.fault(f"{value.text} are no lines of a trace", "they are written `FROM-TO`, as `100-200`; without one of the two it is the first or the last one")
    return int(found[1] or 1), int(found[2] or 2**63)


def count(value: Word) -> int:
    if not NUMBER.fullmatch(value.text):
        raise value.fault(f"{value.text} is no number of calls", "it is a number from 1 on, as `100`")
    return int(value.text)


OF_PROFILES = {"capabilities": (capabilities, "mknod,sys_chroot"), "notify": (calls, "mknod,mount"), "kernel": (kernel, "6.1")}
OF_TRACES = {"calls": (calls, "mknod,mount"), "process": (processes, "29917"), "lines": (lines, "100-200"), "most": (count, "100")}


def read(line, given, known):
    """The values of the options that these words of a line are, by their names; `known` has of each what reads it, and an example."""
    found = {}
    examples = [f"{name}={example}" for name, (_, example) in known.items()]
    for word in given:
        name, value = split(word)
        if name not in known:
            raise word.fault(f"`{line.first.text}` has no option {name}=", advice(meant(name, known), f"after the file may come {listed(examples)}"))
        if name in found:
            raise word.fault(f"{name}= is there twice", f"name all in one, as `{name}={known[name][1]}`")
        if not value.text:
            raise word.fault(f"nothing follows {name}=", f"as in `{name}={known[name][1]}`")
        found[name] = known[name][0](value)
    return found
