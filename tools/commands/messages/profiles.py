"""Says what is wrong with a seccomp profile as OCI runtimes take them (Docker, Podman, containerd): the place, and what would be right.

What stands here is found before libseccomp is asked. Keys that no runtime knows say nothing, as there; one that is almost a key which is missing is told.
"""
from __future__ import annotations

import errno
import json
import re
from typing import Any, List, Optional, Tuple

from tools.commands.command_line import table
from tools.commands.messages.findings import Finding, Text, advice, listed, meant, near
from tools.commands.messages.json_places import NotJson, Scanner, Subject, Value, yaml_line
from tools.commands.messages.policies import said, whole
from tools.commands.messages.script_words import begins_as_script
from tools.commands.real_workloads.profiles import ACTIONS, COMPARISONS, WITH_NUMBER, is_meant
from tools.commands.real_workloads.script_text import CALLS

PROFILE = Subject("profile", '`{"defaultAction": "SCMP_ACT_ALLOW"}`, which allows every call', "the `comment` of an entry can say what it is for", "five", 2**64 - 1)
TRAP = "SCMP_ACT_TRAP"
USUAL_ACTIONS = ("SCMP_ACT_ALLOW", "SCMP_ACT_ERRNO", "SCMP_ACT_NOTIFY", "SCMP_ACT_LOG", "SCMP_ACT_TRACE", "SCMP_ACT_KILL", "SCMP_ACT_KILL_PROCESS")
TOP_KEYS = ("defaultAction", "defaultErrnoRet", "architectures", "archMap", "syscalls")
ENTRY_KEYS = ("names", "name", "action", "errnoRet", "args", "includes", "excludes", "comment")
CONDITION_KEYS = ("index", "op", "value", "valueTwo")
LISTS_OF_CONDITIONS = {"caps": "CAP_MKNOD", "arches": "amd64"}
KERNEL = re.compile(r"\d+\.\d+(?:[.-].*)?", re.ASCII)
MOST_ARGUMENT, GREATEST, GREATEST_ERROR, GREATEST_TRACE = 5, 2**64 - 1, 4095, 65_535
# how many letters an unknown call may differ from a known one, to be told of
NEAR_LETTERS = 1
# keys of files that have a profile in them, or are something else
OF_A_CONTAINER, OF_A_POLICY = "ociVersion", ("rules", "config", "profile")


def is_profile(text: str) -> bool:
    """Whether a text is meant as a profile, and not as lines of a script."""
    return text.lstrip("\ufeff \t\r\n").startswith("{")


def member(value: Value, key: str) -> Optional[Value]:
    """The value of a key; None where there is none, or null, which says the same."""
    found = value.member(key)
    return None if found is not None and found.kind == "literal" and found.plain is None else found


class Checker:
    """Finds what is wrong with a profile that is JSON. `asked` has the capabilities and the kernel for which entries count."""

    def __init__(self, text, asked):
        self.text, self.asked, self.found = text, asked, []

    def tell(self, value: Value, words: str, cure: str) -> None:
        self.found.append(self.text.finding("profile", value.start, value.end, words, cure))

    def key(self, value: Value, key: str, known: Tuple[str, ...], what: str, cure: str) -> Optional[Value]:
        """The value of a key that has to be there."""
        found = member(value, key)
        if found is None:
            almost = next((it for it in value.members.values() if it.key not in known and near(it.key, (key,))), None)
            if almost is not None:
                self.found.append(self.text.finding("profile", almost.start, almost.end, f"{what} has no key {almost.key}", f"did you mean `{key}`?"))
            else:
                self.found.append(self.text.finding("profile", value.start, value.start + 1, f"{what} has no `{key}`", cure))
        return found

    def is_of(self, kind: str, value: Value, what: str, cure: str) -> bool:
        """Whether a value is of this kind."""
        if value.kind != kind:
            self.tell(value, f"{what} is {said(value)}, and no {kind}" if kind != "string" else f"{what} is {said(value)}, and no text", cure)
        return value.kind == kind

    def number(self, value: Any, what: str, most: int) -> None:
        """A whole number within its range."""
        number = whole(value)
        if number is None or not 0 <= number <= most:
            known = value.kind == "string" and getattr(errno, value.plain, None)
            self.tell(value, f"{what} is {said(value)}", f"write `{known}`" if known and most == GREATEST_ERROR else f"it is a number from 0 to {most}")

    def texts(self, value: Value, what: str, example: str) -> None:
        """The texts of a list."""
        one = f'`["{value.plain}"]`' if value.kind == "string" else f'`["{example}"]`'
        if not self.is_of("array", value, what, f"write {one}"):
            return
        for it in value.items:
            self.is_of("string", it, f"a part of {what}", f'it has texts, as `["{example}"]`')

    def whole_profile(self, top: Value) -> List[Finding]:
        if not self.is_of("object", top, "the profile", f"the least profile is {PROFILE.least}"):
            return self.found
        other = self.another_file(top)
        if other is not None:
            self.found.append(self.text.finding("profile", top.start, top.start + 1, *other))
            return self.found
        default = self.key(top, "defaultAction", TOP_KEYS, "the profile", 'say what becomes of the other calls, as `"defaultAction": "SCMP_ACT_ERRNO"`')
        if default is not None:
            self.action(default, member(top, "defaultErrnoRet"), "defaultErrnoRet")
        architectures, entries, maps = (member(top, key) for key in ("architectures", "syscalls", "archMap"))
        if architectures is not None:
            self.texts(architectures, "`architectures`", "SCMP_ARCH_X86_64")
        if maps is not None and self.is_of("array", maps, "`archMap`", 'it is a list, as `[{"architecture": "SCMP_ARCH_X86_64", "subArchitectures": []}]`'):
            for it in maps.items:
                self.architecture(it)
        if entries is not None and self.is_of("array", entries, "`syscalls`", 'it is a list of entries, as `[{"names": ["mknod"], "action": "SCMP_ACT_NOTIFY"}]`'):
            for entry in entries.items:
                self.entry(entry)
        return self.found

    @staticmethod
    def another_file(top: Value) -> Optional[Tuple[str, ...]]:
        """What is said of an object that is something else than a profile; None of any other."""
        if top.member("defaultAction") is not None:
            return None
        if top.member(OF_A_CONTAINER) is not None:
            return "this is the configuration of a whole container, and no profile", "take its part `linux.seccomp` alone, as `jq .linux.seccomp config.json` prints it"
        if any(top.member(it) is not None for it in OF_A_POLICY):
            return "this is a policy, and no profile", "a profile has `defaultAction` and `syscalls`"
        return None

    def architecture(self, value):
        if not self.is_of("object", value, "a part of `archMap`", 'it is an object, as `{"architecture": "SCMP_ARCH_X86_64", "subArchitectures": []}`'):
            return
        below = member(value, "subArchitectures")
        if below is not None:
            self.texts(below, "`subArchitectures`", "SCMP_ARCH_X86")

    def action(self, value: Value, number: Optional[Value], name: str) -> None:
        """Looks at an action, and at the number that stands for it under this name."""
        if not self.is_of("string", value, "the action", f"the actions are {listed(USUAL_ACTIONS)}"):
            return
        if value.plain == TRAP:
            self.tell(value, f"{TRAP} sends SIGSYS, which a script's filter can't do", "write `SCMP_ACT_ERRNO` or `SCMP_ACT_KILL_PROCESS`, to see the effect of the rest")
        elif value.plain not in ACTIONS:
            self.tell(value, f"there is no action {value.plain}", advice(meant(value.plain, ACTIONS), f"the actions are {listed(USUAL_ACTIONS)}"))
        elif number is not None and value.plain in WITH_NUMBER:
            self.number(number, f"`{name}`", GREATEST_ERROR if value.plain == "SCMP_ACT_ERRNO" else GREATEST_TRACE)

    def entry(self, value: Value) -> None:
        if not self.is_of("object", value, "an entry of `syscalls`", 'it is an object, as `{"names": ["mknod"], "action": "SCMP_ACT_NOTIFY"}`'):
            return
        before = len(self.found)
        for name in ("includes", "excludes"):
            limits = member(value, name)
            if limits is not None and self.is_of("object", limits, f"`{name}`", f'it is an object, as `"{name}": {{"caps": ["CAP_MKNOD"]}}`'):
                self.limits(limits)
        # (what a runtime leaves out is looked at no further)
        if len(self.found) > before or not is_meant(json.loads(self.text.whole[value.start:value.end]), self.asked):
            return
        self.names(value)
        action = self.key(value, "action", ENTRY_KEYS, "the entry", 'say what becomes of its calls, as `"action": "SCMP_ACT_NOTIFY"`')
        if action is not None:
            self.action(action, member(value, "errnoRet"), "errnoRet")
        arguments = member(value, "args")
        if arguments is not None and self.is_of("array", arguments, "`args`", 'it is a list, as `[{"index": 1, "op": "SCMP_CMP_EQ", "value": 8630}]`'):
            for it in arguments.items:
                self.condition(it)

    def limits(self, value):
        for key, example in LISTS_OF_CONDITIONS.items():
            if member(value, key) is not None:
                self.texts(member(value, key), f"`{key}`", example)
        least = member(value, "minKernel")
        if least is not None and not (least.kind == "string" and KERNEL.fullmatch(least.plain)):
            self.tell(least, f"`minKernel` is {said(least)}", 'it is a version, as `"4.8"`')

    def names(self, value: Value) -> None:
        one, some = member(value, "name"), member(value, "names")
        if some is not None:
            self.texts(some, "`names`", "mknod")
        elif one is not None:
            self.is_of("string", one, "`name`", 'it is the name of a call, as `"mknod"`')
        else:
            self.key(value, "names", ENTRY_KEYS, "the entry", 'name its calls, as `"names": ["mknod", "mknodat"]`')

    def condition(self, value: Value) -> None:
        if not self.is_of("object", value, "a part of `args`", 'it is an object, as `{"index": 1, "op": "SCMP_CMP_EQ", "value": 8630}`'):
            return
        index, op, number = (self.key(value, key, CONDITION_KEYS, "the condition", 'as in `{"index": 1, "op": "SCMP_CMP_EQ", "value": 8630}`') for key in ("index", "op", "value"))
        if index is not None:
            self.number(index, "`index`", MOST_ARGUMENT)
        if op is not None and (op.kind != "string" or op.plain not in COMPARISONS):
            hint = meant(op.plain, COMPARISONS) if op.kind == "string" else ""
            self.tell(op, f"the comparison is {said(op)}", advice(hint, f"the comparisons are {listed(COMPARISONS)}"))
        for name, it in (("value", number), ("valueTwo", member(value, "valueTwo"))):
            if it is not None:
                self.number(it, f"`{name}`", GREATEST)


def not_json(text: Text) -> Optional[Finding]:
    """Why a text is no JSON."""
    if begins_as_script(text.whole):
        return text.finding("script", 0, 1, "this looks like a script, and a profile is JSON", "name the file of a profile")
    yaml = yaml_line(text.whole)
    if yaml:
        return text.finding("yaml", yaml.start(), yaml.end(), "this is YAML, and a profile is JSON", "take the profile that the runtime takes, as `/usr/share/containers/seccomp.json`")
    try:
        Scanner(text.whole, PROFILE).document()
    except NotJson as fault:
        return text.finding(*fault.found)
    return None


def findings(text, asked):
    """All that is wrong with the text of a profile, in the order of its lines."""
    wrong = not_json(text)
    if wrong is not None:
        return [wrong]
    found = Checker(text, asked).whole_profile(Scanner(text.whole, PROFILE).document())
    return sorted(found, key=lambda it: (it.line, it.start))


def unknown_calls(text, names):
    """Names of calls that libseccomp doesn't know, and that are almost those of calls which a script has: a runtime leaves them out, and nobody means that."""
    entries = member(Scanner(text.whole, PROFILE).document(), "syscalls")
    for value in [it for entry in (entries.items if entries else ()) for it in named_in(entry)]:
        found = min(CALLS, key=lambda it: table.distance(value.plain.lower(), it))
        if value.plain in names and table.distance(value.plain.lower(), found) <= NEAR_LETTERS:
            yield text.finding("profile", value.start, value.end, f"no call is called {value.plain}, and the filter leaves it out", f"did you mean `{found}`?")


def named_in(entry):
    """The names of an entry's calls."""
    one, some = member(entry, "name"), member(entry, "names")
    return some.items if some is not None else [one] if one is not None else []


def entry_finding(text, number, words, cure):
    """What libseccomp says of an entry of `syscalls`, by its number from 0."""
    entry = member(Scanner(text.whole, PROFILE).document(), "syscalls").items[number]
    return text.finding("profile", entry.start, entry.end, words, cure)
