"""Explains why the program refuses a policy: what it said, the text, and the tables of a policy's words lead to the place and the cure."""
import json
import re
from dataclasses import dataclass
from typing import Optional

from tools.commands.command_line import table
from tools.commands.messages import policy_words as words
from tools.commands.messages.findings import Text, advice, joined, listed, meant, whole_file
from tools.commands.messages.json_places import NotJson, Scanner, Value, every_object, yaml_line
from tools.commands.messages.script_words import CALL_NAMES, OTHER_CALLS, begins_as_script

PART = re.compile(r'\.?([a-z]+)|\.?"((?:[^"\\]|\\["\\]|\\x[0-9a-f]{2})*)"|\[(\d{1,9})\]')
REFUSAL = re.compile(r"(unknown key|bad value) at (.*)", re.S)
CONTAINERS = ("object", "array")
# how many letters a key of another matter may differ from one of LXD's, to be told of
NEAR_LETTERS = 2


def unquoted(text):
    """A key as a refusal quotes it, byte by byte."""
    raw = re.sub(r"\\(?:x([0-9a-f]{2})|(.))", lambda found: chr(int(found[1], 16)) if found[1] else found[2], text)
    return raw.encode("latin-1", "replace").decode("utf-8", "replace")


def keys_of(path):
    """The keys and numbers that a path goes through."""
    found, at = [], 0
    while at < len(path):
        part = PART.match(path, at)
        if part is None:
            break
        name, quoted, number = part.groups()
        found.append(name if name is not None else unquoted(quoted) if quoted is not None else int(number))
        at = part.end()
    return found


@dataclass
class Refused:
    """What a refusal is about: the keys of its path, the value there, or None where it is missing, and from where to where the key stands, or what the value
    is missing from."""

    top: Value
    keys: list
    value: Optional[Value]
    start: int
    end: int
    # the keys behind which rules stand
    lists: tuple = ("rules",)

    @property
    def last(self):
        return self.keys[-1]

    @property
    def rules(self):
        """The list of rules in which it stands."""
        return self.top.member(self.keys[0]).items

    @property
    def rule(self):
        """The rule in which it stands, or None."""
        return self.rules[self.keys[1]] if self.keys[:1] and self.keys[0] in self.lists and len(self.keys) > 1 else None

    @property
    def has_profile(self):
        return self.top.member("profile") is not None

    @property
    def shape(self):
        """The path with its numbers left out, as one in a policy."""
        first = ["rules"] if self.keys[:1] and self.keys[0] in self.lists else self.keys[:1]
        return ".".join("N" if isinstance(key, int) else key for key in [*first, *self.keys[1:]])

    @property
    def calls(self):
        """The names of the rule's calls."""
        stated = self.rule.member("call")
        return [it.plain for it in ([stated] if stated.kind == "string" else stated.items)] if stated else []


def refused_at(top, path):
    """What the path of a refusal leads to."""
    keys = [] if path == "(top)" else keys_of(path)
    value, start, end = top, top.start, top.start + 1
    for key in keys:
        member = value.members.get(key)
        if member:
            value, start, end = member.value, member.start, member.end
        elif isinstance(key, int) and key < len(value.items):
            value = value.items[key]
            start, end = value.start, value.end
        else:
            return Refused(top, keys, None, value.start, value.start + 1)
    return Refused(top, keys, value, start, end)


def said(value):
    """What a value is, in words."""
    if value.kind in CONTAINERS:
        return f"an {value.kind}"
    if value.kind == "string":
        return f'the text "{value.plain}"'
    return f"the number {value.plain}" if value.kind == "number" else {True: "true", False: "false", None: "null"}[value.plain]


def whole(value):
    """The whole number that a value is, or None."""
    return int(value.plain) if value.kind == "number" and re.fullmatch(r"-?\d+", value.plain, re.ASCII) else None


# ---- unknown keys


def unknown_key(at):
    """What is wrong with a key that isn't known, and what would be right."""
    key = at.last
    if len(at.keys) == 1:
        return unknown_at_top(key)
    if at.keys[0] == "config":
        known = [words.PREFIX + it for it in words.SWITCHES + words.LISTS]
        return f"{key} is no key that the program knows", advice(meant(key, known), f"after `{words.PREFIX}` comes one of {listed(words.SWITCHES + words.LISTS)}")
    if len(at.keys) == 3:
        return unknown_in_rule(at, key)
    return unknown_inside(at, key)


def unknown_at_top(key):
    if key.startswith("security.") or key.startswith("limits."):
        return f"{key} is a key of a container's configuration", f'put it into `config`: `{{"config": {{"{key}": ..}}}}`'
    if key in words.OF_AN_INSTANCE:
        return f"{key} is a key of a whole instance, as LXD prints it", f"take its configuration alone: {words.QUERY}"
    if key in words.RULE_KEYS:
        return f"{key} is a key of a rule", 'put the rule into `rules`: `{"rules": [{"name": .., "call": .., "then": ..}]}`'
    return f"a policy has no key {key}", advice(meant(key, words.TOP_KEYS), f"the keys of a policy are {listed(words.TOP_KEYS)}")


def unknown_in_rule(at, key):
    if key == "times":
        return "only a policy of version 2 has `times` in its rules", 'add `"version": 2` to the policy'
    if key in words.CONDITIONS:
        return f"{key} is a condition, and no key of a rule", f'put it into `when`: `{{"when": {{"{key}": ..}}}}`'
    if key in words.ANSWERS:
        return f"{key} is an answer, and no key of a rule", f"put it into `then`: `\"then\": `{words.ANSWERS[key].form}"
    return f"a rule has no key {key}", advice(meant(key, words.RULE_KEYS), f"the keys of a rule are {listed(words.RULE_KEYS)}")


def unknown_inside(at, key):
    """A key of `when`, `then` or `flags`."""
    inside = at.keys[-2]
    if inside == "when":
        if key in words.CONDITIONS:
            return f"only a policy with a profile has the condition {key}", 'add `"profile": "lxd"` to the policy; LXD\'s keys then make LXD\'s own rules'
        known = [it for it, condition in words.CONDITIONS.items() if at.has_profile or not condition.profile]
        return f"there is no condition {key}", advice(meant(key, known), f"the conditions are {listed(known)}")
    if inside == "then":
        other = f"{key} is written {words.OTHER_ANSWERS[key]}. " if key in words.OTHER_ANSWERS else meant(key, words.ANSWER_KEYS)
        return f"an answer has no key {key}", advice(other, "an answer that is an object has `deny`, or `inject` and maybe `at`")
    return f"{inside} has no key {key}", advice(meant(key, words.FLAG_KEYS), f"its keys are {listed(words.FLAG_KEYS)}")


# ---- bad values, by the shape of their path. Each answers what is wrong and what would be right, or None where the value looks right.


def top_value(at):
    cure = 'rules are in `{"rules": [..]}`' if at.value.kind == "array" else 'it begins with `{` and ends with `}`, as `{"config": {..}}`'
    return f"a policy is an object, and this is {said(at.value)}", cure


def version(at):
    if at.value.kind == "string":
        return f"a version is a number, and this is {said(at.value)}", "write `1` or `2`, without quotes"
    return f"there is no version {at.value.plain}" if at.value.kind == "number" else f"a version is a number, and this is {said(at.value)}", "write `1` or `2`; without the key it is 1"


def profile(at):
    if at.value.kind != "string":
        return f"a profile is a text, and this is {said(at.value)}", 'write `"lxd"`, or leave the key out'
    return f'there is no profile "{at.value.plain}"', 'the only profile is `"lxd"`, which is also the one for Incus; without the key there is none'


def config(at):
    return f"`config` is an object, and this is {said(at.value)}", 'write LXD\'s keys with their values, as `{"security.syscalls.intercept.mknod": "true"}`'


def config_value(at):
    name = at.last[len(words.PREFIX):]
    if at.value.kind != "string":
        plain = {True: "true", False: "false"}.get(at.value.plain, at.value.plain) if at.value.kind in ("literal", "number") else None
        return f"the value of each key of `config` is a text, and this is {said(at.value)}", f'write it in quotes: `"{plain}"`' if plain else 'write a text in double quotes, as `"true"`'
    if name in words.LISTS:
        return list_value(at, name)
    spaces = "a switch has no spaces: " if at.value.plain != at.value.plain.strip() else ""
    known = f"{spaces}on is {listed(words.ON, 'or')}, and off is {listed(words.OFF[:-1], 'or')}, or an empty text"
    return f'"{at.value.plain}" is no switch', advice(meant(at.value.plain.strip(), words.ON + words.OFF[:-1]), known)


def list_value(at, name):
    """A list of file systems, or of file systems with their programs."""
    items = at.value.plain.split(",")
    if name == "mount.fuse":
        wrong = next((it for it in items if it.count("=") != 1 and (it.strip() or at.has_profile)), None)
        if wrong is not None:
            return f'the item "{wrong.strip()}" isn\'t a file system and its program', "write `FILESYSTEM=PROGRAM` for each, with commas between: `ext4=fuse2fs,ntfs=ntfs-3g`"
    if at.has_profile:
        return "`mount.allowed` has a type of this list too", "leave it out of one of the two lists"
    return wrong_name([part.strip() for it in items if it.strip() for part in (it.split("=") if name == "mount.fuse" else (it,))])


def wrong_name(names):
    """What is wrong with the first of these that is no name of a file system or of a program; None where all are."""
    form = re.compile(r"[a-z0-9._-]{1,32}")
    wrong = next((it for it in names if not form.fullmatch(it)), None)
    if wrong is None:
        return None
    lower = f"write `{wrong.lower()}`. " if form.fullmatch(wrong.lower()) else ""
    known = 'a name has 1 to 32 of `a-z`, `0-9`, `.`, `_` and `-`; with `"profile": "lxd"` any text is taken, as LXD takes it'
    return f'"{wrong}" isn\'t the name of a file system or a program', advice(lower, known)


def rules(at):
    if at.value.kind == "object":
        return "`rules` is an array, and this is an object", "put the rule into `[` and `]`"
    return f"`rules` is an array, and this is {said(at.value)}", 'write `[{"name": "NAME", "call": "mknod", "then": "pass"}]`'


def rule(at):
    return f"a rule is an object, and this is {said(at.value)}", 'write `{"name": "NAME", "call": "mknod", "then": "pass"}`'


def rule_name(at):
    form = "a name has 1 to 64 of `a-z`, `0-9`, `.`, `_`, `:` and `-`"
    if at.value is None:
        return "this rule has no name", 'add `"name": "NAME"`: the report shows it if the rule decides'
    if at.value.kind != "string":
        return f"a name is a text, and this is {said(at.value)}", form
    text = at.value.plain
    before = [one.member("name") for one in at.rules[:at.keys[1]]]
    for number, name in enumerate(before):
        if name is not None and name.plain == text:
            return f"`{at.keys[0]}[{number}]` has the name {text} already", "give each rule a name of its own"
    if text.startswith(("lxd.", "default.")):
        return f"names that begin with `{text.partition('.')[0]}.` are those of the program's own rules", "choose another beginning"
    if len(text.encode("utf-8", "replace")) > 64:
        return f"the name has {len(text.encode('utf-8', 'replace'))} bytes", form
    wrong = re.search(r"[^a-z0-9._:-]", text)
    if wrong or not text:
        better = re.sub(r"[^a-z0-9._:-]+", "-", text.lower()).strip("-")
        return f"`{wrong[0]}` may not be in a name" if wrong else "the name is empty", advice(f"write `{better}`. " if wrong and better else "", form)
    return None


def unknown_call(text):
    several = re.split(r"[ ,]+", text)
    if len(several) > 1 and all(it in CALL_NAMES for it in several):
        return "several calls are an array, and this is one text", f"write `{json.dumps(several)}`"
    other = OTHER_CALLS.get(text)
    hint = f"did you mean `{other}`? " if other else meant(text, CALL_NAMES)
    return f"a rule can't name the call {text}", advice(hint, f"the calls are {listed(CALL_NAMES)}")


def rule_call(at):
    if at.value is None:
        return "this rule doesn't say for which calls it is", 'add `"call": "mknod"`, or an array of names'
    if at.value.kind == "string":
        return unknown_call(at.value.plain)
    if at.value.kind == "array":
        return "the rule names no call", 'write one or more, as `["mknod", "mknodat"]`'
    return f"a call is named by a text, and this is {said(at.value)}", f'write `"mknod"`, or `["mknod", "mknodat"]`; the calls are {listed(CALL_NAMES)}'


def listed_call(at):
    return unknown_call(at.value.plain) if at.value.kind == "string" else (f"a call is named by a text, and this is {said(at.value)}", f"the calls are {listed(CALL_NAMES)}")


def when(at):
    return f"`when` is an object of conditions, and this is {said(at.value)}", 'write `{"path": "/dev/null"}`, for instance; without `when` the rule is for each call that it names'


def condition(at):
    known = words.CONDITIONS[at.last]
    wrong = wrong_condition(at, known)
    if wrong:
        return wrong
    others = [call for call in at.calls if call not in known.calls]
    if others:
        apart = f", or make a rule of its own for {listed(others)}" if len(others) < len(at.calls) else ""
        return f"the condition {at.last} isn't for {listed(others)}", f"it is for {listed(known.calls)}: leave it out{apart}"
    return None


def wrong_condition(at, known):
    """What is wrong with the value of a condition, whatever the calls."""
    name, value = at.last, at.value
    if name == "flags":
        return (f"`flags` is an object, and this is {said(value)}", f"write {known.value}") if value.kind != "object" else None
    if name == "dirfd":
        number = whole(value)
        return None if number is not None and (number == -100 or 0 <= number < 2**31) else (f"{said(value)} is no directory descriptor", f"it is {known.value}")
    if value.kind != "string":
        several = "; for several, make a rule of each" if value.kind == "array" else ""
        return f"the condition {name} is a text, and this is {said(value)}", f"write {known.value}{several}"
    text = value.plain
    if name == "kind" and text not in words.KINDS:
        other = {"char": "chr", "character": "chr", "c": "chr", "block": "blk", "b": "blk", "file": "reg", "regular": "reg", "f": "reg", "pipe": "fifo", "p": "fifo", "socket": "sock"}.get(text)
        hint = f"did you mean `{other}`? " if other else meant(text, words.KINDS)
        return f'"{text}" is no kind of a node', advice(hint, f"the kinds that mknod makes are {listed(words.KINDS)}")
    if name == "under" and not (text.startswith("/") and not text.endswith("/")):
        return f'"{text}" {"ends" if text.startswith("/") else "doesn" + chr(39) + "t begin"} with `/`', f"write {known.value}" if not text.strip("/") else f'write `"/{text.strip("/")}"`'
    if name == "dev" and not is_device(text):
        return f'"{text}" is no device', dev_cure(text, known)
    return None


def is_device(text):
    found = re.fullmatch(r"(0|[1-9]\d*):(0|[1-9]\d*)", text, re.ASCII)
    return found is not None and int(found[1]) <= 4095 and int(found[2]) <= 1_048_575


def dev_cure(text, known):
    numbers = re.fullmatch(r"\s*(\d{1,9})\s*[:, ]\s*(\d{1,9})\s*", text, re.ASCII)
    right = f"{int(numbers[1])}:{int(numbers[2])}" if numbers else ""
    return advice(f'write `"{right}"`. ' if right and is_device(right) else "", f"a device is {known.value}")


def flags_list(at):
    return f"`{at.last}` is an array of flags, and this is {said(at.value)}", 'write `["RDONLY"]`, for instance'


def flag(at):
    every = words.FLAGS["mount"] + words.FLAGS["setxattr"]
    if at.value.kind != "string":
        return f"a flag is named by a text, and this is {said(at.value)}", 'write its name, as `"RDONLY"`'
    bare = re.sub(r"^(MS|XATTR)_", "", at.value.plain.upper())
    hint = f"write `{bare}`. " if bare in every and bare != at.value.plain else meant(bare, every)
    return f'"{at.value.plain}" is the name of no flag', advice(hint, f"the flags of mount are {listed(words.FLAGS['mount'])}; those of setxattr are {listed(words.FLAGS['setxattr'])}")


def flags(at):
    """The flags of `all` and `none`, which may be those of another call."""
    wrong = condition(at)
    if wrong:
        return wrong
    for key, members in at.value.members.items():
        for one in members.value.items:
            for call in at.calls:
                if one.plain not in words.FLAGS.get(call, ()):
                    owner = next((it for it, names in words.FLAGS.items() if one.plain in names), None)
                    return f"{one.plain} is a flag of {owner}, and the rule is for {call}" if owner else f"{one.plain} is no flag of {call}", f"leave it out of `{key}`, or make a rule for each call"
    return None


def then(at):
    forms = f"an answer is {joined((it.form for it in words.ANSWERS.values()), 'or')}"
    if at.value is None:
        return "this rule has no `then`", f'add `"then": ..`; {forms}'
    if at.value.kind not in ("string", "object"):
        return f"an answer is a text or an object, and this is {said(at.value)}", forms
    if at.value.kind == "string" and at.value.plain not in ("grant", "pass"):
        other = words.OTHER_ANSWERS.get(at.value.plain.lower())
        return f'"{at.value.plain}" is no answer', advice(f"write {other}. " if other else meant(at.value.plain, words.ANSWERS), forms)
    wrong = wrong_keys(set(at.value.members)) if at.value.kind == "object" else None
    return (wrong, 'write `{"deny": "EPERM"}`, `{"inject": N}` or `{"inject": N, "at": M}`') if wrong else answer_of_calls(at)


def wrong_keys(keys):
    """What is wrong with the keys of an answer, or None."""
    if not keys & {"deny", "inject"}:
        return "this answer has neither `deny` nor `inject`"
    if keys >= {"deny", "inject"}:
        return "this answer has both `deny` and `inject`"
    return "`at` belongs to `inject`, and this answer denies" if keys >= {"at", "deny"} else None


def answer_of_calls(at):
    """An answer that isn't for one of the rule's calls."""
    name = at.value.plain if at.value.kind == "string" else "inject" if "inject" in at.value.members else "deny"
    others = [call for call in at.calls if call not in words.ANSWERS[name].calls]
    if not others:
        return None
    can = [it.form for it in words.ANSWERS.values() if others[0] in it.calls]
    return f"`{name}` isn't for {listed(others)}", f"it is for {listed(words.ANSWERS[name].calls)}; a rule for `{others[0]}` answers {joined(can, 'or')}"


def deny(at):
    if at.value.kind != "string":
        return f"an error is named by a text, and this is {said(at.value)}", 'write its name, as `"EPERM"`'
    return f'no error is named "{at.value.plain}" here', advice(meant(at.value.plain, words.ERRORS), f"the errors are {listed(words.ERRORS)}")


def descriptor(at):
    hint = "without quotes, " if at.value.kind == "string" and at.value.plain.isdecimal() else ""
    return f"a descriptor is a whole number, and this is {said(at.value)}", f"write it {hint}as a number from 0 to 4294967295"


def times(at):
    number = whole(at.value)
    if number is None or not 1 <= number < 2**32:
        return f"`times` is a whole number of effects, and this is {said(at.value)}", "write a number from 1 to 4294967295, without quotes; without the key there is no limit"
    return "`times` limits grants, and this rule doesn't grant", 'remove `times`, or let the rule answer `"grant"`'


BAD_VALUES = {
    "": top_value, "version": version, "profile": profile, "config": config, "rules": rules, "rules.N": rule, "rules.N.name": rule_name, "rules.N.call": rule_call,
    "rules.N.call.N": listed_call, "rules.N.when": when, "rules.N.when.flags": flags, "rules.N.when.flags.all": flags_list, "rules.N.when.flags.none": flags_list,
    "rules.N.when.flags.all.N": flag, "rules.N.when.flags.none.N": flag, "rules.N.then": then, "rules.N.then.deny": deny, "rules.N.then.inject": descriptor,
    "rules.N.then.at": descriptor, "rules.N.times": times, **{f"rules.N.when.{name}": condition for name in words.CONDITIONS if name != "flags"},
}
# what is said where the reason can't be told
PLAIN = {"unknown key": ("this key isn't one that a policy has here", ""), "bad value": ("this value has the wrong type, is outside its range, or doesn't fit the rest of its rule", "")}


def explained(kind, at):
    """What is wrong and what would be right, for a refusal of this kind."""
    if kind == "unknown key":
        return unknown_key(at)
    explain = config_value if at.keys[:1] == ["config"] and len(at.keys) == 2 else BAD_VALUES.get(at.shape)
    return (explain and explain(at)) or PLAIN[kind]


def not_json(text):
    """Why a text is no JSON."""
    whole_text = text.whole
    if begins_as_script(whole_text):
        return text.finding("script", 0, 1, "this looks like a script, and the policy comes first", "give the policy's file first, and then the script's")
    yaml = yaml_line(whole_text)
    if yaml:
        return text.finding("yaml", yaml.start(), yaml.end(), "this is YAML, and a policy is JSON",
                            f"`lxc config show` prints YAML; {words.QUERY} prints a policy. By hand, put LXD's keys into `{{\"config\": {{\"KEY\": \"VALUE\"}}}}`.")
    try:
        Scanner(whole_text).document()
    except NotJson as fault:
        return text.finding(*fault.found)
    return whole_file("not-json", "the bytes aren't a JSON value", "")


def key_of(top, refusal):
    """The kind of a refusal, and what its path leads to; None of another line."""
    told = REFUSAL.fullmatch("bad value at rules" if refusal == "too many rules" else refusal)
    return (told[1], refused_at(top, told[2])) if told else None


def marked_by(data, refusal):
    """The line that a refusal is about, and from where to where in it the key stands, or the fault of a text that isn't JSON; None where it can't be told."""
    text = Text(data)
    if refusal == "not JSON":
        found = not_json(text)
        return (found.line, found.start, found.start + found.length) if found.line else None
    try:
        told = key_of(Scanner(text.whole).document(), refusal)
    except NotJson:
        return None
    if told is None:
        return None
    at = told[1]
    # of an object or an array that has no key the mark is where it begins
    end = at.start + 1 if at.value and at.start == at.value.start and at.value.kind in CONTAINERS else at.end
    found = text.finding("", at.start, end, "", "")
    return found.line, found.start, found.start + found.length


def finding_of(data, refusal):
    """What the program's refusal of a policy means: `refusal` is what stands behind `policy: `."""
    text = Text(data)
    if refusal == "not JSON":
        return not_json(text)
    try:
        top = Scanner(text.whole).document()
    except NotJson:
        # the file is another one by now
        return None
    told = key_of(top, refusal)
    if told is None:
        return None
    kind, at = told
    if refusal == "too many rules":
        count = len(at.value.items) if at.value else 0
        return text.finding("too-many-rules", at.start, at.end, f"there are {count} rules", f"a policy has at most {words.MOST_RULES}: name several calls in one rule, or leave some out")
    start, end = (at.value.start, at.value.end) if kind == "bad value" and at.value else (at.start, at.end)
    return text.finding(kind.replace(" ", "-"), start, end, *explained(kind, at))


# ---- what the program takes, and is likely a mistake


def foreign_keys(data):
    """Keys of `config` that are almost LXD's: the program ignores them, as it does each key of another matter."""
    text = Text(data)
    config_object = policy_of(text).member("config")
    known = [words.PREFIX + it for it in words.SWITCHES + words.LISTS]
    for member in config_object.members.values() if config_object and config_object.kind == "object" else ():
        written = member.key.lower()
        # (a key that is longer or shorter by more letters needn't be compared letter by letter)
        alike = [it for it in known if abs(len(it) - len(written)) <= NEAR_LETTERS and not member.key.startswith(words.PREFIX)]
        found = min(alike, key=lambda it: table.distance(written, it), default=None)
        if found and table.distance(written, found) <= NEAR_LETTERS:
            yield text.finding("almost-a-key", member.start, member.end, f"{member.key} is no key of LXD's, and is ignored", f"did you mean `{found}`?")


def doubled_keys(data):
    """Keys that stand twice in one object, of which the last counts."""
    text = Text(data)
    for value in every_object(policy_of(text)):
        for hidden in value.hidden:
            kept = value.members[hidden.key]
            line = text.line_of(kept.start)
            yield text.finding("key-twice", hidden.start, hidden.end, f'the key "{hidden.key}" comes again in line {line}, and that one counts', "remove one of them")


def policy_of(text):
    """The JSON value of a policy; an empty object where it is none."""
    try:
        return Scanner(text.whole).document()
    except NotJson:
        return Value("object", 0)
