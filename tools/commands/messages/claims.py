"""Explains why the program refuses a file of claims: a claim is written as a rule, so what is wrong with one is wrong with the other."""
import re
from dataclasses import dataclass

from tools.commands.messages import policies
from tools.commands.messages.findings import Text, advice, listed, meant
from tools.commands.messages.json_places import NotJson, Scanner

LISTS = ("expect", "never")
KEYS = ("call", "name", "then", "when")
EXAMPLE = '{"never": [{"name": "disks", "call": "mknod", "when": {"kind": "blk"}, "then": "grant"}]}'
MOST = 1024
# words that are said of a rule, as they are said of a claim
OF_CLAIMS = (
    ("the report shows it if the rule decides", "the line that says if the claim holds has it"), (r"a rule for (`\w+`) answers", r"a claim of \1 says"),
    (r"(?<!own )\brules\b", "claims"), (r"\brule\b", "claim"),
)


@dataclass
class RefusedClaim(policies.Refused):
    """What a refusal of claims is about. Claims have the conditions of every policy."""

    lists: tuple = LISTS

    @property
    def has_profile(self):
        return True


def in_claims(text):
    for form, word in OF_CLAIMS:
        text = re.sub(form, word, text)
    return text


def of_whole(kind, at):
    """What is wrong with the object, its keys or one of its lists; None where the refusal is about a claim."""
    if not at.keys:
        return f"claims are in an object, and this is {policies.said(at.value)}", f"write `{EXAMPLE}`"
    if len(at.keys) > 1:
        return None
    if kind == "unknown key":
        hint = "a policy has that key, and comes before the claims. " if at.last in policies.words.TOP_KEYS else meant(at.last, LISTS)
        return f"a file of claims has no key {at.last}", advice(hint, f"its keys are {listed(LISTS)}")
    return f"`{at.last}` is an array of claims, and this is {policies.said(at.value)}", f"write `{EXAMPLE}`"


def explained(kind, at):
    """What is wrong and what would be right."""
    whole = of_whole(kind, at)
    if whole:
        return whole
    if kind == "unknown key" and len(at.keys) == 3 and at.last not in policies.words.CONDITIONS and at.last not in policies.words.ANSWERS:
        if at.last == "times":
            return "a claim has no `times`", "leave it out: a claim of a grant is about any number of times"
        return f"a claim has no key {at.last}", advice(meant(at.last, KEYS), f"the keys of a claim are {listed(KEYS)}")
    return tuple(map(in_claims, policies.explained(kind, at)))


def finding_of(data, refusal):
    """What the program's refusal of claims means: `refusal` is what stands behind `claims: `."""
    text = Text(data)
    try:
        top = Scanner(text.whole).document()
    except NotJson as fault:
        return text.finding(*fault.found) if refusal == "not JSON" else None
    told = policies.key_of(top, refusal)
    if refusal == "too many rules":
        full = next((it for it in LISTS if top.member(it) is not None and len(top.member(it).items) > MOST), None)
        member = top.members.get(full)
        return text.finding("too-many-claims", member.start, member.end, f"there are {len(member.value.items)} claims in one list", f"a list has at most {MOST}") if member else None
    if told is None:
        return None
    kind, found = told
    at = RefusedClaim(found.top, found.keys, found.value, found.start, found.end)
    start, end = (at.value.start, at.value.end) if kind == "bad value" and at.value else (at.start, at.end)
    return text.finding(kind.replace(" ", "-"), start, end, *explained(kind, at))
