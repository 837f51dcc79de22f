"""Pairs of policies and claims that are drawn at random: ordinary ones, of which the second is mostly the first with a change, and hard ones."""
from __future__ import annotations

import copy
import json
import random
from typing import Any, Dict, List, NamedTuple, Tuple

from tools.commands.messages.policy_words import CONDITIONS, FLAGS
from tools.references.stepping.drawn_calls import VALUES_OF, Chooser

# few flags, so that all sets of them can be tried
FEW_FLAGS = {"mount": ("RDONLY", "NODEV", "NOEXEC", "BIND"), "setxattr": FLAGS["setxattr"]}
LONG = "/run/" + "y" * 4090
# directories and paths at the greatest length of a path, and next to it; and values of which no call has one
HARD = {
    "path": (LONG, LONG + "y", LONG[:-1] + "/", "/run/x", "/run/", "/run/../x", "/run/a/b", "\0", "a\0"),
    "under": (LONG[:-1], LONG, LONG + "y", LONG[:-2], "/run/..", "/run/a", "/run/a/b", "/run//a", "/..x", "/ru", "/a\0b"),
    "fstype": ("ext4", "\0", "x" * 4095, "x" * 4096), "source": ("x", LONG, LONG + "y"), "name": ("user.mark", "n" * 255, "n" * 256), "value": ("y", "v" * 4096, "v" * 4097),
}
TIMES = (1, 2)
MOST_CLAIMS = 6


class Drawn(NamedTuple):
    """Two policies, and claims, as values of JSON."""

    old: dict
    new: dict
    claims: dict
    # the bytes of the second policy, with a change that mostly leaves none
    damaged: bytes


class PairChooser(Chooser):
    def __init__(self, chance: random.Random, is_hard: bool) -> None:
        super().__init__(chance)
        self.is_hard = is_hard

    def flags(self, call: str) -> Dict[str, List[str]]:
        return {key: self.some(FEW_FLAGS[call]) for key in self.some(("all", "none"))}

    def rule(self, name: str, profile: bool) -> Dict[str, Any]:
        found = super().rule(name, profile)
        for key in found["when"] if self.is_hard else ():
            if key in HARD and self.chance.random() < 0.7:
                found["when"][key] = self.chance.choice(HARD[key])
        return found

    # ---- a pair

    def pair(self) -> Tuple[Dict[str, Any], Dict[str, Any]]:
        if self.is_hard and self.chance.random() < 0.3:
            return self.chance.choice([self.crosswise, self.covering, self.split])()
        old = self.stated()
        if self.chance.random() < 0.2:
            return old, self.stated()
        new = copy.deepcopy(old)
        for _ in range(self.chance.randrange(1, 4)):
            self.chance.choice([self.add, self.drop, self.swap, self.alter, self.reconfigure])(new)
        return old, new

    def crosswise(self) -> Tuple[Dict[str, Any], Dict[str, Any]]:
        """What one policy counts by calls, and the other by kinds of nodes."""
        calls, kinds, times = ("mknod", "mknodat"), self.chance.sample(("chr", "fifo", "blk", "sock"), 2), self.chance.choice(TIMES)
        by_calls = [self.limited(f"rule-{call}-{kind}", [call], {"kind": kind}, times) for call in calls for kind in kinds]
        old = [self.limited(call, [call], {}, times) for call in calls]
        new = self.chance.choice([by_calls, [self.limited(kind, list(calls), {"kind": kind}, times) for kind in kinds]])
        whole = [{"name": "others", "call": list(calls), "then": "pass"}]
        narrow = [{"name": f"not-{kind}", "call": list(calls), "when": {"kind": kind}, "then": "pass"} for kind in ("reg", "chr", "blk", "fifo", "sock") if kind not in kinds]
        return self.of_rules([*narrow, *old]), self.of_rules([*narrow, *new, *(whole if self.chance.random() < 0.5 else [])])

    def covering(self) -> Tuple[Dict[str, Any], Dict[str, Any]]:
        """Rules whose flags cover all mounts together, and one behind them."""
        flag, other = self.chance.sample(FEW_FLAGS["mount"], 2)
        rules = [{"name": name, "call": "mount", "when": {"flags": stated}, "then": self.chance.choice(["grant", "pass", {"deny": "EPERM"}])}
                 for name, stated in (("with", {"all": [flag]}), ("without", {"none": [flag]}), ("behind", {"all": [other]}))]
        return self.of_rules(rules), self.of_rules(self.chance.sample(rules, self.chance.randrange(1, 4)))

    def split(self) -> Tuple[Dict[str, Any], Dict[str, Any]]:
        """A rule that is limited, and the same in two."""
        call, times = self.chance.choice([("mknod", "kind", "fifo"), ("mount", "fstype", "ext4"), ("setxattr", "name", "user.mark")]), self.chance.choice(TIMES)
        whole, part = self.limited("whole", [call[0]], {}, times), self.limited("part", [call[0]], {call[1]: call[2]}, times)
        one, other = self.chance.sample([self.of_rules([whole]), self.of_rules([part, whole])], 2)
        return one, other

    @staticmethod
    def limited(name: str, calls: List[str], when: Dict[str, str], times: int) -> Dict[str, Any]:
        return {"name": name, "call": calls, "when": when, "then": "grant", "times": times}

    def of_rules(self, rules: List[Dict[str, Any]]) -> Dict[str, Any]:
        return {"version": 2, "profile": "lxd", "rules": rules}

    # ---- changes of a policy

    def add(self, policy: Dict[str, Any]) -> None:
        policy["rules"].insert(self.chance.randrange(len(policy["rules"]) + 1), self.rule(f"new-{len(policy['rules'])}-{self.chance.randrange(10**6)}", "profile" in policy))

    def drop(self, policy: Dict[str, Any]) -> None:
        if policy["rules"]:
            policy["rules"].pop(self.chance.randrange(len(policy["rules"])))

    def swap(self, policy: Dict[str, Any]) -> None:
        if len(policy["rules"]) > 1:
            at = self.chance.randrange(len(policy["rules"]) - 1)
            policy["rules"][at:at + 2] = policy["rules"][at:at + 2][::-1]

    def alter(self, policy: Dict[str, Any]) -> None:
        """Another value of a condition, or a condition less."""
        stated = [(rule, key) for rule in policy["rules"] for key in rule["when"]]
        if not stated:
            return
        rule, key = self.chance.choice(stated)
        if key == "flags" or self.chance.random() < 0.3:
            rule["when"].pop(key)
        else:
            rule["when"][key] = self.chance.choice(VALUES_OF[key])

    def reconfigure(self, policy: Dict[str, Any]) -> None:
        policy["config"] = self.config("profile" in policy)

    # ---- claims

    def claims(self, policy: Dict[str, Any]) -> Dict[str, Any]:
        """Claims, some of which say what rules of the policy say, or more."""
        found: Dict[str, List[Dict[str, Any]]] = {"expect": [], "never": []}
        for at in range(self.chance.randrange(MOST_CLAIMS)):
            own = [rule for rule in policy.get("rules", ())]
            claim = copy.deepcopy(self.chance.choice(own)) if own and self.chance.random() < 0.6 else self.rule("", True)
            claim.pop("times", None)
            claim["name"] = f"claim-{at}"
            if self.chance.random() < 0.4:
                self.narrow(claim)
            found[self.chance.choice(["expect", "never"])].append(claim)
        return {key: value for key, value in found.items() if value or self.chance.random() < 0.5}

    def narrow(self, claim: Dict[str, Any]) -> None:
        """A condition more."""
        calls = [claim["call"]] if isinstance(claim["call"], str) else claim["call"]
        stated = claim.get("when", {})
        keys = [key for key, known in CONDITIONS.items() if key != "flags" and key not in stated and all(call in known.calls for call in calls)]
        if keys:
            key = self.chance.choice(keys)
            claim["when"] = {**stated, key: self.chance.choice(VALUES_OF[key])}


def drawn(seed: str) -> Drawn:
    chance = random.Random(seed)
    chooser = PairChooser(chance, chance.random() < 0.5)
    old, new = chooser.pair()
    return Drawn(old, new, chooser.claims(old), damaged(chance, text(new)))


def damaged(chance: random.Random, data: bytes) -> bytes:
    """Some bytes, with one or two of them changed, left out or put in: marks of JSON, and letters of words."""
    found = bytearray(data)
    for _ in range(chance.randrange(1, 3)):
        at = chance.randrange(len(found))
        found[at:at + chance.randrange(2)] = chance.choice([b"", b"x", b"1", b'"', b",", b":", b"{", b"]", b"}", b"[]", b"null"])
    return bytes(found)


def text(value: Dict[str, Any]) -> bytes:
    """A value as the bytes of a file, in lines."""
    return json.dumps(value, indent=1).encode()
