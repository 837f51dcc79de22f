"""Compares what `compare`, `check` and `lint` say with what is found by brute force, on pairs of policies and claims that are drawn at random.

    tools/checks/check-policies [--pairs N] [--played N] [--seed N] [--first I] [--words WORDS] [PROGRAM]

N pairs are drawn (120). Of `compare` each line but for its call has to be as tools/references/reference-compare has it, of `check` what
each claim comes to as tools/references/reference-check has it, and of `lint` the findings on rules that are exact as
tools/references/reference-lint has them, the rules that pass calls of which other texts are denied, with two such calls of each, and of
damaged policies what is refused and where; a call behind a hint has to be granted. Each
call that is printed has to be decided by the rule that is printed with it, by `explain` and by the simulated kernel in Python, and be at most
each call of the same two rules that brute force finds (`tools/references/deciding/order.py`); for --played of the pairs (20) a call is
played as a script too, and the audit has to name that rule. (No file of calls has a node of another kind or a device's number of more than
32 bits, and no line tells these numbers apart; then the kernel in Python alone is asked.)

PROGRAM is the one that ./broker runs, if none is named. What isn't as it should be is told with the number of the draw, which --first I --pairs 1 makes again.
Exit status: 0 where all is so, else 1. The last line is `policies: N passed, N failed`.
"""
from __future__ import annotations

import os
import re
import subprocess
import tempfile
from collections import Counter
from concurrent.futures import ProcessPoolExecutor
from itertools import zip_longest
from pathlib import Path
from typing import Any, Dict, List, Tuple

from tools.checks.tallies import Tally, TrialParser
from tools.references.deciding import claims as claimed
from tools.references.deciding.cells import HIGH_BIT, cells
from tools.references.deciding.comparing import Change, Pair, changes, counts, pairs
from tools.references.deciding.drawn import drawn, text
from tools.references.deciding.linting import WORDS, findings, lines_of, refusal_line
from tools.references.deciding.order import rank
from tools.references.deciding.passed import passing, registers_of
from tools.references.deciding.played import script_of
from tools.references.stepping.explaining import Refused as NoCall, calls_of
from tools.references.stepping.policies import Refused, read_policy
from tools.references.stepping.rules import Mknod, Rule, decide, fits

EQUAL, DIFFERENT = 0, 11
# at most this many lines behind the first one
MOST_LINES = 1000
ANSWER = r'[a-z]+(?:,error=\w+|,src=\d+,at=(?:\d+|-))?(?:,via="(?:[^"\\]|\\.)*")?(?:,shift)?(?:,times=\d+)?'
CHANGE = re.compile(rf"(wider|narrower|other) (.+) old-rule=(\S+) old=({ANSWER}) new-rule=(\S+) new=({ANSWER})")
COUNT = re.compile(r"counts (.+) and (.+) old=(together|apart) new=(together|apart)")
STANDING = re.compile(r"(held|refuted|undecided) (\S+)(?: (vacuous)|(?: (.+) rule=(\S+))?)")
HINT = re.compile(r".* by=(\S+) call=(.*)")
PASSED = re.compile(r"pass-by-memory .* by=(?P<by>\S+) call=(?P<call>(?:[^\"]|\"(?:[^\"\\]|\\.)*\")*?) denied=(?P<denied>\S+) other=(?P<other>.*)")
UNSURE = "it wasn't found whether another passed call is denied"
DECISION = re.compile(r"\d+ .* rule=(\S+) verdict=.*")
AUDITED = re.compile(rb"^\d+ w0 id=1 \S+ rule=(\S+) verdict=(\S+)", re.M)
OTHER_KINDS = {"dir": 0o040000, "bad": 0o170000}


class Wrong(Exception):
    """What isn't as it should be."""


def need(is_so, what):
    if not is_so:
        raise Wrong(what)


# ---- the program


class Asked:
    """The program, asked about the files of a folder."""

    def __init__(self, program, room):
        self.program, self.room = program, room

    def write(self, name, data):
        Path(self.room, name).write_bytes(data)

    def says(self, *words: str) -> Tuple[int, str]:
        """The exit status, and what is printed."""
        ended = subprocess.run([self.program, *words], cwd=self.room, stdin=subprocess.DEVNULL, capture_output=True)
        need(not ended.stderr, f"{' '.join(words)}: {ended.stderr.decode('latin-1').strip()} (status {ended.returncode})")
        return ended.returncode, ended.stdout.decode("ascii")

    def decisions(self, policy: str, calls: List[str]) -> List[str]:
        """The rules that decide calls, by `explain`."""
        self.write("calls.txt", "".join(f"{call}\n" for call in calls).encode("ascii"))
        _, output = self.says("explain", policy, "calls.txt")
        return [found[1] for found in map(DECISION.fullmatch, output.splitlines()) if found]


# ---- calls that are printed


def requests_of(call: str) -> List[Any]:
    """The calls that a text may stand for: one, or a device with its number in 32 bits and one with more."""
    kind = call.rsplit(" ", 1)[-1]
    try:
        (_, request), = calls_of((call[:-len(kind)] + "reg" if kind in OTHER_KINDS and call.startswith("mknod") else call).encode("ascii"))
    except (NoCall, ValueError):
        raise Wrong(f"no call: {call}") from None
    if not isinstance(request, Mknod):
        return [request]
    request = request._replace(mode=OTHER_KINDS.get(kind, request.mode))
    return [request, request._replace(device=request.device + HIGH_BIT)]


def is_writable(request: Any) -> bool:
    """Whether a file of calls may have it."""
    return not isinstance(request, Mknod) or (request.device < HIGH_BIT and request.mode not in OTHER_KINDS.values())


class Witness:
    """A call that is printed, and the rules that are printed with it, by the policies' names."""

    def __init__(self, call: str, rules_by_policy: Dict[str, List[Rule]], wanted: Dict[str, str]) -> None:
        self.call, self.wanted = call, wanted
        self.request = next((it for it in requests_of(call) if all(decide(rules_by_policy[policy], it).name == rule for policy, rule in wanted.items())), None)
        need(self.request is not None, f"{call} isn't decided by {wanted}")


def check_witnesses(asked: Asked, witnesses: List[Witness]) -> None:
    writable = [it for it in witnesses if is_writable(it.request)]
    for policy in {policy for it in writable for policy in it.wanted}:
        of_policy = [it for it in writable if policy in it.wanted]
        found = asked.decisions(policy, [it.call for it in of_policy])
        need(len(found) == len(of_policy), f"explain says {len(found)} decisions of {len(of_policy)} calls")
        for witness, rule in zip(of_policy, found):
            need(rule == witness.wanted[policy], f"{witness.call}: explain says {rule} of {policy}, and not {witness.wanted[policy]}")


def play(asked: Any, witness: Any) -> None:
    """Plays a witness' call under each policy: the audit has to name the rule."""
    asked.write("script.txt", script_of(witness.request))
    for policy, rule in witness.wanted.items():
        _, output = asked.says("play", policy, "script.txt")
        found = AUDITED.search(output.encode("ascii"))
        need(found and found[1].decode() == rule, f"{witness.call}: the audit of {policy} has {found and found[1].decode()}, and not {rule}")


# ---- the three words


def least_ranks(old, new):
    """Of each pair of rules that decide a call, the least rank of the calls that brute force finds."""
    found = {}
    for cell in cells([*old, *new]):
        pair = Pair(cell.first(0, len(old)), cell.first(len(old), len(old) + len(new)))
        found[pair] = min(found.get(pair, rank(cell.request)), rank(cell.request))
    return found


def compared(asked, rules):
    """Checks `compare`. The witnesses that it prints."""
    old, new = rules["old.json"], rules["new.json"]
    found = [pair for pair, _ in pairs(old, new)]
    changed, counted = changes(old, new, found), counts(old, new, found)
    status, output = asked.says("compare", "old.json", "new.json")
    if not changed and not counted:
        need((status, output) == (EQUAL, "equal\n"), f"compare: they are equal, and it says {output[:200]!r}")
        return []
    head, *lines = output.splitlines()
    need(status == DIFFERENT and head == f"differ classes={len(changed)} counts={len(counted)} whole=yes", f"compare: classes={len(changed)} counts={len(counted)}, and it says {head!r}")
    need(len(lines) == min(len(changed) + len(counted), MOST_LINES), "compare: another number of lines")
    witnesses, least = [], least_ranks(old, new)
    for line, (pair, wanted) in zip(lines, changed):
        it = CHANGE.fullmatch(line)
        need(it and Change(it[1], *it.groups()[2:]) == wanted, f"compare: {line!r} is {wanted}")
        witness = Witness(it[2], rules, {"old.json": wanted.old_rule, "new.json": wanted.new_rule})
        need(rank(witness.request) <= least[pair], f"compare: {line!r} isn't the least call")
        witnesses.append(witness)
    for line, wanted in zip(lines[len(changed):], counted):
        it = COUNT.fullmatch(line)
        need(it and it.groups()[2:] == (("together", "apart") if wanted.is_together_in_old else ("apart", "together")), f"compare: {line!r} is {wanted}")
        witnesses += [Witness(call, rules, {"old.json": old[pair.old].name, "new.json": new[pair.new].name}) for call, pair in ((it[1], wanted.pair), (it[2], wanted.other))]
    return witnesses


def claims_checked(asked: Asked, rules: Dict[str, List[Rule]], data: bytes) -> List[Witness]:
    """Checks `check`. The witnesses that it prints."""
    old, claims = rules["old.json"], claimed.read_claims(data)
    found = [claimed.standing(old, claim) for claim in claims]
    status, output = asked.says("check", "old.json", "claims.json")
    *lines, last = output.splitlines()
    need(len(lines) == len(claims), f"check: {len(lines)} lines on {len(claims)} claims")
    told = [standing_told(old, claim, line, *it) for line, claim, it in zip(lines, claims, found)]
    counted = Counter(word for word, _ in told)
    wanted = f"claims={len(claims)} held={counted['held']} refuted={counted['refuted']}"
    need((status, last) == (DIFFERENT if counted["refuted"] else EQUAL, wanted), f"check: {wanted!r} by its lines, and it says {last!r} with status {status}")
    return [it for _, it in told if it]


def standing_told(old, claim, line, comes_to, against):
    """Checks the line of a claim: its first word, and its witness if there is one."""
    it = STANDING.fullmatch(line)
    need(it and it[2] == claim.rule.name, f"check: {line!r} is no line of {claim.rule.name}")
    need((it[3] or it[1]) == comes_to, f"check: {line!r} is {comes_to}")
    if not against:
        return it[1], None
    need(it[5] in {old[place].name for place in against}, f"check: {line!r} is refuted by {sorted(old[place].name for place in against)}")
    need(any(fits(claim.rule, request) and not claim.is_borne_out_by(decide(old, request)) for request in requests_of(it[4])), f"check: {line!r} doesn't refute the claim")
    return it[1], Witness(it[4], {"old.json": old}, {"old.json": it[5]})


def linted(asked: Any, data: bytes, own: int) -> None:
    """Checks those findings of `lint` on rules that are exact."""
    rules = read_policy(data)
    wanted = list(map(parted, lines_of(data, findings(rules, own))))
    _, output = asked.says("lint", "new.json")
    found = [parted(line) for line in output.splitlines() if line.partition(" ")[0] in (*WORDS, "undecided") and UNSURE not in line]
    for line in output.splitlines():
        hint = HINT.fullmatch(line)
        if hint and not PASSED.fullmatch(line):
            witness = Witness(hint[2], {"new.json": rules}, {"new.json": hint[1]})
            need(decide(rules, witness.request).verdict == "grant", f"lint: {line!r}: the call isn't granted")
            check_witnesses(asked, [witness])
    wrong = next(((one, other) for one, other in zip_longest(wanted, found) if one != other), None)
    need(wrong is None, f"lint: {wrong and wrong[0]}, and it says {wrong and wrong[1]}")
    passed_told(asked, rules, output.splitlines())


def passed_told(asked, rules, lines):
    """Checks which rules pass calls that are denied for other texts, and the two calls of each."""
    found_here = passing(rules)
    names, wanted = sorted(rules[place].name for place in found_here), {}
    for place, denying in found_here.items():
        wanted.setdefault(rules[place].name, set()).update(rules[it].name for it in denying)
    told = [it for it in map(PASSED.fullmatch, lines) if it]
    found, is_unsure = sorted(it["by"] for it in told), any(UNSURE in line for line in lines)
    need(found == names or (is_unsure and not Counter(found) - Counter(names)), f"lint: {names} pass by memory, and it says {found}")
    for it in told:
        need(it["denied"] in wanted[it["by"]], f"lint: {it[0]!r}: that rule denies no such call")
        pairs_of_calls = [(call, other) for call in requests_of(it["call"]) for other in requests_of(it["other"]) if registers_of(call) == registers_of(other)]
        shown = [[(rule.name, rule.verdict) for rule in (decide(rules, call), decide(rules, other))] for call, other in pairs_of_calls]
        need([(it["by"], "pass"), (it["denied"], "deny")] in shown, f"lint: {it[0]!r}: these aren't passed and denied by these rules, with the same registers")
        check_witnesses(asked, [Witness(it[call], {"new.json": rules}, {"new.json": it[rule]}) for call, rule in (("call", "by"), ("other", "denied"))])


def parted(line: str) -> Tuple[List[str], List[str]]:
    """The words of a finding's line, and the names behind them, whose order isn't said."""
    words, _, names = line.partition(" by=")
    return words.split(" "), sorted(names.split(","))


def refusal_told(asked: Asked, data: bytes) -> None:
    """Checks what `lint` says of a damaged policy: the refusal and its place, where it is refused."""
    try:
        read_policy(data)
        return
    except Refused as refused:
        wanted = refusal_line(data, str(refused)).split(" ")
    asked.write("damaged.json", data)
    status, output = asked.says("lint", "damaged.json")
    head, line, *more = output.split("\n")
    need((status, head, more) == (DIFFERENT, "findings=1", [""]) and line.startswith(" ".join(wanted[:-4]) + " "), f"lint: {wanted[0]} at {wanted[1]}, and it says {output[:200]!r}")


# ---- all of it


def fault(program, seed, is_played, words):
    """What isn't as it should be of a draw, in words, or None where all is."""
    it = drawn(seed)
    with tempfile.TemporaryDirectory(prefix="check-policies-") as room:
        asked = Asked(program, room)
        files = {"old.json": text(it.old), "new.json": text(it.new), "claims.json": text(it.claims)}
        for name, data in files.items():
            asked.write(name, data)
        rules = {name: read_policy(files[name]) for name in ("old.json", "new.json")}
        try:
            found = compared(asked, rules) if "compare" in words else []
            more = claims_checked(asked, rules, files["claims.json"]) if "check" in words else []
            witnesses = [*found, *more]
            check_witnesses(asked, witnesses)
            if is_played and witnesses:
                play(asked, witnesses[len(witnesses) // 2])
            if "lint" in words:
                linted(asked, files["new.json"], len(it.new["rules"]))
                refusal_told(asked, it.damaged)
        except Wrong as wrong:
            return str(wrong)
    return None


def main() -> bool:
    parser = TrialParser().add_draws(120, "pairs")
    parser.add_argument("--played", type=int, default=20)
    parser.add_argument("--words", default="compare,check,lint")
    asked = parser.add_program().with_program()
    numbers = range(asked.first, asked.first + asked.pairs)
    with ProcessPoolExecutor(os.cpu_count()) as pool:
        found = [pool.submit(fault, asked.program, f"{asked.seed} {number}", number - asked.first < asked.played, asked.words.split(",")) for number in numbers]
        return Tally("policies").note_all((f"draw {number} of seed {asked.seed}", it.result()) for number, it in zip(numbers, found)).ended()
