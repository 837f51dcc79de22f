"""Tries the names of known differences, without Linux: of each what it answered once, and answers that mustn't get the name.

`wrong_answers.json` has for each name one of the steps of its case, or of another one, and the two answers that differ. These have to get the name. They
mustn't, if Linux's answer is the wrong one, if the journal's line is changed, or in the script without the cause. Some names only probes show. Each rule of
`known.py` is tried so. `with` changes the case's script first.
"""
from __future__ import annotations

import json
import sys
from pathlib import Path
from typing import Iterator, List, Optional

from tools.commands.linux_stage import differences, known, probes, scenes
from tools.commands.linux_stage.folders import TOP
from tools.commands.linux_stage.known import Place

FILE = Path(__file__).resolve().parent / "wrong_answers.json"
ADDRESS = 0x60001033  # any that isn't 0


def step_of(policy: bytes, script: bytes, event: str) -> Optional[scenes.Step]:
    """The step of that kind, the N-th of them if a number stands behind it; None if there are fewer."""
    kind, _, count = event.partition(" ")
    found = [step for step in scenes.steps(policy, script) if step.line.split(" ")[2] == kind]
    return found[int(count or 1) - 1] if len(found) >= int(count or 1) else None


def place_of(row: dict) -> Place:
    """The facts of the play that the row's name needs."""
    return Place(ADDRESS, as_init=True, is_init=row["name"].startswith("init-"), is_orphan=row["name"] == "init-reaps-orphans")


def name_of(row: dict, step: scenes.Step, linux: str, line: str) -> Optional[str]:
    """The name that the row's difference gets at a step, of these answers."""
    found = known.find(line, row["what"], linux, row["here"], step, place_of(row))
    return found and found.name


def faults_of(row: dict, rules: List[known.Rule]) -> Iterator[str]:
    """What is wrong with the name of a row. Its rule is taken out of the others."""
    folder = TOP / (row.get("case") or differences.cases()[row["name"]])
    policy, script = (folder / "policy.json").read_bytes(), (folder / "script.txt").read_bytes()
    old, new = (text.encode() for text in row.get("with", ("", "")))
    if old not in script:
        yield f"there is no {row['with'][0]!r}"
    script = script.replace(old, new) if old else script
    step = step_of(policy, script, row["event"])
    if step is None:
        yield f"there is no {row['event']}"
        return
    rule = known.rule_of(row["what"], known.Seen(row["linux"], row["here"], step, place_of(row)))
    rules[:] = [other for other in rules if other is not rule]
    if name_of(row, step, row["linux"], step.line) != row["name"]:
        yield f"Linux {row['linux']} and here {row['here']} don't get the name"
    if name_of(row, step, row["wrong"], step.line):
        yield f"Linux {row['wrong']} gets a name"
    if name_of(row, step, row["linux"], f"{step.line} EIO"):
        yield "a changed line of the journal gets a name"
    if "without" in row:
        old, new = (text.encode() for text in row["without"])
        other = step_of(policy, script.replace(old, new), row["event"])
        if old not in script or other and name_of(row, other, row["linux"], other.line) == row["name"]:
            yield f"without {row['without'][0]!r} it gets the name"


def faults_of_probe(row: dict) -> Iterator[str]:
    """What is wrong with the name of a row that only probes show."""
    probe = probes.Probe("", row["probe"], row["linux"], row["here"], row["name"], row["linux"])
    if probes.name_of(probe) != row["name"]:
        yield f"{row['linux']} doesn't get the name"
    if probes.name_of(probe._replace(linux=row["wrong"])):
        yield f"{row['wrong']} gets the name"


def run() -> int:
    """Prints what was missed, and gives the exit status."""
    if not (TOP / "cases").is_dir():
        print("on-linux: it needs the cases of a checkout", file=sys.stderr)
        return 2
    rows, found, rules = json.loads(FILE.read_text()), [], list(known.RULES)
    tried = {row["name"] for row in rows}
    found += [f"{name}: no wrong answer, and no reason" for name in sorted(differences.names() - tried)]
    found += [f"{name}: no such difference" for name in sorted(tried - differences.names())]
    for row in rows:
        faults = [] if "none" in row else faults_of_probe(row) if "probe" in row else faults_of(row, rules)
        found += [f"{row['name']}: {fault}" for fault in faults]
    found += [f"{rule.name}: no answer of the file gets it at {rule.at[0]}" for rule in rules]
    print("".join(f"on-linux: {text}\n" for text in found), end="")
    none = sum("none" in row for row in rows)
    print(f"on-linux: {len(tried)} names and {len(known.RULES)} rules, {len(rows) - none} wrong answers, {none} names that no comparison gives; {len(found)} faults")
    return 1 if found else 0
