"""Tries the judges of brokers: the one in Python, and the program's word `judge`.

    tools/checks/check-judge [--free N] [--fuzzed N] [--plays N] [--threaded N] [--seed N] [--jobs N] [PROGRAM]
    tools/checks/check-judge --write

Each session of tests/judged has to be judged as its text says, and to be answered by PROGRAM as it stands there. The script of each, as the
request `script` makes it, is judged by `PROGRAM judge`, which has to print the same text, byte for byte. Those of tests/judged/defined are
the small histories for which the definition's verdict is proved (crates/broker_verdict/src/mistakes.rt and allowed.rt), and have these
verdicts; docs/clauses has the pictures of those that break a clause.

N schedules (300) are drawn of workers that do likely and unlikely things: PROGRAM has to play the history that was drawn, the judge has to
say of it what the definition says, read word by word, `PROGRAM judge` has to print what the judge says, and a worker that does what is
right breaks no clause. Of 300 and more each clause is broken by some.

This project's own workers break no clause: in the stored reports of cases and examples, in N plays (60) of inputs of tools/checks/fuzz, in
N plays (30) of these scripts with random schedules, and in N of `run` and `lanes` (20). `PROGRAM judge` says so of the plays, with the same
counts, and of the runs in which no rule was spent.

For each policy of cases and examples calls are drawn, and the rule that decides each has to be the one that the program's word `explain`
names. PROGRAM is the one that ./broker runs, if none is named. --write writes the answers of the sessions and the pictures anew, and judges
nothing.

Exit status: 0 where all passed, else 1, also where PROGRAM has no word `judge`. The last line is `judge: N passed, N failed`; above it
stands how many histories have kept each clause, or broken which.
"""
from __future__ import annotations

import re
import subprocess
import tempfile
from argparse import Namespace
from collections import Counter
from pathlib import Path
from typing import List, Optional, Tuple

from tools.checks.tallies import Tally
from tools.commands.command_line import arguments
from tools.commands.command_line.arguments import ToolParser
from tools.commands.command_line.top import TOP
from tools.references.judging.by_program import has_judge, judgement_fault
from tools.references.judging.drawn_trials import clauses_unmet, free_trials, fuzz_trials, play_trials, thread_trials
from tools.references.judging.explained import differences
from tools.references.judging.pictures import picture_of, place_of
from tools.references.judging.reported import followed_report
from tools.references.judging.sessions import Follower, read_session, session_text
from tools.references.stepping.asking import Files, at_once, folders
from tools.references.stepping.inputs import read_files

JUDGED = TOP / "tests/judged"
DEFINED, VERDICT = JUDGED / "defined", TOP / "crates/broker_verdict/src"

POLICY, SCRIPT = re.compile(r"^# policy: (\S+)$", re.M), re.compile(r"^# script: (\S+)$", re.M)
JUDGED_AS, IDLE = re.compile(r"^# judged: (.*)$", re.M), re.compile(r"^# idle$", re.M)
# a history of the definition for which a verdict is proved: its name, its script, and the event and the clause where one is broken
PROVED = re.compile(r"ensures \w* ?\{ Breaks(?:None)? (\w+) (\w+)(?: (\d+) (\w+))? \}")
# of so many histories of free workers each clause is broken by some
ENOUGH = 300
# words that the command refuses: the policy, the script and the session, the status, and the beginning of what is said
REFUSED = (
    ((), 1, "usage: reference-judge "),
    (("no-such-file", "scripts/killed.txt", "sessions/denied.txt"), 2, "read fault: policy"),
    (("scripts/killed.txt", "scripts/killed.txt", "sessions/denied.txt"), 4, "policy: not JSON"),
    (("policy.json", "policy.json", "sessions/denied.txt"), 5, "script: line 1: "),
    (("policy.json", "scripts/killed.txt", "scripts/killed.txt"), 9, "session: line 2: it begins neither"),
    (("policy.json", "scripts/killed.txt", "sessions/denied.txt"), 9, "session: line "),
    (("policy.json", "scripts/kept.txt", "sessions/denied.txt"), 0, ""),
    (("policy.json", "scripts/kept.txt", "sessions/denied-path-made.txt"), 11, ""),
)


# ---- the sessions of tests/judged


def stored_sessions() -> List[Tuple[Path, str]]:
    """The paths of the sessions, with their texts."""
    return [(path, path.read_text(encoding="latin-1")) for folder in (JUDGED, DEFINED) for path in sorted((folder / "sessions").iterdir())]


def files_of(path, text):
    policy, folder = POLICY.search(text), path.parent.parent
    return Files(str(folder / f"{policy[1] if policy else 'policy'}.json"), str(folder / f"scripts/{SCRIPT.search(text)[1]}.txt"))


def try_sessions(count, program):
    for path, text in stored_sessions():
        files, exchanges = files_of(path, text), read_session(text.encode("latin-1"))
        follower = Follower(*read_files(*files))
        follower.follow(exchanges)
        count.note(f"the script of {path.stem}", script_fault(program, files, follower))
        if IDLE.search(text):
            follower.judge.note_idle()
        found, wanted = follower.judge.text().split("\n")[0], JUDGED_AS.search(text)[1]
        count.note(path.stem, None if found == wanted else f"expected {wanted}, and it is {follower.judge.text()}")
        if path.parent.parent == DEFINED and follower.judge.fault is not None:
            picture = place_of(path)
            is_kept = picture.is_file() and picture.read_bytes() == picture_of(follower)
            count.note(f"the picture of {path.stem}", None if is_kept else f"{picture.relative_to(TOP)} is another one; --write writes it")
        answers = [exchange.answer.decode("latin-1") + "\n" for exchange in exchanges]
        count.note(f"{path.stem} by the program", at_once(program, files, [exchange.request for exchange in exchanges], answers))


def script_fault(program, files, follower):
    """What is wrong with the program's judgement of the script of a session."""
    with tempfile.TemporaryDirectory(prefix="check-judge-") as room:
        return judgement_fault(program, files, follower.session.script().encode("latin-1"), follower.judge.text(), room)


def write_sessions() -> None:
    for path, text in stored_sessions():
        follower = Follower(*read_files(*files_of(path, text)))
        requests = [exchange.request for exchange in read_session(text.encode("latin-1"))]
        head = "".join(line + "\n" for line in text.split("\n") if line.startswith("#"))
        path.write_bytes(head.encode("latin-1") + session_text((request, follower.answer(request).encode("latin-1")) for request in requests))
        if path.parent.parent == DEFINED and follower.judge.fault is not None:
            place_of(path).write_bytes(picture_of(follower))


def clause_named(variant: str) -> str:
    """The name of a clause of the definition in the judge."""
    return "no-call" if variant.endswith("WithoutCall") else re.sub(r"(?<!^)(?=[A-Z])", "-", variant).lower()


def try_definition(count):
    """Each small history for which the definition's verdict is proved has a session, over the same script, and is judged so."""
    for script, name, place, variant in PROVED.findall("".join((VERDICT / f"{part}.rt").read_text() for part in ("mistakes", "allowed"))):
        path = DEFINED / f"sessions/{name}.txt"
        text = path.read_text() if path.is_file() else ""
        judged, over = JUDGED_AS.search(text), SCRIPT.search(text)
        found = judged[1].split() if judged else [None]
        right = [found[1], found[3]] == [place, clause_named(variant)] if variant and found[0] == "broken" else not variant and found[0] == "mediated"
        count.note(f"{name} as it is proved", None if right and over[1] == script else f"{path.relative_to(TOP)} has another verdict or script")


def try_refusals(count: Tally) -> None:
    for words, status, said in REFUSED:
        ended = subprocess.run([TOP / "tools/references/reference-judge", *words], cwd=JUDGED, stdin=subprocess.DEVNULL, capture_output=True, text=True)
        right = ended.returncode == status and ended.stderr.startswith(said) and bool(ended.stderr) == bool(said)
        count.note(f"reference-judge {' '.join(words)}", None if right else f"status {ended.returncode}, and it says {ended.stderr}")


# ---- histories


def stored_report(folder: str) -> Optional[str]:
    found = next((path for name in ("stdout", "report.txt") for path in [TOP / folder / name] if path.is_file()), None)
    text = found.read_text("latin-1").partition("handovers ")[0] if found else ""
    return text if text.startswith("journal ") and "\nsummary " in text else None


def try_reports(count: Tally, known: List[Tuple[str, Files]]) -> None:
    for folder, files in known:
        report, session = stored_report(folder), files.session()
        if report is not None:
            judge = followed_report(report, session.rules, session.kernel.container).judge
            count.note(f"the report of {folder}", judge.text() if judge.fault else None)


def try_drawn(count, name, trials, asked):
    """Counts the trials of one kind; prints and gives what was judged of the histories."""
    judged = Counter()
    for number, trial in enumerate(trials):
        judged[trial.judged] += 1
        count.note(f"{name} {number} (--seed {asked.seed})", trial.wrong)
    print(f"judge: {sum(judged.values())} {name}: " + ", ".join(f"{found} {clause}" for clause, found in judged.most_common()), flush=True)
    return judged


def try_histories(count: Tally, program: str, asked: Namespace) -> None:
    judged = try_drawn(count, "of free workers", free_trials(program, asked.seed, asked.free, asked.jobs), asked)
    if asked.free >= ENOUGH:
        unmet = clauses_unmet(judged)
        count.note("the clauses that free workers break", f"none has broken {', '.join(unmet)}" if unmet else None)
    try_drawn(count, "of inputs of fuzz", fuzz_trials(program, asked.seed, asked.fuzzed, asked.jobs), asked)
    try_drawn(count, "with random schedules", play_trials(program, asked.seed, asked.plays, asked.jobs), asked)
    try_drawn(count, "with threads", thread_trials(program, asked.seed, asked.threaded, asked.jobs), asked)


# ---- decisions


def try_decisions(count: Tally, program: str, known: List[Tuple[str, Files]]) -> None:
    policies = {Path(files.policy).read_bytes(): (folder, files) for folder, files in known}
    for number, (folder, files) in enumerate(policies.values()):
        count.note(f"the rules of {folder}", "\n".join(differences(program, files.policy, files.session().rules, number)) or None)


def main():
    parser = ToolParser()
    for name, number in (("free", ENOUGH), ("fuzzed", 60), ("plays", 30), ("threaded", 20), ("seed", 1), ("jobs", 1)):
        parser.add_argument(f"--{name}", type=int, default=number)
    parser.add_argument("--write", action="store_true")
    parser.add_program()
    asked = parser.parse_args()
    if asked.write:
        write_sessions()
        return 0
    program = arguments.named_or_own(asked.program)
    count, known = Tally("judge"), list(folders())
    if not has_judge(program):
        print(f"judge: {program} has no word `judge`\njudge: 0 passed, 1 failed")
        return 1
    try_sessions(count, program)
    try_definition(count)
    try_refusals(count)
    try_reports(count, known)
    try_histories(count, program, asked)
    try_decisions(count, program, known)
    return count.ended()
