"""Trials of the judge over histories that are drawn at random. Those of free workers are played and judged by the program, and judged here and by the definition, read word by word; those of this project's own workers keep every clause."""
import random
import subprocess
import tempfile
from collections import Counter
from functools import lru_cache, partial
from itertools import islice
from multiprocessing import get_context
from pathlib import Path
from typing import NamedTuple, Optional

from tools.checks import fuzz
from tools.commands.command_line.top import TOP
from tools.references.judging import clauses
from tools.references.judging.by_program import judgement_fault
from tools.references.judging.definition import Definition
from tools.references.judging.free_workers import FreeWorkers, Mistake
from tools.references.judging.judge import Judge
from tools.references.judging.reported import followed_report
from tools.references.stepping import policies, scripts
from tools.references.stepping.asking import Files, folders, play_ended
from tools.references.stepping.inputs import read_files
from tools.references.stepping.plays import played
from tools.references.stepping.replay import SPENT
from tools.references.stepping.sessions import Session
from tools.references.stepping.turns import script_text

BROKERS, JUDGED = TOP / "tests/brokers", TOP / "tests/judged"
ACTORS = ("t 0", "t 0", "t 0.1", "t 0.1", "t 0.2", "t 0.1.1", "w 0", "w 0", "w 1", "w 2")
MEDIATED = "mediated"
# the program's statuses where a policy or a script is too long, or is refused
REFUSED = (3, 4, 5)
# where a mistake shows that seldom does elsewhere
SHOWN_BY = (
    (Mistake.RELIES_ON_LESS, JUDGED / "defined", "reused"), (Mistake.RELIES_ON_LESS, JUDGED, "killed"), (Mistake.RELIES_ON_LESS, JUDGED, "rewritten-between"), (Mistake.KEEPS_MEMORY, BROKERS, "reused"),
    (Mistake.DOES_AFTERWARDS, JUDGED / "defined", "two_nodes"), (Mistake.OPENS_NO_BASE, JUDGED / "defined", "near_node"), (Mistake.NEVER_COUNTS, JUDGED / "defined", "two_figures"),
)


class Trial(NamedTuple):
    """What came of a trial: the first clause that is broken, or that the broker has mediated; and what is wrong, or None."""

    judged: str
    wrong: Optional[str] = None


def files_in(folder):
    return [Files(str(folder / "policy.json"), str(path)) for path in sorted((folder / "scripts").iterdir())]


@lru_cache(maxsize=None)
def small_files():
    """Policies and scripts that were made for brokers."""
    return [files for folder in (JUDGED, JUDGED / "defined", BROKERS) for files in files_in(folder)]


@lru_cache(maxsize=None)
def stored_files():
    """Those of cases and examples."""
    return [files for _, files in folders()]


@lru_cache(maxsize=None)
def read(files):
    return read_files(*files)


# ---- free workers


def free_trial(program, seed, number):
    """A history of free workers: the program plays it as it was drawn, it is judged as the definition says, and no worker that does what is right breaks a clause."""
    chance, mistake = random.Random(f"{seed} free {number}"), None
    files = chance.choice(stored_files() if chance.random() < 0.3 else small_files())
    if chance.random() < 0.3:
        mistake, folder, name = chance.choice(SHOWN_BY)
        files = Files(str(folder / "policy.json"), str(folder / f"scripts/{name}.txt"))
    drawn = FreeWorkers(*read(files), chance, mistake).draw_history()
    watched, script = drawn.watched, drawn.script
    watched.answer(b"close")
    fault, defined = watched.judge.fault, Definition(watched).first_fault()
    found = None if fault is None else (fault.place, fault.clause, fault.gravity)
    judged = MEDIATED if fault is None else f"{fault.clause.name} {'of an answer' if fault.clause is clauses.ANSWER_WITHOUT_CALL else ''}".rstrip()
    if found != defined:
        return Trial(judged, f"the definition says {told(defined)}, and the judge {told(found)}, over {files.script}")
    if fault is not None and drawn.is_right:
        return Trial(judged, f"what is right is judged, over {files.script}:\n{watched.judge.text()}")
    return Trial(judged, None if program is None else program_fault(program, files, script, watched))


def told(found):
    return "mediated" if found is None else f"{found[0]} {found[2].value} {found[1].name}"


def program_fault(program, files, script, watched):
    """What is wrong with the program's play of a script, or with its judgement, where this was watched."""
    with tempfile.TemporaryDirectory(prefix="check-judge-") as room:
        played_otherwise = ended_fault(play_ended(program, files, script, room), files, watched.session.report())
        return played_otherwise or judgement_fault(program, files, script, watched.judge.text(), room)


def ended_fault(ended, files, report):
    """What is wrong with how a play has ended, of which this is the report."""
    status, printed, said = ended
    if status != 0:
        return f"the program ends with status {status}, and says {said.decode('latin-1').rstrip()}, over {files.script}"
    return None if printed == report.encode("latin-1") else f"the program plays another history, over {files.script}"


# ---- this project's own workers


def judged_play(program, room, policy, script):
    """The play of a script by the program, judged here and by the program. None where it is refused."""
    files = Files(f"{room}/policy.json", f"{room}/script.txt")
    Path(files.policy).write_bytes(policy)
    ended = play_ended(program, files, script, room)
    if ended[0] in REFUSED:
        return None
    rules, container = policies.read_policy(policy), scripts.read_script(script)
    session = Session(rules, container)
    judge = Judge(session.kernel, rules)
    report = played(session, rules, container, judge.hear).report()
    if judge.fault is not None:
        return Trial(judge.fault.clause.name, judge.text())
    return Trial(MEDIATED, ended_fault(ended, files, report) or judgement_fault(program, files, script, judge.text(), room))


def fuzz_trial(program, seed, number):
    """An input of tools/checks/fuzz; None where it is no play, or is refused."""
    words, policy, script, _ = fuzz_inputs(seed).made(number)
    if words[:1] != ["play"] or len(words) != 3:
        return None
    with tempfile.TemporaryDirectory(prefix="check-judge-") as room:
        return judged_play(program, room, policy, script)


@lru_cache(maxsize=None)
def fuzz_inputs(seed):
    """The inputs of tools/checks/fuzz."""
    return fuzz.Inputs(seed)


def scheduled(chance, script):
    """A script with a schedule at random, of tasks and workers that it may have."""
    steps = "".join(f"{chance.choice(ACTORS)} {chance.randint(1, 4)}\n" for _ in range(chance.randint(5, 80)))
    return script.split(b"\nschedule")[0] + f"\nschedule\n{steps}end\n".encode()


def drawn_play(program, seed, number):
    """A script of a case or an example, with a schedule at random."""
    chance = random.Random(f"{seed} play {number}")
    files = chance.choice(stored_files())
    with tempfile.TemporaryDirectory(prefix="check-judge-") as room:
        return judged_play(program, room, Path(files.policy).read_bytes(), scheduled(chance, Path(files.script).read_bytes()))


def threaded_run(program, seed, number):
    """Such a script with threads, by workers that serve all calls, or in lanes."""
    chance = random.Random(f"{seed} threads {number}")
    files = chance.choice(stored_files())
    word, numbers = chance.choice((("run", ["2", "2"]), ("run", ["3", "1"]), ("lanes", ["2"])))
    ended = subprocess.run([program, word, *files, *numbers], stdin=subprocess.DEVNULL, capture_output=True)
    if ended.returncode != 0:
        return Trial("-", f"status {ended.returncode} of {word}, over {files.script}")
    report = ended.stdout.decode("latin-1")
    followed = followed_report(report, *read(files))
    if followed.judge.fault is not None:
        return Trial(followed.judge.fault.clause.name, f"{word} over {files.script}:\n{followed.judge.text()}")
    # (no request asks for what a spent rule refuses)
    return Trial(MEDIATED, None if SPENT.search(report) else followed_fault(program, files, followed))


def followed_fault(program, files, followed):
    """What is wrong with the program's judgement of the script that plays a followed history again."""
    script = script_text(followed.kernel.container.front, followed.kernel.events).encode("latin-1")
    with tempfile.TemporaryDirectory(prefix="check-judge-") as room:
        return judgement_fault(program, files, script, followed.judge.text(), room)


# ---- many of them


def tried(trial, numbers, jobs):
    """The trials of some numbers, in their order, by so many processes."""
    if jobs == 1:
        yield from map(trial, numbers)
        return
    with get_context("fork").Pool(jobs) as pool:
        yield from pool.imap(trial, numbers, 8)


def free_trials(program, seed, count, jobs):
    return tried(partial(free_trial, program, seed), range(count), jobs)


def fuzz_trials(program, seed, count, jobs):
    """So many plays of inputs of tools/checks/fuzz that aren't refused."""
    # (they are made before the processes that share them)
    fuzz_inputs(seed)
    plays = (trial for trial in tried(partial(fuzz_trial, program, seed), range(100 * count), jobs) if trial is not None)
    yield from islice(plays, count)


def play_trials(program, seed, count, jobs):
    return tried(partial(drawn_play, program, seed), range(count), jobs)


def thread_trials(program, seed, count, jobs):
    return tried(partial(threaded_run, program, seed), range(count), jobs)


def clauses_unmet(judged: Counter):
    """The clauses that none of the histories has broken. A text is torn only where a task writes between two reads of it, which is seldom drawn."""
    names = {f"{it.name} of an answer" if it is clauses.ANSWER_WITHOUT_CALL else it.name for it in clauses.CLAUSES if it is not clauses.TORN}
    return sorted(names - set(judged))
