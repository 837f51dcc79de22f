"""Runs the program beside this process, passes on what it says on standard error, and adds what that means."""
from __future__ import annotations

import os
import signal
import subprocess
import sys
from typing import Any, Callable, Dict, Iterator, List, Tuple

from tools.commands.command_line import children
from tools.commands.messages.speaking import say

# in bytes
MOST_OF_A_POLICY = 1 << 20
OF_THE_COMMAND, OF_ALL_WORDS = b"broker: ", b"usage: "
# how `judge` ends where it has judged
JUDGED = (0, 11)
# the words that play a script's schedule
SCHEDULED = ("play", "handover", "judge")
# what is likely a mistake, but only where a schedule is played
OF_SCHEDULES = ("no-schedule", "task-never-comes", "task-never-steps", "no-worker-steps")


def passed_on(process: Any, before: Any) -> str:
    """Passes on what a process says on standard error, but for the forms of all words, and calls `before` in front of each line; the last line that isn't the command's own."""
    last = b""
    for line in process.stderr:
        last = last if line.startswith(OF_THE_COMMAND) else line
        before()
        if line.startswith(OF_ALL_WORDS):
            continue
        try:
            os.write(sys.stderr.fileno(), line)
        except OSError:
            pass
    return last.decode("utf-8", "replace").rstrip("\n")


def run_beside(path: str, words: List[str], before: Callable[..., Any] = lambda: None) -> Tuple[int, str]:
    """Runs the program, whose output is this process's own. How it ended, and the last line that it said; `before` is called in front of each line."""
    # (a background job of a shell inherits an ignored interrupt, and so does the program then)
    passed = [number for number in (signal.SIGINT, signal.SIGTERM, signal.SIGHUP) if signal.getsignal(number) != signal.SIG_IGN]
    # no interrupt may end this process before the program, whose end is then this one's
    for number in passed:
        signal.signal(number, lambda *_: None)
    # (whoever kills the command means the program)
    with subprocess.Popen([path, *words], stderr=subprocess.PIPE, preexec_fn=children.end_with_parent) as process:
        for number in passed:
            signal.signal(number, lambda got, _: process.send_signal(got))
        said = passed_on(process, before)
        return process.wait(), said


def end_as(status: int) -> int:
    """The exit status with which this process ends as another did; a signal that ended that one ends this one."""
    if status < 0:
        signal.signal(-status, signal.SIG_DFL)
        os.kill(os.getpid(), -status)
    return status


def warnings(entry: Dict[str, Any], operands: List[str], asked: bool) -> Iterator[List[str]]:
    """What the program takes and is likely a mistake. Keys that are almost LXD's are told always, since nobody means them; the rest if it is asked for."""
    from tools.commands.messages import policies
    from tools.commands.messages.findings import Text, message
    from tools.commands.messages.refusals import data_of, files_in, parted
    operands, _ = parted(entry, operands)
    for container in range(len(operands[2:]) // 2 if entry["word"] == "pod" else 1):
        files = files_in(entry, operands, container)
        policy, script = (data_of(files[kind]) if kind in files else None for kind in ("policy", "script"))
        if policy is not None:
            found = [*policies.foreign_keys(policy), *(policies.doubled_keys(policy) if asked else ())]
            yield from (message(it, files["policy"], Text(policy), "warning: ") for it in found)
        if script is not None and asked:
            from tools.commands.messages import likely
            found = [it for it in likely.findings(Text(script)) if entry["word"] in SCHEDULED or it.name not in OF_SCHEDULES]
            yield from (message(it, files["script"], Text(script), "warning: ") for it in found)


def passed_by_memory(entry: Dict[str, Any], operands: List[str]) -> List[str]:
    """Notes on the calls that the play of a script passes, and that are denied if other bytes stand in their memory."""
    from tools.commands.messages.refusals import data_of, files_in
    from tools.references.judging.passing import notes
    from tools.references.stepping import policies, scripts
    from tools.references.stepping.plays import played
    from tools.references.stepping.sessions import Session
    files = files_in(entry, operands, 0)
    policy, script = data_of(files["policy"]), data_of(files["script"])
    if policy is None or script is None:
        return []
    rules, container = policies.read_policy(policy), scripts.read_script(script)
    session = Session(rules, container)
    played(session, rules, container, session.judge.hear)
    return [f"note: {files['policy']}: {note.text}" for note in notes(session.judge, {})]


def has_config(operand: str) -> bool:
    """Whether a file may be a policy with LXD's keys, of which one may be misspelled."""
    try:
        if not os.path.isfile(operand):
            return False
        with open(operand, "rb") as file:
            return b'"config"' in file.read(MOST_OF_A_POLICY)
    except (OSError, ValueError):
        return False


def told(entry: Dict[str, Any], operands: List[str], command: str, path: str, status: int, line: str, asked: bool) -> List[str]:
    """The lines that are added to what the program said."""
    # (what a call doesn't need isn't read for it: that takes longer than most plays)
    noted = passed_by_memory(entry, operands) if asked and entry["word"] == "judge" and status in JUDGED else []
    if status > 0:
        from tools.commands.messages.refusals import Said
        from tools.commands.messages.reports import explained_report
        said = Said(entry, operands, line, command)
        return [*said.explained(lambda files, number: explained_report(path, files, number)), *noted]
    if status < 0 or not asked and not any(map(has_config, operands)):
        return []
    return [*(line for lines in warnings(entry, operands, asked) for line in lines), *noted]


def finish(path: str, entry: Dict[str, Any], operands: List[str], command: str, status: int, line: str, asked: bool) -> int:
    """Says more of what the program said as it ended. The exit status is the program's."""
    try:
        say(told(entry, operands, command, path, status, line, asked))
    except Exception as fault:  # a message that can't be made changes nothing of how the command ends
        say([line] if line.startswith(OF_ALL_WORDS.decode()) else [f"broker: no more can be said of this: {fault!r}"] if asked else [])
    return end_as(status)


def run(path: str, entry: Dict[str, Any], operands: List[str], command: str, asked: bool) -> int:
    """Runs a word of the program, and says more of what it said: `asked` is whether that was asked for in words."""
    status, line = run_beside(path, [entry["word"], *operands])
    return finish(path, entry, operands, command, status, line, asked)
