"""Runs the built program on texts, in a folder of its own and within limits."""
from __future__ import annotations

import os
import re
import signal
import subprocess
import tempfile
from collections import namedtuple
from typing import Any, Dict, List, Optional, Sequence, Union

from tools.commands.messages import policies
from tools.commands.pages.reports import LIMIT as REPORT_LIMIT

# (a trail is the lines of a report that tell of one call)
LIMITS = {"policy": 1_048_576, "old": 1_048_576, "new": 1_048_576, "script": 8_388_608, "report": REPORT_LIMIT, "trail": 1_048_576}
SECONDS = 10
# the limit of a file's size is told to the shell in blocks of 512 bytes
LIMITED = f'ulimit -c 0; ulimit -f {REPORT_LIMIT // 512}; exec "$@"'

# what ./broker says of a program that isn't proved and of one that is slow besides, and how each line of its own begins
NOT_PROVED, NOT_OPTIMISED, OF_THE_BROKER = "broker: this build isn't proved", "nor optimised", "broker: "

# the forms of words that the page can ask for: the texts that become files, numbers with their greatest value, and words that stand in a list. Another form is
# one more entry here and a button with its name in playground.html, which is hidden where the program hasn't the form.
Form = namedtuple("Form", "texts numbers choices", defaults=({}, {}))
GREATEST_BOUND, ALL = 8, "all"
# the word of the program by which a form is asked, where that is another one
ASKED_BY = {"lint-script": "audit-check"}
FORMS = {
    "play": Form(("policy", "script")),
    "run": Form(("policy", "script"), {"workers": 16, "cpus": 16}),
    "explore": Form(("policy", "script"), {"workers": 15}, {"delays": (*map(str, range(GREATEST_BOUND + 1)), ALL)}),
    "audit-check": Form(("policy", "script", "report")),
    "compare": Form(("old", "new")),
    "lint": Form(("policy",)),
    # (which is no word of the program: it is asked by an empty report)
    "lint-script": Form(("script",)),
    # (of these two the program is asked otherwise, see steps.py and decisions.py)
    "step": Form(("policy", "script")),
    "explain": Form(("policy", "trail")),
}

# `line` is what the program said; `marked` is the text and the line that this is about, where that is known, and of a policy from where
# to where in it
Ended = namedtuple("Ended", "status output line marked")


def plain() -> Dict[str, str]:
    """The environment in which ./broker leaves the program's own line of a refusal."""
    return {**os.environ, "SECCOMP_BROKER_PLAIN": "1"}


class Late(Exception):
    """A run that took too long, and was ended."""


class Running:
    """The program with the words of a form, in a folder that has the texts, and in a group of processes that is ended with it. `given` is its standard input."""

    def __init__(self, path: str, form: str, texts: Dict[str, bytes], words: Sequence[Union[int, str]], given: bytes = b"") -> None:
        self.room = tempfile.TemporaryDirectory(prefix="playground-")
        self.output, self.said = tempfile.TemporaryFile(), tempfile.TemporaryFile()
        for name, text in texts.items():
            with open(f"{self.room.name}/{name}", "wb") as file:
                file.write(text)
        whole = [path, form, *texts, *map(str, words)]
        with tempfile.TemporaryFile() as source:
            source.write(given)
            source.seek(0)
            self.process = subprocess.Popen(["/bin/sh", "-c", LIMITED, "sh", *whole], cwd=self.room.name, env=plain(), stdin=source, stdout=self.output, stderr=self.said, start_new_session=True)

    def status(self, seconds: float) -> Optional[int]:
        """How it ended; None where it hasn't after so many seconds."""
        try:
            return self.process.wait(seconds)
        except subprocess.TimeoutExpired:
            return None

    def end(self) -> None:
        """Ends it, and all that it started, also where it has ended itself."""
        try:
            os.killpg(self.process.pid, signal.SIGKILL)
        except ProcessLookupError:
            pass
        self.process.wait()
        self.room.cleanup()

    def printed(self) -> bytes:
        self.output.seek(0)
        return self.output.read()

    def lines(self) -> List[str]:
        """What it said on standard error."""
        self.said.seek(0)
        return self.said.read(65536).decode("utf-8", "replace").splitlines()


class Program:
    """The program that ./broker runs, or the one at a path."""

    def __init__(self, path: str, broker: str) -> None:
        self.path = path
        # (a word without its operands, which the program answers by its usage line)
        said = subprocess.run([path, "play"], env=plain(), stdin=subprocess.DEVNULL, capture_output=True).stderr.decode("utf-8", "replace").splitlines()
        usage = [line for line in said if line.startswith("usage: ")]
        if not usage:
            raise OSError(f"{path} didn't say what words it takes: {' '.join(said)[:300]}")
        offered = {form.split()[0] for form in usage[0][len("usage: "):].split(" | ")}
        self.forms = [form for form in FORMS if ASKED_BY.get(form, form) in offered]
        self.named = path != broker
        self.learn(said)

    def learn(self, said: List[str]) -> None:
        """Notes which program it was that said these lines."""
        of_build = next((line for line in said if line.startswith(NOT_PROVED)), None)
        self.is_slow = of_build is not None and NOT_OPTIMISED in of_build
        self.kind = f"the program at {self.path}" if self.named else "a trial build, which isn't proved" if of_build else "the proved program"

    def about(self) -> Dict[str, Union[bool, str]]:
        """What a page tells of the program."""
        return {"program": self.kind, "slow": self.is_slow}

    def begun(self, form: str, texts: Dict[str, bytes], words: Sequence[Union[int, str]], given: bytes = b"") -> Running:
        return Running(self.path, form, texts, words, given)

    def run(self, form: str, texts: Any, words: Any, given: bytes = b"") -> Any:
        """What the program does with the words of a form, whose texts and words are looked at already."""
        running = self.begun(form, texts, words, given)
        try:
            status = running.status(SECONDS)
            if status is None:
                raise Late from None
        finally:
            running.end()
        return self.ended(running, status, texts)

    def ended(self, running: Running, status: int, texts: Dict[str, bytes]) -> Ended:
        """What came of a run that has ended."""
        lines = running.lines()
        line = "\n".join(line for line in lines if not line.startswith(OF_THE_BROKER))
        self.learn(lines)
        return Ended(status, running.printed(), line, marked_by(line, texts))


def told_of(program: Program, ended: Ended) -> Dict[str, Any]:
    """What a page is told of a run that has ended, beside what was printed."""
    line = ended.line or (f"The program ended with status {ended.status}." if ended.status else "")
    return {"status": ended.status, "line": line, "marked": ended.marked, **program.about()}


def marked_by(line, texts):
    """The text that a refusal is about, and its line."""
    told = re.fullmatch(r"(script|report): line (\d{1,9})(?:: .*)?", line)
    if told:
        return [told[1], int(told[2])] if told[2] != "0" else None
    told = re.fullmatch("(policy|new policy): (.*)", line, re.S)
    # (of two policies the new one is the page's own)
    data = told and texts.get("new" if told[1] == "new policy" else "policy")
    found = policies.marked_by(data, told[2]) if data is not None else None
    return found and ["policy", *found]
