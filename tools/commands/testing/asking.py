"""Asks the program: which rule decides each call of a file, which claims on all calls hold, and what the calls of a script come to, in one order of steps or in those within a bound."""
import os
import re
import subprocess
import tempfile

from tools.commands.command_line.ending import reason
from tools.commands.messages.findings import Finding
from tools.commands.real_workloads.script_text import TOKEN
from tools.commands.testing.lines import NotUnderstood

REFUSED, SCRIPT_REFUSED = 4, 5
# statuses of what is printed in full: `check` has others where a claim is refuted, or isn't decided
WHOLE = (0, 11, 12)
LINE = re.compile(r"\bline (\d+)\b")


class NotAsked(Exception):
    """The program can't be asked; the text says why."""


class PolicyRefused(Exception):
    """The program refuses a policy; `lines` say why."""

    def __init__(self, lines):
        super().__init__(lines[0])
        self.lines = lines


class Program:
    """The program, which is asked with files in a folder that is gone afterwards."""

    def __init__(self, path, command):
        self.path, self.command = path, command
        self.room = tempfile.TemporaryDirectory(prefix="test-")

    def asked(self, word, policy, made, *bounds):
        """What the program prints of a file that was made, a script or calls, under a policy."""
        with tempfile.NamedTemporaryFile(dir=self.room.name, suffix=".txt", delete=False) as file:
            file.write(made.data)
        words = [policy, file.name, *bounds]
        try:
            ended = subprocess.run([self.path, word, *words], stdin=subprocess.DEVNULL, stdout=subprocess.PIPE, stderr=subprocess.PIPE)
        except OSError as fault:
            raise NotAsked(f"{self.path}: {reason(fault)}") from None
        finally:
            os.unlink(file.name)
        if ended.returncode not in WHOLE:
            raise self.refusal(ended, word, words, made)
        return ended.stdout

    def refusal(self, ended, word, words, made):
        """Why the program doesn't answer."""
        line = (ended.stderr.decode("utf-8", "replace").splitlines() or [f"the program ended with status {ended.returncode}"])[-1]
        if ended.returncode == REFUSED and line.startswith("policy: "):
            from tools.commands.messages.refusals import Said, entry_of
            return PolicyRefused([line, *Said(entry_of(word), words, line, self.command).explained()])
        if ended.returncode == SCRIPT_REFUSED and word != "explain":
            return NotUnderstood(refused_line(made, line))
        return NotAsked(line)


def refused_line(script, line):
    """What is wrong with the line of the test file for which the program refuses a line of the script."""
    from tools.commands.messages import scripts
    number, reason = line[len("script: line "):].split(": ", 1)
    found = scripts.finding_of(script.data, int(number), reason)
    source = script.source_of(int(number))
    if source is None:
        raise NotAsked(f"the program refuses a script that was made: {line}")
    written = script.lines[int(number) - 1][0].encode("utf-8", "surrogateescape")
    at = sum(token.end() <= found.start for token in TOKEN.finditer(written)) if found.line == int(number) else 0
    word = source.words[min(at, len(source.words) - 1)]
    return Finding("", source.number, word.start, word.end - word.start, renumbered(script, found.words), renumbered(script, found.cure))


def renumbered(script, text):
    """A text in which lines of a script are named by those of the test file that they come from."""
    sources = [(number, script.source_of(int(number))) for number in LINE.findall(text)]
    known = {number: source.number for number, source in sources if source is not None}
    return LINE.sub(lambda found: f"line {known.get(found[1], found[1])}", text)
