"""Sessions of a program, and where its answers differ from those that are expected."""
from __future__ import annotations

import os
import select
import subprocess
from threading import Thread
from typing import Any, Iterator, List, NamedTuple, Tuple

from tools.commands.command_line.top import TOP
from tools.references.stepping import policies, scripts
from tools.references.stepping.sessions import Session

# in seconds
PATIENCE = 300
HANGS = f"it hasn't ended after {PATIENCE} seconds"
SHOWN = 300


class Files(NamedTuple):
    """A policy and a script, by their paths."""

    policy: str
    script: str

    def session(self) -> Session:
        """The session that they begin."""
        with open(self.policy, "rb") as policy, open(self.script, "rb") as script:
            return Session(policies.read_policy(policy.read()), scripts.read_script(script.read()))

    def words(self, program: str) -> List[str]:
        return [program, "step", self.policy, self.script]

    def rules(self) -> Any:
        with open(self.policy, "rb") as policy:
            return policies.read_policy(policy.read())


def folders() -> Iterator[Tuple[str, Files]]:
    """The folders of cases and examples with a policy and a script that are taken."""
    for part in ("cases", "examples"):
        for name in sorted(os.listdir(f"{TOP}/{part}")):
            files = Files(f"{TOP}/{part}/{name}/policy.json", f"{TOP}/{part}/{name}/script.txt")
            if all(map(os.path.isfile, files)) and is_taken(files):
                yield f"{part}/{name}", files


def script_ended(program: str, word: str, files: Files, script: bytes, room: str) -> Tuple[int, bytes, bytes]:
    """How a word ends on a script under the policy of files: its status, its output, and its line on standard error. The script is written to a folder."""
    with open(f"{room}/script.txt", "wb") as file:
        file.write(script)
    ended = subprocess.run([program, word, files.policy, f"{room}/script.txt"], stdin=subprocess.DEVNULL, capture_output=True, timeout=PATIENCE)
    return ended.returncode, ended.stdout, ended.stderr


def play_ended(program: str, files: Files, script: bytes, room: str) -> Tuple[int, bytes, bytes]:
    """How a play of it ends."""
    return script_ended(program, "play", files, script, room)


def is_taken(files: Files) -> bool:
    try:
        files.session()
    except (policies.Refused, scripts.Refused):
        return False
    return True


def answers_of(session: Any, requests: Any) -> Any:
    return [session.answer(line) for line in requests]


def shown(content):
    text = content.decode("latin-1").rstrip("\n")
    return text if len(text) <= SHOWN else f"{text[:SHOWN]}.. ({len(text)} bytes)"


def line_around(content, at):
    """The line of a text in which a place lies."""
    return shown(content[content.rfind(b"\n", 0, at) + 1:].partition(b"\n")[0]) or "nothing"


def difference(requests, answers, told, first=1):
    """Where the answers of a program differ from the expected ones, in words; None where they don't. `first` is the number of the first request."""
    at = 0
    for place, answer in enumerate(answers):
        wanted, given = answer.encode("latin-1"), told[at:at + len(answer)]
        if given != wanted:
            other = len(os.path.commonprefix([given, wanted]))
            return f"request {first + place}: {shown(requests[place])}\n  expected: {line_around(wanted, other)}\n  answered: {line_around(told[at:], other)}"
        at += len(wanted)
    return f"behind the last answer stands {shown(told[at:])}" if told[at:] else None


def ended_badly(status, said):
    """How a program ended, in words; None where it ended as it should."""
    return None if status == 0 and not said else f"it ended with status {status}, and said {shown(said) or 'nothing'}"


def at_once(program, files, requests, answers):
    """Sends all requests at once; what is wrong, or None."""
    try:
        ended = subprocess.run(files.words(program), input=b"".join(line + b"\n" for line in requests), capture_output=True, timeout=PATIENCE)
    except subprocess.TimeoutExpired:
        return HANGS
    return difference(requests, answers, ended.stdout) or ended_badly(ended.returncode, ended.stderr)


def in_pieces(program, files, requests, answers, chance):
    """Sends all requests in pieces that end anywhere, the last line without its newline; what is wrong, or None."""
    content = b"\n".join(requests)
    with subprocess.Popen(files.words(program), stdin=subprocess.PIPE, stdout=subprocess.PIPE, stderr=subprocess.PIPE, bufsize=0) as asked:
        told = {}
        readers = [Thread(target=lambda name=name, file=file: told.update({name: file.read()})) for name, file in (("out", asked.stdout), ("err", asked.stderr))]
        for reader in readers:
            reader.start()
        try:
            while content:
                size = chance.choice((1, 2, 7, 100, 4096, 65_535, 65_537))
                asked.stdin.write(content[:size])
                content = content[size:]
        except BrokenPipeError:
            pass
        asked.stdin.close()
        for reader in readers:
            reader.join(PATIENCE)
        if any(reader.is_alive() for reader in readers):
            asked.kill()
            return HANGS
    return difference(requests, answers, told["out"]) or ended_badly(asked.returncode, told["err"])


def read_up_to(file: Any, count: int) -> bytes:
    """So many bytes, or fewer where the file ends, or nothing more comes for a while."""
    found = b""
    while len(found) < count and select.select([file], [], [], PATIENCE)[0]:
        part = os.read(file.fileno(), count - len(found))
        if not part:
            break
        found += part
    return found


def one_by_one(program, files, requests, answers):
    """Waits for the answer to each request before the next one; what is wrong, or None."""
    with subprocess.Popen(files.words(program), stdin=subprocess.PIPE, stdout=subprocess.PIPE, stderr=subprocess.PIPE, bufsize=0) as asked:
        try:
            for place, line in enumerate(requests):
                asked.stdin.write(line + b"\n")
                told = read_up_to(asked.stdout, len(answers[place].encode("latin-1")))
                wrong = difference(requests[place:], answers[place:place + 1], told, place + 1)
                if wrong:
                    asked.kill()
                    return wrong
            rest, said = asked.communicate(timeout=PATIENCE)
        except BrokenPipeError:
            return "it ended before its input did"
        except subprocess.TimeoutExpired:
            asked.kill()
            return HANGS
        return difference([], [], rest) or ended_badly(asked.returncode, said)
