"""The kernel of a run: the written one in Python with a judge beside it. Behind the run the program is asked for the same and at last for its own judgement, which is proved, and its answers have to be equal."""
from typing import List, NamedTuple, Optional

from tools.commands.exploring.processes import Answering
from tools.references.judging.sessions import Follower


class Asked(NamedTuple):
    """A request that was made, and the line that answered it."""

    request: bytes
    answer: bytes


class Difference(NamedTuple):
    """The first request that the program answers otherwise: its place among all, behind which stands the one for a judgement, and both answers."""

    place: int
    request: bytes
    told: bytes
    other: bytes


class Kernel:
    """What a run asks for. It keeps all that was asked."""

    def __init__(self, files):
        self.follower = Follower(files.rules, files.container, files.decided)
        self.state, self.judge = self.follower.kernel, self.follower.judge
        # what was asked, and the answers, each with its newline, of a report all of it
        self.requests: List[bytes] = []
        self.answers: List[bytes] = []
        self.program: Optional[Answering] = None
        # whether the broker does nothing more; and what asks for the judgement of the run, with its answer
        self.is_idle, self.judgement = False, Asked(b"", b"")

    def ask(self, request: bytes) -> bytes:
        """The answer to a request, with its newline."""
        told = self.follower.answer(request).encode("latin-1")
        self.requests.append(request)
        self.answers.append(told)
        return told

    @property
    def session(self) -> List[Asked]:
        return [Asked(request, told.partition(b"\n")[0]) for request, told in zip(self.requests, self.answers)]

    def note_idle(self):
        """Notes that the broker does nothing more by itself."""
        self.is_idle = True
        self.judge.note_idle()

    def ask_program(self, words):
        """Asks the program that these words start for all that was asked here, and for its judgement, at once."""
        request = b"judge idle" if self.is_idle else b"judge"
        self.judgement = Asked(request, self.follower.answer(request).encode("latin-1"))
        self.program = Answering(words, b"".join([asked + b"\n" for asked in (*self.requests, request)]))

    def difference(self) -> Optional[Difference]:
        """Waits for what the program answers; None where that is the same, or wasn't asked."""
        if self.program is None:
            return None
        output = self.program.output()
        return None if output == b"".join((*self.answers, self.judgement.answer)) else self.first_difference(output)

    def first_difference(self, output):
        at = 0
        for place, (request, told) in enumerate((*zip(self.requests, self.answers), self.judgement)):
            if not output.startswith(told, at):
                line, newline, _ = output[at:].partition(b"\n")
                is_judgement = place == len(self.answers)
                return Difference(place, request, told, output[at:] if is_judgement else line + newline)
            at += len(told)
        return Difference(len(self.answers), *self.judgement, output[at - len(self.judgement.answer):])
