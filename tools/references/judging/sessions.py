"""Sessions of `step` as texts, and a kernel in Python that follows one with the judge beside it.

A session is a text of lines. `> REQUEST` is a request as it was written to the program, and `< ANSWER` behind it is the line that answered; of a report and of a script the bytes are left out. Blank lines and
those that begin with `#` say nothing.
"""
from typing import List, NamedTuple, Optional

from tools.commands.pages.reports import CR_LF, LF_ALONE
from tools.references.stepping.sessions import Session

REQUEST, ANSWER, COMMENT = b"> ", b"< ", b"#"


class Unreadable(Exception):
    """A text that is no session; the arguments are the line's number and what is wrong with it."""

    def __str__(self) -> str:
        return "line {}: {}".format(*self.args)


class Unlike(Exception):
    """An answer that the kernel doesn't give; the arguments are the line's number, what is told, and what the kernel answers."""


class Exchange(NamedTuple):
    """A request, the answer to it if there was one, and the number of the last line."""

    request: bytes
    answer: Optional[bytes]
    line: int


def read_session(content: bytes) -> List[Exchange]:
    """The requests of a session with their answers. Raises Unreadable."""
    found = []
    for number, line in enumerate(content.split(b"\n"), 1):
        if line.endswith(b"\r"):
            raise Unreadable(number, f"{CR_LF}: {LF_ALONE}")
        if not line.strip() or line.startswith(COMMENT):
            continue
        if line.startswith(REQUEST) or line == REQUEST.rstrip():
            found.append(Exchange(line[len(REQUEST):], None, number))
        elif line.startswith(ANSWER) and found and found[-1].answer is None:
            found[-1] = found[-1]._replace(answer=line[len(ANSWER):], line=number)
        else:
            raise Unreadable(number, "there is no request that it answers" if line.startswith(ANSWER) else "it begins neither with `> ` nor with `< `")
    return found


def session_text(exchanges) -> bytes:
    """A session as a text, of pairs of a request and its answer."""
    return b"".join(REQUEST + request + b"\n" + ANSWER + answer.partition(b"\n")[0] + b"\n" for request, answer in exchanges)


class Follower:
    """A simulated kernel that is asked as the program is, and the judge of what comes of it."""

    def __init__(self, rules, container, decided=None):
        """`decided` is the judge's."""
        self.session = Session(rules, container, decided)
        self.kernel = self.session.kernel
        self.judge = self.session.judge

    def answer(self, request: bytes) -> str:
        """The answer to a request, with its newline; of a report and of a script all of it."""
        return self.session.answer(request)

    def follow(self, exchanges):
        """Asks for all of a session. Raises Unlike where an answer isn't the kernel's."""
        for request, answer, line in exchanges:
            told = self.answer(request).partition("\n")[0].encode("latin-1")
            if answer is not None and told != answer:
                raise Unlike(line, answer, told)
