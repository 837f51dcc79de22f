"""Explores for the playground, with progress. The program prints only at its end; so beside what was asked for the smaller bounds are explored, one after another.

The list of histories for a bound begins the list for each greater one. So where an exploration is stopped, or its time is over, the greatest bound that has
ended is the part of it that is known.
"""
from __future__ import annotations

import re
import time
from typing import TYPE_CHECKING, Any, Callable, Dict, Iterator

from tools.commands.command_line.exploring import smaller
from tools.commands.pages.reports import NotAReport
from tools.commands.pages.views import exploration_view

if TYPE_CHECKING:
    from tools.commands.pages.runs import Program, Running

# seconds after which smaller bounds are begun, between two looks at what runs, and between two messages
BEGIN, LOOK, TURN = 0.4, 0.05, 0.5
# so long an exploration may take
USUAL_SECONDS, MOST_SECONDS = 30, 600
# no more of an exploration is sent to a page
MOST_BYTES = 8_388_608
FIRST_LINE = re.compile(rb"\A(explored workers=\d+ delays=)\S+( .* whole=)\w+\n")
EXPLORE = "explore"


class Smaller:
    """Explores the bounds below one, one after another, and keeps what the greatest of them came to that has ended."""

    def __init__(self, begin: Callable[..., Any], delays: str) -> None:
        self.begin, self.delays, self.bounds = begin, delays, smaller(delays)
        self.running, self.bound, self.known = None, None, None

    def look(self):
        """Goes on to the next bound where one has ended. Whether one has."""
        if self.running is None and self.bounds:
            self.running = self.begin(self.bounds[0])
        status = self.running.status(0) if self.running is not None else None
        if status is None:
            return False
        self.running.end()
        bound, known = self.bounds[0], known_of(cut_off(self.running.printed(), self.delays)) if status == 0 else None
        # (what fails for one bound fails for the others, and a greater one prints more)
        self.bounds, self.running = self.bounds[1:] if known is not None else [], None
        if known is not None:
            self.bound, self.known = bound, known
        return known is not None

    def end(self) -> None:
        if self.running is not None:
            self.running.end()

    def counts(self):
        """How far it is."""
        view = self.known["view"] if self.known is not None else {"histories": "0", "outcomes": []}
        return {"bound": self.bound, "histories": view["histories"], "outcomes": len(view["outcomes"])}


def known_of(output: bytes) -> Any:
    """What a page shows of an output, and the output; None where that is too much, or nothing that can be read."""
    if len(output) > MOST_BYTES:
        return None
    try:
        return {"view": exploration_view(output), "output": output.decode("ascii")}
    except NotAReport:
        return None


def cut_off(output, delays):
    """What is known of an exploration with these delays by the output for a smaller bound."""
    return FIRST_LINE.sub(lambda found: found[1] + delays.encode() + found[2] + b"no\n", output, count=1)


def explored(program: Program, texts: Dict[str, bytes], workers: int, delays: str, seconds: int) -> Iterator[Dict[str, Any]]:
    """The messages of an exploration: progress, what is known so far each time that there is more of it, and at last how it ended."""
    begun = told = time.monotonic()
    whole, found = program.begun(EXPLORE, texts, (workers, delays)), Smaller(lambda bound: program.begun(EXPLORE, texts, (workers, bound)), delays)
    try:
        while True:
            status, took = whole.status(LOOK), time.monotonic() - begun
            if status is not None:
                yield last_message(program, whole, status, texts, took)
                return
            if took > BEGIN and found.look():
                yield {"seconds": round(took, 1), **found.counts(), "known": found.known}
            if took > seconds:
                yield {"seconds": round(took, 1), **found.counts(), "over": "limit"}
                return
            if time.monotonic() - told > TURN:
                told = time.monotonic()
                yield {"seconds": round(took, 1), **found.counts()}
    finally:
        whole.end()
        found.end()


def last_message(program: Program, whole: Running, status: int, texts: Dict[str, bytes], took: float) -> Dict[str, Any]:
    """The message of an exploration that ended by itself."""
    whole.end()
    ended = program.ended(whole, status, texts)
    line = ended.line or (f"The program ended with status {status}." if status else "")
    told = {"over": "ended", "seconds": round(took, 1), "status": status, "line": line, "marked": ended.marked, **program.about()}
    if status != 0:
        return told
    known = known_of(ended.output)
    if known is None:
        return {**told, "status": None, "line": f"The exploration has {len(ended.output):,} bytes, and this page shows no more than {MOST_BYTES:,}. `./broker explore` prints it."}
    return {**told, "known": known}
