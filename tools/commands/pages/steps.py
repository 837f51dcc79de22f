"""Steps one by one: what a schedule comes to so far, and who is able to step next.

`play` plays the schedule, so workers do what the program's own do. `step` is then asked for the same steps, and says who is able.
"""
from __future__ import annotations

from typing import Any, Callable, Dict, Iterator, List, Tuple

from tools.commands.container_tree import tokens
from tools.commands.pages.reports import Event, Report, read
from tools.commands.pages.runs import Ended, Program, told_of
from tools.commands.pages.scenes import OUTCOMES
from tools.references.stepping.replay import request_of

STEP = "step"
ABLE, RECEIVE, SKIP = "able", "recv", "skip"
SEATS = 16
# a structure as `plant` writes it; which bytes it has makes no difference to who is able
PLANTED = bytes(112)
# what is said of a call and of a session that came to nothing, and what is said while they may still come to something
NOT_OVER = {OUTCOMES["open"]: "goes on", "open": "undecided so far"}


class NotFollowed(Exception):
    """`step` answers otherwise than `play` has it; the text says where."""


def before_the_end(output: bytes) -> bytes:
    """The report that was printed without the close of the listener, by which a play ends and a session goes on."""
    lines = output.split(b"\n")
    count = int(lines[0].split()[1])
    last = lines[-2].replace(b"summary events=%d " % count, b"summary events=%d " % (count - 1), 1)
    return b"\n".join([b"journal %d" % (count - 1), *lines[1:count], *lines[count + 1:-2], last, b""])


def is_followed(event: Event) -> bool:
    """Whether an event is one of the kernel, for which there is a request. A skip is none, nor is an effect of which the worker's rule was spent."""
    return event.word != SKIP and not (event.word in ("act", "plant") and event.fields[-1] == "EDQUOT")


def requests_of(report: Report) -> Iterator[str]:
    """The requests that lead through the events of a report. (The first event is the container's start.)"""
    for line, event in list(zip(report.lines[1:], report.events))[1:]:
        if is_followed(event):
            yield request_of(event.actor, tokens(line.split(" ", 2)[2]), PLANTED)


def last_events(report: Report) -> Dict[str, Event]:
    """The last event of each worker that has a notification in hand."""
    last = {}
    for event in report.events:
        if event.actor[0] == "w" and event.word != SKIP:
            last[event.actor] = event
    return {actor: event for actor, event in last.items() if event.word != "let-go" and not (event.word == RECEIVE and event.fields[0] is None)}


def answers_to(program: Program, texts: Dict[str, bytes], requests: List[str]) -> Tuple[Ended, List[str]]:
    """How `step` ended, and its answer to each request."""
    ended = program.run(STEP, texts, [], b"".join(it.encode("latin-1") + b"\n" for it in requests))
    return ended, ended.output.decode("latin-1").splitlines()


def able_of(report, answer, results):
    """The actors that are able to step: tasks, workers that go on with what they have in hand, and of the others the first one, where a notification waits.
    `results` are the answers to workers that ask what came of a descriptor."""
    names, held = answer.split()[1:], last_events(report)
    tasks = [f"t{name}" for name in names if name != RECEIVE]
    workers = [actor for actor in held if results.get(actor) != SKIP]
    idle = next((f"w{seat}" for seat in range(SEATS) if f"w{seat}" not in held), None)
    return tasks + sorted(workers + [idle] * (RECEIVE in names and idle is not None), key=lambda it: int(it[1:]))


def going_on(told: Dict[str, Any]) -> Dict[str, Any]:
    """What a page shows of a report, which isn't over: a call without an outcome, and a session without a decision, may still have one."""
    if told["status"] == 0:
        scene = told["view"]["scene"]
        scene["goes_on"] = True
        scene["notes"] = [it for it in scene["notes"] if it[0] != "open"]
        scene["tags"] = [[place, kind, NOT_OVER.get(text, text), rule] for place, kind, text, rule in scene["tags"]]
    return told


def stepped(program: Program, texts: Dict[str, bytes], draw: Callable[..., Any]) -> Dict[str, Any]:
    """What a script's schedule comes to, and who is able to step behind it. `draw` makes what a page shows of a report."""
    ended = program.run("play", texts, [])
    if ended.status:
        return told_of(program, ended)
    output = before_the_end(ended.output)
    report = read(output)
    requests = list(requests_of(report))
    putting = [actor for actor, event in last_events(report).items() if event.word == "addfd-put"]
    asked, answers = answers_to(program, texts, [*requests, ABLE, *(f"w {actor[1:]} addfd-result" for actor in putting)])
    if asked.status:
        return told_of(program, asked)
    other = next((at for at, answer in enumerate(answers[:len(requests)]) if not answer[:1].isdigit()), None)
    if other is not None or len(answers) != len(requests) + 1 + len(putting):
        raise NotFollowed(f"request {other}: {answers[other]}" if other is not None else f"{len(answers)} answers")
    able = able_of(report, answers[len(requests)], dict(zip(putting, answers[len(requests) + 1:])))
    return {**told_of(program, ended), **going_on(draw(output)), "able": able, "skipped": report.events[-1].word == SKIP}
